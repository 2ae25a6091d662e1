//! The timers and the round-trip estimator.

use super::Job;
use crate::side::{Clockwork, Side};
use crate::stopwatch::{Answers, Stopwatch, Timed, anew};

const T1_INIT: usize = 0;
const T3_RTX: usize = 3;
const ACK: usize = 5;
/// How many times are made beforehand.
const TIMES: usize = 64;

fn times<C: Clockwork>(timers: &C, first: u64) -> [C::Time; TIMES] {
    core::array::from_fn(|i| timers.time(first + i as u64))
}

pub enum TimerJob {
    Start,
    ExpiryAndBackOff,
    MostDoublings,
    NextTimeout,
    Measure,
}

impl TimerJob {
    fn turn<C: Clockwork>(&self, timers: &mut C, turn: usize, now: C::Time, late: C::Time, answers: &mut Answers) {
        match self {
            TimerJob::Start => timers.start(T3_RTX, now, 1000),
            TimerJob::ExpiryAndBackOff => {
                let (expired, failure, count) = timers.is_expired(T3_RTX, late);
                answers.number(count << 2 ^ u64::from(failure) << 1 ^ u64::from(expired));
                if turn % 8 == 7 {
                    timers.stop(T3_RTX);
                }
                timers.start(T3_RTX, now, 1000);
            }
            TimerJob::MostDoublings => timers.start(T3_RTX, now, 0),
            TimerJob::NextTimeout => answers.flag(timers.next_timeout().is_some()),
            TimerJob::Measure => answers.number(timers.measure(100 + (turn as u64 * 7919) % 400)),
        }
    }
}

impl Job for TimerJob {
    fn name(&self) -> String {
        match self {
            TimerJob::Start => "timers: start".into(),
            TimerJob::ExpiryAndBackOff => {
                "timers: expiry, then start with back-off (two calls; a stop after eight)".into()
            }
            TimerJob::MostDoublings => "timers: start with an interval of 0, 30 expiries counted".into(),
            TimerJob::NextTimeout => "timers: next timeout, three set".into(),
            TimerJob::Measure => "RTO: measure".into(),
        }
    }
    fn size(&self) -> Option<usize> {
        None
    }
    fn run<S: Side>(&self, repetitions: usize) -> Timed {
        let mut watch = Stopwatch::default();
        let mut timers = S::Timers::fresh();
        let (now, late) = (times(&timers, 1), times(&timers, 100_000));
        [T1_INIT, T3_RTX, ACK].iter().for_each(|timer| timers.start(*timer, now[0], 900));
        if let TimerJob::MostDoublings = self {
            for _ in 0..30 {
                timers.is_expired(T3_RTX, late[0]);
            }
        }
        watch.time(repetitions, |answers| {
            for turn in 0..repetitions {
                let i = turn % TIMES;
                self.turn(anew(&mut timers), turn, now[i], late[i], answers);
            }
        });
        for others in [[].as_slice(), &[T1_INIT, ACK]] {
            others.iter().for_each(|timer| timers.stop(*timer));
            let next = timers.next_timeout().expect("T3-RTX is set");
            watch.answers.number(timers.milliseconds(next));
        }
        let (rto, rttvar) = timers.estimate();
        watch.answers.number(rto);
        watch.answers.number(rttvar);
        watch.finish()
    }
}
