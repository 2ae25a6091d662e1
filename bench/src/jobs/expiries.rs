//! What expires or is abandoned, and the lifetimes that lead there.

use super::{FRAGMENT, Job, LATE, LENGTH, LIFETIME, filled, leave, pending};
use crate::side::{Bytes, FIRST_TSN, Side};
use crate::stopwatch::{Answers, Stopwatch, Timed, anew};

#[derive(Clone, Copy, PartialEq, Eq)]
pub enum Traffic {
    NothingToDo,
    OneMessage,
}

/// What a host does each time something has happened (docs/HOST.md), with timed messages of which none is due.
pub struct HostRound {
    pub flight: usize,
    pub traffic: Traffic,
}

impl HostRound {
    fn turn<S: Side>(&self, side: &mut S, now: S::Time, oldest: u32, answers: &mut Answers) {
        if self.traffic == Traffic::OneMessage {
            side.write(Bytes::AsTheCallsAre, 1, LENGTH);
        }
        side.start_lifetimes(now);
        answers.number(side.expired(now) as u64);
        loop {
            answers.flag(side.expire_pending(now).is_some());
            answers.flag(side.expire_pending_tail(now).is_some());
            if side.pending() == 0 {
                break;
            }
            answers.chunk(side.send(now));
        }
        if self.traffic == Traffic::OneMessage {
            leave(side, 1, oldest, answers);
        }
    }
}

impl Job for HostRound {
    fn name(&self) -> String {
        let traffic = match self.traffic {
            Traffic::NothingToDo => "nothing to do",
            Traffic::OneMessage => "one message through",
        };
        format!("a host's round, timed messages, {traffic}")
    }
    fn size(&self) -> Option<usize> {
        Some(self.flight)
    }
    fn run<S: Side>(&self, repetitions: usize) -> Timed {
        let mut watch = Stopwatch::default();
        let mut side: S = filled(LIFETIME, self.flight, Bytes::AsTheCallsAre, &mut watch.answers);
        let now = side.time(1);
        watch.time(repetitions, |answers| {
            for turn in 0..repetitions as u32 {
                self.turn(anew(&mut side), now, FIRST_TSN.wrapping_add(turn), answers);
            }
        });
        watch.answers.number((side.in_flight() << 16 ^ side.pending()) as u64);
        watch.finish()
    }
}

/// A message of so many fragments, half of them sent, is abandoned.
pub struct AbandonHalfSent {
    pub fragments: usize,
}

impl Job for AbandonHalfSent {
    fn name(&self) -> String {
        "abandon a message, half of its fragments sent (number: fragments)".into()
    }
    fn size(&self) -> Option<usize> {
        Some(self.fragments)
    }
    fn run<S: Side>(&self, repetitions: usize) -> Timed {
        let mut watch = Stopwatch::default();
        for _ in 0..repetitions {
            let mut side = S::fresh(FRAGMENT as u32, 0);
            let now = side.time(1);
            side.write(Bytes::AsTheCallsAre, 1, FRAGMENT * self.fragments);
            (0..self.fragments / 2).for_each(|_| watch.answers.chunk(side.send(now)));
            watch.time(1, |answers| answers.freed(side.abandon(FIRST_TSN)));
            watch.answers.number((side.in_flight() << 16 ^ side.pending()) as u64);
        }
        watch.finish()
    }
}

/// Messages of one chunk, all sent, are abandoned one after the other.
pub struct AbandonSent {
    pub flight: usize,
}

impl Job for AbandonSent {
    fn name(&self) -> String {
        "abandon a sent message of one chunk".into()
    }
    fn size(&self) -> Option<usize> {
        Some(self.flight)
    }
    fn run<S: Side>(&self, repetitions: usize) -> Timed {
        let mut watch = Stopwatch::default();
        for _ in 0..repetitions {
            let mut side: S = filled(0, self.flight, Bytes::AsTheCallsAre, &mut watch.answers);
            watch.time(self.flight, |answers| {
                (0..self.flight as u32).for_each(|i| answers.freed(side.abandon(FIRST_TSN.wrapping_add(i))));
            });
        }
        watch.finish()
    }
}

/// All that is in flight is due: the list is made, and each of it abandoned.
pub struct AllDue {
    pub flight: usize,
}

impl Job for AllDue {
    fn name(&self) -> String {
        "all in flight are due: the list, and each abandoned; a message".into()
    }
    fn size(&self) -> Option<usize> {
        Some(self.flight)
    }
    fn run<S: Side>(&self, repetitions: usize) -> Timed {
        let mut watch = Stopwatch::default();
        for _ in 0..repetitions {
            let mut side: S = filled(LIFETIME, self.flight, Bytes::AsTheCallsAre, &mut watch.answers);
            let now = side.time(LATE);
            watch.time(self.flight, |answers| {
                for i in 0..side.expired(now) {
                    let tsn = side.listed(i);
                    answers.freed(side.abandon(tsn));
                }
            });
            watch.answers.number(side.expired(now) as u64);
        }
        watch.finish()
    }
}

#[derive(Clone, Copy, PartialEq, Eq)]
pub enum Flight {
    NoneDue,
    NoneAcknowledged,
    AllAcknowledged,
}

/// The list of expired TSNs.
pub struct Expired {
    pub flight: usize,
    pub state: Flight,
}

impl Job for Expired {
    fn name(&self) -> String {
        let state = match self.state {
            Flight::NoneDue => "none is due",
            Flight::NoneAcknowledged => "all due, none acknowledged",
            Flight::AllAcknowledged => "all due and acknowledged, as many pending",
        };
        format!("expired list, {state}")
    }
    fn size(&self) -> Option<usize> {
        Some(self.flight)
    }
    fn run<S: Side>(&self, repetitions: usize) -> Timed {
        let mut watch = Stopwatch::default();
        let mut side: S = filled(LIFETIME, self.flight, Bytes::AsTheCallsAre, &mut watch.answers);
        if self.state == Flight::AllAcknowledged {
            for i in 0..self.flight as u32 {
                watch.answers.number(side.acknowledge(FIRST_TSN.wrapping_add(i)));
                side.write(Bytes::AsTheCallsAre, 2, LENGTH);
            }
        }
        let now = side.time(if self.state == Flight::NoneDue { 1 } else { LATE });
        let due = side.expired(now);
        (0..due).for_each(|i| watch.answers.number(side.listed(i).into()));
        watch.time(repetitions, |answers| {
            (0..repetitions).for_each(|_| answers.number(anew(&mut side).expired(now) as u64));
        });
        watch.finish()
    }
}

/// Messages of one chunk, all due, go one after the other.
pub struct ExpirePending {
    pub messages: usize,
}

impl Job for ExpirePending {
    fn name(&self) -> String {
        "expire_pending, until none is left (number: pending at first)".into()
    }
    fn size(&self) -> Option<usize> {
        Some(self.messages)
    }
    fn run<S: Side>(&self, repetitions: usize) -> Timed {
        let mut watch = Stopwatch::default();
        for _ in 0..repetitions {
            let mut side: S = pending(self.messages);
            side.start_lifetimes(side.time(1));
            let now = side.time(LATE);
            watch.time(self.messages, |answers| {
                (0..self.messages).for_each(|_| answers.freed(side.expire_pending(now)));
            });
            watch.answers.flag(side.expire_pending(now).is_none());
        }
        watch.finish()
    }
}

/// The rest of a message expires; its first fragment was sent, acknowledged and popped.
pub struct ExpirePendingTail {
    pub rest: usize,
}

impl Job for ExpirePendingTail {
    fn name(&self) -> String {
        "expire_pending_tail (number: fragments pending)".into()
    }
    fn size(&self) -> Option<usize> {
        Some(self.rest)
    }
    fn run<S: Side>(&self, repetitions: usize) -> Timed {
        let mut watch = Stopwatch::default();
        for _ in 0..repetitions {
            let mut side = S::fresh(FRAGMENT as u32, LIFETIME);
            side.write(Bytes::AsTheCallsAre, 1, FRAGMENT * (self.rest + 1));
            watch.answers.chunk(side.send(side.time(1)));
            leave(&mut side, 1, FIRST_TSN, &mut watch.answers);
            let now = side.time(LATE);
            watch.time(1, |answers| answers.freed(side.expire_pending_tail(now)));
            watch.answers.number((side.in_flight() << 16 ^ side.pending()) as u64);
        }
        watch.finish()
    }
}

/// Lifetimes of messages of one chunk that are all new.
pub struct StartLifetimes {
    pub messages: usize,
}

impl Job for StartLifetimes {
    fn name(&self) -> String {
        "start lifetimes (number: new)".into()
    }
    fn size(&self) -> Option<usize> {
        Some(self.messages)
    }
    fn run<S: Side>(&self, repetitions: usize) -> Timed {
        let mut watch = Stopwatch::default();
        for _ in 0..repetitions {
            let mut side: S = pending(self.messages);
            let now = side.time(1);
            watch.time(1, |_| side.start_lifetimes(now));
            let due = side.time(1 + u64::from(LIFETIME));
            watch.answers.flag(side.expire_pending(side.time(u64::from(LIFETIME))).is_none());
            watch.answers.freed(side.expire_pending(due));
            watch.answers.chunk(side.send(due));
        }
        watch.finish()
    }
}

/// The same where every lifetime runs already.
pub struct NothingNew {
    pub messages: usize,
}

impl Job for NothingNew {
    fn name(&self) -> String {
        "start lifetimes, nothing new (number: pending)".into()
    }
    fn size(&self) -> Option<usize> {
        Some(self.messages)
    }
    fn run<S: Side>(&self, repetitions: usize) -> Timed {
        let mut watch = Stopwatch::default();
        let mut side: S = pending(self.messages);
        let now = side.time(1);
        side.start_lifetimes(now);
        watch.time(repetitions, |_| (0..repetitions).for_each(|_| anew(&mut side).start_lifetimes(now)));
        watch.answers.freed(side.expire_pending(side.time(LATE)));
        watch.finish()
    }
}
