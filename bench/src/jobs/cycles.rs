//! Messages on their whole way, and the calls of it one by one.
use super::{Job, LENGTH, fill, filled, leave};
use crate::side::{Bytes, FIRST_TSN, Side};
use crate::stopwatch::{Answers, Stopwatch, Timed};

/// What becomes of the bytes, in the name of a case.
fn way(bytes: Bytes) -> &'static str {
    match bytes {
        Bytes::AsTheCallsAre => "as the calls are",
        Bytes::BothCopy => "both copy the bytes",
        Bytes::NeitherCopies => "neither copies",
    }
}

/// Write, send, acknowledge the oldest, pop it, release it, over and over: as many stay in flight.
fn turns<S: Side>(side: &mut S, bytes: Bytes, stream: u16, first: u32, turns: usize, answers: &mut Answers) {
    let now = side.time(1);
    for turn in 0..turns {
        side.write(bytes, stream, LENGTH);
        answers.chunk(side.send(now));
        leave(side, stream, first.wrapping_add(turn as u32), answers);
    }
}

/// Turns before the timed ones: they have used every slot of the rings, and the TSNs have wrapped.
const WARMING: usize = 600;
/// The oldest TSN in flight behind them.
const OLDEST: u32 = FIRST_TSN.wrapping_add(WARMING as u32);

fn warmed<S: Side>(mut side: S, bytes: Bytes, stream: u16, flight: usize, answers: &mut Answers) -> S {
    fill(&mut side, bytes, stream, flight, answers);
    turns(&mut side, bytes, stream, FIRST_TSN, WARMING, answers);
    side
}

fn cycle<S: Side>(side: S, bytes: Bytes, stream: u16, flight: usize, repetitions: usize) -> Timed {
    let mut watch = Stopwatch::default();
    let mut side = warmed(side, bytes, stream, flight, &mut watch.answers);
    watch.time(repetitions, |answers| turns(&mut side, bytes, stream, OLDEST, repetitions, answers));
    watch.answers.number((side.in_flight() << 16 ^ side.pending()) as u64);
    watch.finish()
}

/// The cycle on the first of two streams.
pub struct Cycle {
    pub bytes: Bytes,
    pub flight: usize,
}

impl Job for Cycle {
    fn name(&self) -> String {
        format!("write + send + ack + pop + released, {}", way(self.bytes))
    }
    fn size(&self) -> Option<usize> {
        Some(self.flight)
    }
    fn run<S: Side>(&self, repetitions: usize) -> Timed {
        cycle(S::fresh(LENGTH as u32, 0), self.bytes, 1, self.flight, repetitions)
    }
}

/// The cycle on the stream that was opened last, which is the last to be found.
pub struct CycleOnLast {
    pub bytes: Bytes,
    pub streams: u16,
}

impl Job for CycleOnLast {
    fn name(&self) -> String {
        format!("the cycle on the stream opened last, 10 in flight, {} (number: streams)", way(self.bytes))
    }
    fn size(&self) -> Option<usize> {
        Some(self.streams.into())
    }
    fn run<S: Side>(&self, repetitions: usize) -> Timed {
        let mut side = S::fresh(LENGTH as u32, 0);
        (3..=self.streams).for_each(|stream| side.open(stream, LENGTH as u32, 0));
        cycle(side, self.bytes, self.streams, 10, repetitions)
    }
}

/// One turn of the cycle on each of many senders, which no cache holds together.
pub struct CycleOnMany {
    pub bytes: Bytes,
    pub senders: usize,
}

impl Job for CycleOnMany {
    fn name(&self) -> String {
        format!("the cycle on one sender after the other, 2 in flight, {} (number: senders)", way(self.bytes))
    }
    fn size(&self) -> Option<usize> {
        Some(self.senders)
    }
    fn run<S: Side>(&self, repetitions: usize) -> Timed {
        let mut watch = Stopwatch::default();
        let one = |_| warmed(S::fresh(LENGTH as u32, 0), self.bytes, 1, 2, &mut watch.answers);
        let mut sides: Vec<S> = (0..self.senders).map(one).collect();
        let mut pass = |turn: u32, answers: &mut Answers| {
            sides.iter_mut().for_each(|side| turns(side, self.bytes, 1, OLDEST.wrapping_add(turn), 1, answers));
        };
        // what the caches hold before the timed passes is what a pass leaves there
        pass(0, &mut watch.answers);
        watch.time(repetitions * self.senders, |answers| {
            (1..=repetitions as u32).for_each(|turn| pass(turn, answers));
        });
        watch.finish()
    }
}

/// Messages of so many fragments, each alone from its write to its release.
pub struct Fragmented {
    pub bytes: Bytes,
    pub fragments: usize,
}

impl Fragmented {
    fn turn<S: Side>(&self, side: &mut S, oldest: u32, answers: &mut Answers) {
        let now = side.time(1);
        side.write(self.bytes, 1, LENGTH * self.fragments);
        (0..self.fragments).for_each(|_| answers.chunk(side.send(now)));
        for tsn in (0..self.fragments as u32).map(|i| oldest.wrapping_add(i)) {
            answers.number(side.acknowledge(tsn));
            answers.chunk(side.pop(tsn));
        }
        answers.flag(side.release(1, (LENGTH * self.fragments) as i64));
    }
}

impl Job for Fragmented {
    fn name(&self) -> String {
        format!("a message, each fragment sent, acknowledged, popped, {} (number: fragments)", way(self.bytes))
    }
    fn size(&self) -> Option<usize> {
        Some(self.fragments)
    }
    fn run<S: Side>(&self, repetitions: usize) -> Timed {
        let mut watch = Stopwatch::default();
        let mut side = S::fresh(LENGTH as u32, 0);
        watch.time(repetitions, |answers| {
            for turn in 0..repetitions {
                self.turn(&mut side, FIRST_TSN.wrapping_add((turn * self.fragments) as u32), answers);
            }
        });
        watch.finish()
    }
}

#[derive(Clone, Copy, PartialEq, Eq)]
pub enum Order {
    OldestFirst,
    Mixed,
}

/// So many messages are written, then all are sent, then acknowledged, then popped and released.
pub struct Burst {
    pub messages: usize,
    pub order: Order,
}

impl Burst {
    fn turn<S: Side>(&self, side: &mut S, oldest: u32, acknowledged: &[u32], answers: &mut Answers) {
        let now = side.time(1);
        (0..self.messages).for_each(|_| side.write(Bytes::AsTheCallsAre, 1, LENGTH));
        (0..self.messages).for_each(|_| answers.chunk(side.send(now)));
        acknowledged.iter().for_each(|i| answers.number(side.acknowledge(oldest.wrapping_add(*i))));
        for i in 0..self.messages as u32 {
            answers.chunk(side.pop(oldest.wrapping_add(i)));
            answers.flag(side.release(1, LENGTH as i64));
        }
    }
}

impl Job for Burst {
    fn name(&self) -> String {
        let order = match self.order {
            Order::OldestFirst => "in order",
            Order::Mixed => "out of order",
        };
        format!("a burst, acknowledged {order}; a message (number: messages)")
    }
    fn size(&self) -> Option<usize> {
        Some(self.messages)
    }
    fn run<S: Side>(&self, repetitions: usize) -> Timed {
        /// Prime, and no factor of a number of messages: every place comes once.
        const STRIDE: u32 = 7;
        let mut watch = Stopwatch::default();
        let mut side = S::fresh(LENGTH as u32, 0);
        let messages = self.messages as u32;
        let mixed = |i| if self.order == Order::Mixed { i * STRIDE % messages } else { i };
        let acknowledged: Vec<u32> = (0..messages).map(mixed).collect();
        watch.time(repetitions * self.messages, |answers| {
            for turn in 0..repetitions {
                let oldest = FIRST_TSN.wrapping_add((turn * self.messages) as u32);
                self.turn(&mut side, oldest, &acknowledged, answers);
            }
        });
        watch.answers.number((side.in_flight() << 16 ^ side.pending()) as u64);
        watch.finish()
    }
}

/// One call of the cycle.
#[derive(Clone, Copy, PartialEq, Eq)]
pub enum Call {
    Write,
    Send,
    Acknowledge,
    Pop,
    Release,
}

impl Call {
    pub const ALL: [Call; 5] = [Call::Write, Call::Send, Call::Acknowledge, Call::Pop, Call::Release];

    fn make<S: Side>(self, side: &mut S, now: S::Time, oldest: u32, answers: &mut Answers) {
        match self {
            Call::Write => side.write(Bytes::AsTheCallsAre, 1, LENGTH),
            Call::Send => answers.chunk(side.send(now)),
            Call::Acknowledge => answers.number(side.acknowledge(oldest)),
            Call::Pop => answers.chunk(side.pop(oldest)),
            Call::Release => answers.flag(side.release(1, LENGTH as i64)),
        }
    }
}

/// One call of the cycle by itself: each of the five is made four times in a row, and only one of the five is timed.
pub struct Alone {
    pub call: Call,
    pub flight: usize,
}

impl Job for Alone {
    fn name(&self) -> String {
        let call = match self.call {
            Call::Write => "write, as the calls are",
            Call::Send => "send",
            Call::Acknowledge => "acknowledge",
            Call::Pop => "pop",
            Call::Release => "released",
        };
        format!("{call}, alone")
    }
    fn size(&self) -> Option<usize> {
        Some(self.flight)
    }
    fn run<S: Side>(&self, repetitions: usize) -> Timed {
        const BLOCK: u32 = 4;
        let mut watch = Stopwatch::default();
        let mut side: S = filled(0, self.flight, Bytes::AsTheCallsAre, &mut watch.answers);
        let now = side.time(1);
        let mut oldest = FIRST_TSN;
        for _ in 0..repetitions {
            for call in Call::ALL {
                let mut block = |answers: &mut Answers| {
                    (0..BLOCK).for_each(|i| call.make(&mut side, now, oldest.wrapping_add(i), answers));
                };
                if call == self.call {
                    watch.time(BLOCK as usize, block);
                } else {
                    block(&mut watch.answers);
                }
            }
            oldest = oldest.wrapping_add(BLOCK);
        }
        watch.finish()
    }
}
