//! The cases. A job is the same work for every side; what prepares a state stands outside the timed part.
pub mod cycles;
pub mod data;
pub mod expiries;
pub mod questions;
pub mod sacks;
pub mod timers;

use crate::side::{Bytes, Side};
use crate::stopwatch::{Answers, Timed};

pub trait Job {
    fn name(&self) -> String;
    /// How many are in flight, pending or new; none where that means nothing.
    fn size(&self) -> Option<usize>;
    fn run<S: Side>(&self, repetitions: usize) -> Timed;
}

/// Bytes of a message, and its only fragment.
const LENGTH: usize = 1200;
/// Bytes of a fragment where one message fills a ring.
const FRAGMENT: usize = 60;
/// Milliseconds; a chunk sent at 1 is due at `LATE`.
const LIFETIME: u32 = 50;
const LATE: u64 = 1000;

/// Sends `flight` messages of one chunk.
fn fill<S: Side>(side: &mut S, bytes: Bytes, stream: u16, flight: usize, answers: &mut Answers) {
    let now = side.time(1);
    for _ in 0..flight {
        side.write(bytes, stream, LENGTH);
        answers.chunk(side.send(now));
    }
}

/// A side with `flight` messages of one chunk in flight, all on stream 1.
fn filled<S: Side>(lifetime: u32, flight: usize, bytes: Bytes, answers: &mut Answers) -> S {
    let mut side = S::fresh(LENGTH as u32, lifetime);
    fill(&mut side, bytes, 1, flight, answers);
    side
}

/// Writes `messages` of 100 bytes on stream 1.
fn pending<S: Side>(messages: usize) -> S {
    let mut side = S::fresh(LENGTH as u32, LIFETIME);
    for _ in 0..messages {
        side.write(Bytes::AsTheCallsAre, 1, 100);
    }
    side
}

fn leave<S: Side>(side: &mut S, stream: u16, tsn: u32, answers: &mut Answers) {
    answers.number(side.acknowledge(tsn));
    answers.chunk(side.pop(tsn));
    answers.flag(side.release(stream, LENGTH as i64));
}
