//! Times parts of a run, and takes the answers in.
use std::arch::asm;
use std::hint::black_box;
use std::sync::OnceLock;
use std::time::{Duration, Instant};

use crate::side::{Chunk, Freed};

/// The answers of a run in their order, as one number: all sides must come to the same.
#[derive(Default)]
pub struct Answers(u64);

impl Answers {
    pub fn number(&mut self, number: u64) {
        self.0 = self.0.rotate_left(5) ^ number;
    }
    pub fn flag(&mut self, flag: bool) {
        self.number(u64::from(flag));
    }
    pub fn chunk(&mut self, chunk: Option<Chunk>) {
        let chunk = chunk.expect("a chunk");
        self.number(u64::from(chunk.tsn) ^ chunk.length << 32 ^ u64::from(chunk.ssn) << 48);
        self.number(chunk.number ^ u64::from(chunk.stream) << 48);
    }
    pub fn freed(&mut self, freed: Option<Freed>) {
        let freed = freed.expect("something is freed");
        self.number(freed.bytes ^ u64::from(freed.stream) << 48);
    }
}

/// What a run took, and what it answered.
#[derive(Clone, Copy, Default)]
pub struct Timed {
    /// Nanoseconds a call.
    pub nanos: f64,
    pub answers: u64,
}

#[derive(Default)]
pub struct Stopwatch {
    elapsed: Duration,
    blocks: usize,
    calls: usize,
    pub answers: Answers,
}

impl Stopwatch {
    /// Times one block of so many calls.
    pub fn time(&mut self, calls: usize, block: impl FnOnce(&mut Answers)) {
        let start = Instant::now();
        block(&mut self.answers);
        self.elapsed += start.elapsed();
        self.blocks += 1;
        self.calls += calls;
    }
    /// Without what the clock itself took.
    pub fn finish(self) -> Timed {
        let nanos = self.elapsed.as_nanos() as f64 - self.blocks as f64 * reading_cost();
        Timed { nanos: nanos.max(0.0) / self.calls as f64, answers: black_box(self.answers.0) }
    }
}

/// The same, of which the compiler knows nothing any more, so that it makes every call. std's `black_box` would do too, but it stores the address and
/// loads it again, and that load waits for what the call before has stored.
pub fn anew<T>(it: &mut T) -> &mut T {
    let mut address: *mut T = it;
    // SAFETY: the text is empty, so the address stays what it was, that of `it`.
    unsafe {
        asm!("/* {} */", inout(reg) address, options(nostack, preserves_flags));
        &mut *address
    }
}

/// What an empty block takes, in nanoseconds: the median of many means.
pub fn reading_cost() -> f64 {
    static COST: OnceLock<f64> = OnceLock::new();
    *COST.get_or_init(|| {
        let mut means: Vec<f64> = (0..101).map(|_| mean_of_empty_blocks(200)).collect();
        means.sort_by(f64::total_cmp);
        means[means.len() / 2]
    })
}

fn mean_of_empty_blocks(blocks: u32) -> f64 {
    let mut elapsed = Duration::ZERO;
    for _ in 0..blocks {
        let start = Instant::now();
        black_box(());
        elapsed += start.elapsed();
    }
    elapsed.as_nanos() as f64 / f64::from(blocks)
}
