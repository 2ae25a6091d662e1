//! DATA chunks into lent bytes, and the least that can cost: a copy of as many bytes.
use std::hint::black_box;

use super::{Job, LENGTH, filled};
use crate::side::{Bytes, FIRST_TSN, Output, Side};
use crate::stopwatch::{Stopwatch, Timed};

/// The bytes of a chunk: its header and its payload, which needs no padding.
const CHUNK: usize = 16 + LENGTH;

/// The chunk of each of so many entries in flight.
pub struct Data {
    pub flight: usize,
    pub output: Output,
}

impl Job for Data {
    fn name(&self) -> String {
        match self.output {
            Output::Anew => "a DATA chunk of 1,200 bytes".into(),
            Output::Kept => "a DATA chunk of 1,200 bytes, into a buffer that is there".into(),
        }
    }
    fn size(&self) -> Option<usize> {
        Some(self.flight)
    }
    fn run<S: Side>(&self, repetitions: usize) -> Timed {
        let mut watch = Stopwatch::default();
        let mut side: S = filled(0, self.flight, Bytes::BothCopy, &mut watch.answers);
        for turn in 0..repetitions {
            let tsn = |i: usize| FIRST_TSN.wrapping_add(i as u32);
            watch.time(self.flight, |answers| {
                (0..self.flight).for_each(|i| answers.number(side.data(self.output, tsn(i)) as u64));
            });
            let last = side.data(self.output, tsn(turn % self.flight));
            side.written()[..last].chunks(8).for_each(|bytes| watch.answers.number(bytes.iter().fold(0, |sum, byte| sum << 8 | u64::from(*byte))));
        }
        watch.finish()
    }
}

/// `memcpy` of as many bytes, the same for every side.
pub struct Copy;

impl Job for Copy {
    fn name(&self) -> String {
        "`memcpy` of as many bytes".into()
    }
    fn size(&self) -> Option<usize> {
        None
    }
    fn run<S: Side>(&self, repetitions: usize) -> Timed {
        const COPIES: usize = 100;
        let mut watch = Stopwatch::default();
        let from = vec![7u8; CHUNK];
        let mut to = vec![0u8; CHUNK];
        for _ in 0..repetitions {
            watch.time(COPIES, |_| {
                for _ in 0..COPIES {
                    black_box(&mut to[..]).copy_from_slice(black_box(&from[..]));
                }
            });
            watch.answers.number(to[CHUNK - 1].into());
        }
        watch.finish()
    }
}
