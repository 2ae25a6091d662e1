//! The peer's SACK: bytes in, what they released out.
use super::{Job, LENGTH, fill};
use crate::side::{Bytes, FIRST_TSN, Side};
use crate::stopwatch::{Stopwatch, Timed};

/// What a SACK tells of a flight.
#[derive(Clone, Copy, PartialEq, Eq)]
pub enum Told {
    /// All of it, by the cumulative TSN.
    All,
    /// Three entries of each five, in a block.
    Gaps,
    /// Blocks as many, each over what the one before has and a little more.
    Overlaps,
}

/// A SACK for each flight of so many entries, which are sent before and go behind it.
pub struct Sack {
    pub flight: usize,
    pub told: Told,
}

fn chunk(cumulative: u32, blocks: &[(u16, u16)]) -> Vec<u8> {
    let mut bytes = [[3, 0], (16 + 4 * blocks.len() as u16).to_be_bytes()].concat();
    bytes.extend(cumulative.to_be_bytes());
    bytes.extend(65_536u32.to_be_bytes());
    bytes.extend([blocks.len() as u16, 0].map(u16::to_be_bytes).concat());
    blocks.iter().for_each(|(start, end)| bytes.extend([*start, *end].map(u16::to_be_bytes).concat()));
    bytes
}

impl Sack {
    fn blocks(&self) -> Vec<(u16, u16)> {
        let (flight, fifth) = (self.flight as u16, self.flight as u16 / 5);
        match self.told {
            Told::All => vec![],
            Told::Gaps => (0..fifth).map(|i| (5 * i + 2, 5 * i + 4)).collect(),
            Told::Overlaps => (0..fifth).map(|i| (2 * i + 1, flight - 3 * (fifth - i - 1))).collect(),
        }
    }
}

impl Job for Sack {
    fn name(&self) -> String {
        match self.told {
            Told::All => "a SACK of all in flight, in order".into(),
            Told::Gaps => "a SACK with a gap block for each five in flight".into(),
            Told::Overlaps => "a SACK with as many blocks, all overlapping".into(),
        }
    }
    fn size(&self) -> Option<usize> {
        Some(self.flight)
    }
    fn run<S: Side>(&self, repetitions: usize) -> Timed {
        let mut watch = Stopwatch::default();
        let mut side = S::fresh(LENGTH as u32, 0);
        let blocks = self.blocks();
        for turn in 0..repetitions {
            let before = FIRST_TSN.wrapping_add((turn * self.flight) as u32).wrapping_sub(1);
            let newest = before.wrapping_add(self.flight as u32);
            fill(&mut side, Bytes::AsTheCallsAre, 1, self.flight, &mut watch.answers);
            let told = S::packet(&chunk(if self.told == Told::All { newest } else { before }, &blocks));
            watch.time(1, |answers| answers.number(side.sack(&told).expect("it is not stale")));
            watch.answers.number(side.in_flight() as u64 ^ u64::from(side.earliest_outstanding().unwrap_or(0)) << 16);
            if self.told != Told::All {
                let rest = S::packet(&chunk(newest, &[]));
                watch.answers.number(side.sack(&rest).expect("it is not stale"));
            }
            watch.answers.flag(side.release(1, (LENGTH * self.flight) as i64));
        }
        watch.answers.number((side.in_flight() << 16 ^ side.pending()) as u64);
        watch.finish()
    }
}
