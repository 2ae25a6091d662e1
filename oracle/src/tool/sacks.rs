//! SACKs as lines: their bytes are put on the wire, then read. Good ones at every end, stale ones, and each reason to
//! refuse one, alone.

use crate::generator::Generator;

/// So many blocks more leave the length as it is, modulo 2^16.
const TURN: u16 = 16_384;
/// So many blocks at most, but in a long one.
const BLOCKS: u64 = 6;

/// What the bytes say. The counts and the length may say otherwise than what stands behind them.
struct Sack {
    kind: u8,
    flags: u8,
    length: u16,
    cumulative: u32,
    window: u32,
    block_count: u16,
    duplicate_count: u16,
    blocks: Vec<(u16, u16)>,
    duplicates: Vec<u32>,
    /// The bytes that are lent.
    lent: u64,
}

impl Sack {
    fn new(cumulative: u32, blocks: Vec<(u16, u16)>, duplicates: Vec<u32>) -> Self {
        let length = (16 + 4 * (blocks.len() + duplicates.len())) as u16;
        Sack {
            kind: 3,
            flags: 0,
            length,
            cumulative,
            window: 1 << 16,
            block_count: blocks.len() as u16,
            duplicate_count: duplicates.len() as u16,
            blocks,
            duplicates,
            lent: length.into(),
        }
    }

    fn bytes(&self) -> Vec<u8> {
        let mut bytes = vec![self.kind, self.flags];
        bytes.extend(self.length.to_be_bytes());
        bytes.extend(self.cumulative.to_be_bytes());
        bytes.extend(self.window.to_be_bytes());
        bytes.extend(self.block_count.to_be_bytes());
        bytes.extend(self.duplicate_count.to_be_bytes());
        for (start, end) in &self.blocks {
            bytes.extend(start.to_be_bytes());
            bytes.extend(end.to_be_bytes());
        }
        self.duplicates.iter().for_each(|tsn| bytes.extend(tsn.to_be_bytes()));
        bytes
    }
}

impl Generator {
    /// A SACK of any kind, and sometimes the same once more.
    pub fn sack(&mut self) {
        let sack = match self.random.below(20) {
            0..12 => self.good_sack(),
            12..15 => self.stale_sack(),
            15..18 => self.no_sack(),
            _ => self.sack_with_a_bad_block(),
        };
        self.put_bytes(&sack.bytes());
        let lent = sack.lent;
        for _ in 0..self.random.pick(&[1, 1, 1, 1, 1, 2]) {
            self.say(format_args!("sack {lent}"));
        }
        if self.random.one_in(6) {
            self.say(format_args!("counts"));
        }
    }

    /// As many blocks as the length field can tell: 16,379. The last is bad first; then it is not.
    pub fn longest_sack(&mut self) {
        let (entries, covered) = (self.oracle.flight().1 as u64, 3);
        let left = entries - covered;
        let blocks: Vec<(u16, u16)> = (0..(u16::MAX - 16) / 4).map(|_| self.block(left)).collect();
        let last = blocks[blocks.len() - 1];
        let sack = Sack::new(self.cumulative(covered), blocks, vec![]);
        self.put_bytes(&sack.bytes());
        let (at, lent) = (sack.lent - 4, sack.lent);
        self.say(format_args!("put {at} 4 {}", left + 1));
        self.say(format_args!("sack {lent}"));
        self.say(format_args!("put {at} 4 {}", u64::from(last.0) << 16 | u64::from(last.1)));
        for lent in [lent - 1, lent + 4, lent, lent] {
            self.say(format_args!("sack {lent}"));
        }
        self.say(format_args!("state s"));
    }

    /// The wire itself: at its ends, and beyond them.
    pub fn wire(&mut self) {
        let end = 65_544;
        let at = match self.random.below(4) {
            0 => self.random.pick(&[0, end - 1, end, end + 1, u64::MAX, u64::MAX - 3]),
            1 => end - self.random.below(12),
            _ => self.random.below(40),
        };
        match self.random.below(8) {
            0 => {
                let byte = self.random.below(256);
                self.say(format_args!("wipe {byte}"));
            }
            1..4 => {
                let (width, value) = (self.random.between(1, 8), self.random.any());
                self.say(format_args!("put {at} {width} {value}"));
            }
            4 => {
                let lent = self.random.pick(&[0, 15, 16, end, end + 1, u64::MAX]);
                self.say(format_args!("sack {lent}"));
            }
            _ => {
                let bytes = match self.random.below(8) {
                    0 if at > end - 40 => u64::MAX,
                    _ => self.random.below(24),
                };
                self.say(format_args!("look {at} {bytes}"));
            }
        }
    }

    /// Eight bytes a line.
    fn put_bytes(&mut self, bytes: &[u8]) {
        for (i, word) in bytes.chunks(8).enumerate() {
            let value = word.iter().fold(0, |value, byte| value << 8 | u64::from(*byte));
            self.say(format_args!("put {} {} {value}", 8 * i, word.len()));
        }
    }

    /// How many entries are in flight, and a cumulative TSN that covers so many of them.
    fn covering(&mut self) -> (u64, u64) {
        let entries = self.oracle.flight().1 as u64;
        let covered = match self.random.below(12) {
            0..4 => 0,
            4..6 => 1,
            6 => entries,
            7 => entries.saturating_sub(1),
            8..10 => self.random.below(6),
            _ => self.random.between(0, entries),
        };
        (entries, covered.min(entries))
    }

    fn cumulative(&self, covered: u64) -> u32 {
        let (oldest, _, next) = self.oracle.flight();
        oldest.unwrap_or(next).wrapping_add(covered as u32).wrapping_sub(1)
    }

    fn good_sack(&mut self) -> Sack {
        let (entries, covered) = self.covering();
        let blocks = self.good_blocks(entries - covered);
        let duplicates = self.duplicates();
        let mut sack = Sack::new(self.cumulative(covered), blocks, duplicates);
        if self.random.one_in(4) {
            sack.flags = self.random.any() as u8;
            sack.window = self.random.pick(&[0, 1, u32::MAX]);
        }
        sack
    }

    fn duplicates(&mut self) -> Vec<u32> {
        let count = self.random.pick(&[0, 0, 0, 0, 1, 2, 5]);
        (0..count).map(|_| self.tsn()).collect()
    }

    /// One that reaches from any entry behind the covered ones to any later.
    fn block(&mut self, left: u64) -> (u16, u16) {
        let (one, other) = (self.random.between(1, left), self.random.between(1, left));
        (one.min(other) as u16, one.max(other) as u16)
    }

    /// Blocks over the `left` entries that are not covered: none, one, many; apart, touching, overlapping.
    fn good_blocks(&mut self, left: u64) -> Vec<(u16, u16)> {
        if left == 0 {
            return vec![];
        }
        let last = left as u16;
        let (start, end) = self.block(left);
        match self.random.below(16) {
            0..3 => vec![],
            3..5 => vec![(start, end)],
            5 => vec![(1, end)],
            6 => vec![(last, last)],
            7 => vec![(1, last)],
            8 => vec![(start, end), (start, end)],
            9 => vec![(1, start), (start, end), (end, last)],
            10 if start < end => vec![(1, start), (start + 1, end)],
            11 => (1..=last / 2).map(|i| (2 * i, 2 * i)).take(60).collect(),
            12 => vec![(start, last), (1, end), (end, end)],
            _ => (0..self.random.between(1, BLOCKS)).map(|_| self.block(left)).collect(),
        }
    }

    /// Just outside the range, far from it, or with nothing in flight; its blocks good or bad.
    fn stale_sack(&mut self) -> Sack {
        let (oldest, entries, next) = self.oracle.flight();
        let oldest = oldest.unwrap_or(next);
        let cumulative = match self.random.below(8) {
            0..2 => oldest.wrapping_sub(2),
            2..4 => next,
            4 => oldest.wrapping_add(1 << 31),
            5 => self.random.pick(&[0, u32::MAX]),
            6 => oldest.wrapping_sub(1),
            _ => self.random.any() as u32,
        };
        let blocks = match self.random.below(4) {
            0 => vec![(0, 1)],
            1 => vec![(2, 1)],
            2 => vec![(1, u16::MAX)],
            _ => self.good_blocks(entries.max(1) as u64),
        };
        let duplicates = self.duplicates();
        Sack::new(cumulative, blocks, duplicates)
    }

    /// A SACK that would be good, but for one thing.
    fn no_sack(&mut self) -> Sack {
        let mut sack = if self.random.one_in(4) { self.stale_sack() } else { self.good_sack() };
        let little = self.random.pick(&[1, 2, 3, 4, 8]);
        match self.random.below(12) {
            0 => sack.kind = self.random.pick(&[0, 1, 2, 4, 131, 192, 255]),
            1 => sack.lent = self.random.below(16),
            2 => sack.lent -= u64::from(little),
            3..5 => sack.lent += u64::from(little),
            5 => sack.length -= little,
            6 => sack.length += little,
            7 => sack.block_count = sack.block_count.wrapping_sub(1),
            8 => sack.block_count += 1,
            9 => sack.duplicate_count = self.random.pick(&[sack.duplicate_count + 1, u16::MAX]),
            10 => sack.block_count += TURN,
            _ => {
                // The field and the bytes agree, and are more than blocks and duplicates take.
                sack.length += little;
                sack.lent += u64::from(little);
            }
        }
        sack
    }

    /// Not stale where anything is in flight, and one of its blocks is bad: the only one, or one among good ones.
    fn sack_with_a_bad_block(&mut self) -> Sack {
        let (entries, covered) = self.covering();
        let left = entries - covered;
        let (start, end) = self.block(left.max(2));
        let beyond = left as u16 + 1;
        let bad = match self.random.below(6) {
            0 => (0, end),
            1 => (0, 0),
            2 => (end + 1, end),
            3 => (start, beyond),
            4 => (beyond, beyond),
            _ => (1, u16::MAX),
        };
        let mut blocks = self.good_blocks(left);
        let place = self.random.between(0, blocks.len() as u64);
        blocks.insert(place as usize, bad);
        let duplicates = self.duplicates();
        Sack::new(self.cumulative(covered), blocks, duplicates)
    }
}
