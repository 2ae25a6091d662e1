//! SACKs with one thing wrong: every truncation and every change of one byte of twenty good ones, between bytes and words that no call may touch. The
//! answer is the one that the rules give, read here in another way, and nothing else changes. `GIRDERMOTH_SHARE=10` tries a tenth of the changes, for
//! the slow runs of host/check.

use std::collections::BTreeSet;

use crate::any_bytes::{FENCE, Fenced};
use crate::sys::{self, Fragment, Sacked, Sender};

const OLDEST: u32 = u32::MAX - 4;
const BYTES: [u8; 8] = [0xA5; 8];

/// Twelve entries whose TSNs wrap, of two streams: one acknowledged, two abandoned and then a terminator.
fn flight() -> Sender {
    let mut s = Sender::ZERO;
    sys::girdermoth_init(&mut s, OLDEST, 0);
    sys::girdermoth_open_stream(&mut s, 1, 100);
    sys::girdermoth_open_stream(&mut s, 2, 30);
    for (stream, length, sent) in [(1, 70, 1), (2, 80, 3), (1, 250, 3), (2, 30, 1), (1, 9, 1), (2, 75, 2)] {
        assert_eq!(sys::girdermoth_write(&mut s, stream, 53, 0, length).refusal, 0);
        (0..sent).for_each(|_| assert!(sys::girdermoth_send_next(&mut s, 0).some != 0));
    }
    sys::girdermoth_mark_as_acked(&mut s, OLDEST.wrapping_add(5));
    sys::girdermoth_abandon(&mut s, OLDEST.wrapping_add(10));
    s
}

fn entries(s: &Sender, oldest: u32) -> Vec<Fragment> {
    (0..sys::girdermoth_inflight_len(s).value as u32).map(|at| sys::girdermoth_get(s, oldest.wrapping_add(at))).collect()
}

fn sack(covered: u32, blocks: &[(u16, u16)], duplicates: &[u32]) -> Vec<u8> {
    let length = (16 + 4 * (blocks.len() + duplicates.len())) as u16;
    let mut bytes = [[3, 0], length.to_be_bytes()].concat();
    bytes.extend(OLDEST.wrapping_add(covered).wrapping_sub(1).to_be_bytes());
    bytes.extend(65_536u32.to_be_bytes());
    bytes.extend([blocks.len() as u16, duplicates.len() as u16].map(u16::to_be_bytes).concat());
    blocks.iter().for_each(|(start, end)| bytes.extend([*start, *end].map(u16::to_be_bytes).concat()));
    duplicates.iter().for_each(|tsn| bytes.extend(tsn.to_be_bytes()));
    bytes
}

fn good_sacks() -> [Vec<u8>; 20] {
    [
        sack(0, &[], &[]),
        sack(1, &[], &[]),
        sack(5, &[], &[]),
        sack(11, &[], &[]),
        sack(12, &[], &[]),
        sack(3, &[], &[OLDEST]),
        sack(12, &[], &[1, 2, 3]),
        sack(0, &[(2, 2)], &[]),
        sack(0, &[(1, 12)], &[]),
        sack(0, &[(12, 12)], &[7]),
        sack(2, &[(1, 1)], &[]),
        sack(4, &[(2, 8)], &[]),
        sack(11, &[(1, 1)], &[]),
        sack(1, &[(2, 3), (5, 6)], &[]),
        sack(1, &[(2, 3), (4, 6)], &[]),
        sack(0, &[(2, 8), (4, 6)], &[]),
        sack(3, &[(5, 9), (2, 6)], &[OLDEST, OLDEST]),
        sack(0, &[(2, 2), (4, 4), (6, 6), (8, 8), (10, 10), (12, 12)], &[]),
        sack(6, &[(2, 2), (2, 2), (2, 2)], &[]),
        sack(5, &[(1, 7), (1, 6), (2, 7), (7, 7)], &[0]),
    ]
}

/// What the rules say: the refusal, or stale, or how many entries are popped and which of all are acknowledged, by their places.
enum Said {
    Refused(u8),
    Stale,
    Taken(usize, BTreeSet<usize>),
}

fn by_the_rules(entries: usize, bytes: &[u8]) -> Said {
    let words: Vec<usize> = bytes.chunks(2).map(|pair| usize::from(pair[0]) * 256 + usize::from(*pair.get(1).unwrap_or(&0))).collect();
    if bytes.len() < 16 || bytes[0] != 3 || words[1] != bytes.len() || 4 * (words[6] + words[7]) != bytes.len() - 16 {
        return Said::Refused(13);
    }
    let cumulative = |covered: &usize| OLDEST.wrapping_add(*covered as u32).wrapping_sub(1) as usize == words[2] * 65_536 + words[3];
    let Some(covered) = (0..=entries).find(cumulative) else { return Said::Stale };
    let mut acknowledged: BTreeSet<usize> = (0..covered).collect();
    for block in words[8..].chunks(2).take(words[6]) {
        if block[0] == 0 || block[0] > block[1] || covered + block[1] > entries {
            return Said::Refused(14);
        }
        acknowledged.extend(covered + block[0] - 1..covered + block[1]);
    }
    Said::Taken(covered, acknowledged)
}

/// A sender that is lent again and again; it is made anew where a SACK was taken.
struct Trial {
    start: Box<Fenced<Sender>>,
    before: Vec<Fragment>,
    one: Box<Fenced<Sender>>,
    other: Box<Fenced<Sender>>,
    refused: [usize; 15],
    stale: usize,
    taken: usize,
}

impl Trial {
    fn new() -> Trial {
        let start = Box::new(Fenced { before: [FENCE; 8], lent: flight(), after: [FENCE; 8] });
        let before = entries(&start.lent, OLDEST);
        assert_eq!(before.len(), 12);
        Trial { before, one: start.clone(), other: start.clone(), start, refused: [0; 15], stale: 0, taken: 0 }
    }

    /// On a heap block of just these bytes, which tells a read beyond them (ASan, valgrind), and between bytes that no call may touch.
    fn answer(&mut self, bytes: &[u8]) -> Sacked {
        let exact: Box<[u8]> = bytes.into();
        let fenced = [&BYTES, bytes, &BYTES].concat();
        let told = sys::handle_sack(&mut self.one.lent, &exact);
        let again = sys::handle_sack(&mut self.other.lent, &fenced[8..8 + bytes.len()]);
        assert_eq!(told, again, "of {bytes:02x?}");
        assert!(*exact == *bytes && fenced == [&BYTES, bytes, &BYTES].concat(), "the chunk is written to: {bytes:02x?}");
        for fenced in [&self.one, &self.other] {
            assert!(fenced.before == [FENCE; 8] && fenced.after == [FENCE; 8], "beside the sender: {bytes:02x?}");
        }
        assert!(self.one.lent == self.other.lent, "of {bytes:02x?}");
        told
    }

    fn try_one(&mut self, bytes: &[u8]) {
        let told = self.answer(bytes);
        let nothing = Sacked { bytes: 0, low: 0, refusal: 0, stale: 0 };
        let Said::Taken(covered, acknowledged) = by_the_rules(self.before.len(), bytes) else {
            let expected = match by_the_rules(self.before.len(), bytes) {
                Said::Refused(refusal) => Sacked { refusal, ..nothing },
                _ => Sacked { stale: 1, ..nothing },
            };
            assert_eq!(told, expected, "of {bytes:02x?}");
            assert!(self.one.lent == self.start.lent, "refused or stale, and the sender is another: {bytes:02x?}");
            self.refused[usize::from(told.refusal)] += usize::from(told.refusal > 0);
            self.stale += usize::from(told.stale);
            return;
        };
        let released = acknowledged.iter().map(|place| u64::from(self.before[*place].length)).sum();
        assert_eq!(told, Sacked { bytes: released, ..nothing }, "of {bytes:02x?}");
        let expected: Vec<Fragment> = (0..)
            .zip(&self.before)
            .skip(covered)
            .map(|(place, entry)| if acknowledged.contains(&place) { Fragment { acked: 1, length: 0, retransmit: 0, ..*entry } } else { *entry })
            .collect();
        assert_eq!(entries(&self.one.lent, OLDEST.wrapping_add(covered as u32)), expected, "of {bytes:02x?}");
        self.taken += 1;
        self.one.clone_from(&self.start);
        self.other.clone_from(&self.start);
    }
}

#[test]
fn every_truncation_and_every_change_of_one_byte() {
    let share: usize = std::env::var("GIRDERMOTH_SHARE").map_or(1, |share| share.parse().expect("GIRDERMOTH_SHARE is a number"));
    let mut trial = Trial::new();
    let (mut truncated, mut changed) = (0, 0);
    for good in good_sacks() {
        assert!(matches!(by_the_rules(12, &good), Said::Taken(..)), "{good:02x?}");
        trial.try_one(&good);
        for length in 0..good.len() {
            trial.try_one(&good[..length]);
            truncated += 1;
        }
        for behind in 1..=8 {
            trial.try_one(&[&good[..], &[0; 8][..behind]].concat());
        }
        for (place, byte) in (0..good.len()).flat_map(|place| (0..=255).map(move |byte| (place, byte))) {
            let mut other = good.clone();
            other[place] = byte;
            if byte != good[place] && (place * 256 + usize::from(byte)) % share == 0 {
                trial.try_one(&other);
                changed += 1;
            }
        }
    }
    let Trial { refused, stale, taken, .. } = trial;
    println!("{truncated} truncated, {changed} changed: 13 {}, 14 {}, stale {stale}, taken {taken}", refused[13], refused[14]);
    assert_eq!(refused[13] + refused[14] + stale + taken, truncated + changed + 9 * 20);
    if share == 1 {
        assert_eq!((truncated, changed), (460, 460 * 255));
        assert!(refused[13] > 30_000 && refused[14] > 20_000 && stale > 10_000 && taken > 20_000);
    }
}
