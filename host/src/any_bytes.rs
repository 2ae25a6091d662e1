//! Senders, timers and estimators of any bytes: each call returns, answers the same twice, and writes nowhere but in what is lent to it. Under
//! valgrind and ASan as well (host/check).

use crate::any_calls::{CALLS, RTO_CALLS, TIMER_CALLS, call, rto_call, timer_call};
use crate::sys::{self, Fragment, Rto, Sender, Timers};

/// What is lent, with words on both sides that no call may touch.
#[repr(C)]
#[derive(Clone)]
pub(crate) struct Fenced<T> {
    pub(crate) before: [u64; 8],
    pub(crate) lent: T,
    pub(crate) after: [u64; 8],
}

pub(crate) const FENCE: u64 = 0x5AA5_F00D_5AA5_F00D;
const LIST: [u32; 300] = [0xABCD_1234; 300];
const OUT: [u8; 316] = [0xA5; 316];
const BYTES: [u8; 8] = [0xA5; 8];

struct Rng(u64);

impl Rng {
    fn word(&mut self) -> u64 {
        self.0 ^= self.0 << 13;
        self.0 ^= self.0 >> 7;
        self.0 ^= self.0 << 17;
        self.0.wrapping_mul(0x2545_F491_4F6C_DD1D)
    }
    /// Any word; or one that is near what a sender holds, so that calls go deeper than their first test.
    fn number(&mut self) -> u64 {
        let word = self.word();
        match word % 4 {
            0 => word >> 2,
            1 => (word >> 2) % 300,
            2 => (word >> 2) % 70_000,
            _ => (1 << ((word >> 2) % 64)) - (word >> 8) % 2,
        }
    }
    /// As long as what is needed, or nearly; where that is very much, less.
    fn near(&mut self, need: u64) -> usize {
        (need.min(139_000) + [0, 1, 2, 100][(self.word() % 4) as usize]).saturating_sub(self.word() % 3) as usize
    }
}

/// A SACK of up to four blocks near the flight, of which one byte is sometimes another.
fn any_sack(rng: &mut Rng, oldest: u32) -> Vec<u8> {
    let blocks = rng.word() % 5;
    let mut sack = vec![3, 0, 0, 16 + 4 * blocks as u8];
    sack.extend(oldest.wrapping_add((rng.word() % 300) as u32).wrapping_sub(1).to_be_bytes());
    sack.extend([0, 1, 0, 0, 0, blocks as u8, 0, 0]);
    for _ in 0..blocks {
        let start = (rng.word() % 20) as u16;
        sack.extend([start, start + (rng.word() % 20) as u16].map(u16::to_be_bytes).concat());
    }
    if rng.word() % 4 == 0 {
        let place = (rng.word() % sack.len() as u64) as usize;
        sack[place] = rng.word() as u8;
    }
    sack
}

#[test]
fn any_bytes_are_a_sender() {
    let mut rng = Rng(0x9E37_79B9_7F4A_7C15);
    let mut refused = 0;
    for round in 0..120 {
        let mut words = || if round % 2 == 0 { rng.word() } else { rng.number() };
        let start = Box::new(Fenced { before: [FENCE; 8], lent: Sender::of(&mut words), after: [FENCE; 8] });
        for (which, (name, asks)) in CALLS.into_iter().enumerate() {
            let numbers = [rng.number(), rng.number(), rng.number(), rng.number()];
            let room = (rng.number() % 301) as usize;
            let bytes = any_sack(&mut rng, start.lent.head.oldest);
            let (mut one, mut other) = (start.clone(), start.clone());
            let (mut list, mut same_list, mut out, mut same_out) = (LIST, LIST, OUT, OUT);
            let told = call(which, &mut one.lent, &mut list[..room], &bytes, &mut out[8..8 + room], numbers);
            let again = call(which, &mut other.lent, &mut same_list[..room], &bytes, &mut same_out[8..8 + room], numbers);
            assert_eq!(told, again, "{name} answers otherwise the second time");
            assert!(one.lent == other.lent && list == same_list && out == same_out, "{name} does otherwise the second time");
            assert!(one.before == [FENCE; 8] && one.after == [FENCE; 8], "{name} writes beside the sender");
            let told_by = |writer: &str| if name == writer && told[0] == 0 { told[1] as usize } else { 0 };
            let (listed, written) = (told_by("girdermoth_expired_inflight"), told_by("girdermoth_data_chunk"));
            assert!(listed <= room && list[listed..] == LIST[listed..], "{name} writes behind the list");
            assert!(written <= room && out[..8] == OUT[..8] && out[8 + written..] == OUT[8 + written..], "{name} writes beside the output");
            if told[0] > 0 {
                assert!(told[0] <= 17 && told[1..].iter().all(|number| *number == 0), "{name} answers {told:?}");
                refused += 1;
            }
            assert!(one.lent == start.lent || !asks && told[0] == 0, "{name} only asks, or is refused, and changes the sender");
        }
    }
    assert!(refused > 120, "few are refused: {refused}");
}

/// The chunk of an entry by the rules, or the refusal.
fn by_the_rules(entry: &Fragment, tsn: u32, bytes: &[u8], room: usize) -> Result<Vec<u8>, u8> {
    if entry.some == 0 || entry.acked != 0 || entry.abandoned != 0 {
        return Err(15);
    }
    let end = u128::from(entry.offset) + u128::from(entry.length);
    if end > bytes.len() as u128 {
        return Err(16);
    }
    let mut chunk = vec![0, entry.ending | entry.beginning << 1 | entry.unordered << 2];
    chunk.extend((16 + u64::from(entry.length)).to_be_bytes()[6..].iter()); // of an entry that no call has made it may be cut off
    chunk.extend(tsn.to_be_bytes());
    chunk.extend([entry.stream, entry.ssn].map(u16::to_be_bytes).concat());
    chunk.extend(entry.protocol.to_be_bytes());
    chunk.extend(&bytes[entry.offset as usize..end as usize]);
    chunk.resize(chunk.len().next_multiple_of(4), 0);
    if chunk.len() > room { Err(17) } else { Ok(chunk) }
}

/// The DATA chunk of entries of any words, to outputs of any room: on heap blocks of just these bytes, which tell a step beyond them (ASan, valgrind),
/// and between bytes that no call may touch.
#[test]
fn any_bytes_are_a_flight_whose_chunks_are_written() {
    let mut rng = Rng(0xD1B5_4A32_D192_ED03);
    let payload: Vec<u8> = (0..140_000u32).map(|at| (at.wrapping_mul(0x9E37_79B9) >> 24) as u8).collect();
    let mut answers = [0; 18];
    for _ in 0..40 {
        let mut s = Box::new(Sender::of(&mut || rng.number()));
        s.head.flight_len = rng.word() % 257;
        let before = s.clone();
        for _ in 0..40 {
            let tsn = s.head.oldest.wrapping_add((rng.word() % (s.head.flight_len + 2)) as u32);
            let entry = sys::girdermoth_get(&s, tsn);
            let bytes: Box<[u8]> = payload[..rng.near(entry.offset.saturating_add(entry.length.into()))].into();
            let mut out: Box<[u8]> = vec![0xA5; rng.near((16 + u64::from(entry.length)).next_multiple_of(4))].into();
            let mut fenced = vec![0xA5; out.len() + 16];
            let told = sys::data_chunk(&s, &bytes, &mut out, tsn);
            let again = sys::data_chunk(&s, &payload[..bytes.len()], &mut fenced[8..8 + out.len()], tsn);
            let expected = by_the_rules(&entry, tsn, &bytes, out.len());
            let (refusal, chunk) = expected.map_or_else(|refusal| (refusal, vec![]), |chunk| (0, chunk));
            let written = chunk.len();
            assert_eq!((told.refusal, told.value, told.yes), (refusal, written as u64, u8::from(refusal == 0)), "of {entry:?}");
            assert_eq!(told, again);
            assert!(out[..written] == chunk && out[written..].iter().all(|byte| *byte == 0xA5), "of {entry:?}");
            assert!(fenced[8..8 + out.len()] == *out && fenced[..8] == BYTES && fenced[8 + out.len()..] == BYTES, "beside the output of {entry:?}");
            assert!(*bytes == payload[..bytes.len()] && s == before, "a word changed of what is only read");
            answers[usize::from(refusal)] += 1;
        }
    }
    println!("written {}, refused with 15 {}, 16 {}, 17 {}", answers[0], answers[15], answers[16], answers[17]);
    assert!([0, 15, 16, 17].iter().all(|refusal| answers[*refusal] > 20), "{answers:?}");
}

/// Timers that mean the same: a flag is 0 or 1, and what no flag tells is 0.
fn plain(mut timers: Timers) -> Timers {
    for entry in &mut timers.entries {
        entry.has_deadline = (entry.has_deadline != 0).into();
        entry.has_maximum = (entry.has_maximum != 0).into();
        entry.suppressed = (entry.suppressed != 0).into();
        entry.deadline *= u64::from(entry.has_deadline);
        entry.maximum *= u64::from(entry.has_maximum);
        entry.unused = 0;
    }
    timers
}

#[test]
fn any_bytes_are_timers() {
    let mut rng = Rng(0x2545_F491_4F6C_DD1D);
    let (mut refused, mut changed) = (0, 0);
    for round in 0..400 {
        let mut words = || if round % 2 == 0 { rng.word() } else { rng.number() };
        let start = Fenced { before: [FENCE; 8], lent: Timers::of(&mut words), after: [FENCE; 8] };
        for (which, (name, asks)) in TIMER_CALLS.into_iter().enumerate() {
            let numbers = [rng.number(), rng.number(), rng.number(), rng.number(), rng.number()];
            let (mut one, mut other, mut simple) = (start.clone(), start.clone(), plain(start.lent));
            let told = timer_call(which, &mut one.lent, numbers);
            assert_eq!(told, timer_call(which, &mut other.lent, numbers), "{name} answers otherwise the second time");
            assert_eq!(one.lent, other.lent, "{name} does otherwise the second time");
            assert_eq!(told, timer_call(which, &mut simple, numbers), "{name} answers otherwise of timers that mean the same");
            assert_eq!(plain(one.lent), plain(simple), "{name} does otherwise with timers that mean the same");
            assert!(one.before == [FENCE; 8] && one.after == [FENCE; 8], "{name} writes beside the timers");
            if told[0] > 0 {
                assert!(told[0] <= 12 && told[1..].iter().all(|number| *number == 0), "{name} is refused, and answers {told:?}");
                refused += 1;
            }
            if asks || told[0] > 0 {
                assert_eq!(one.lent, start.lent, "{name} only asks, or is refused, and changes the timers");
            } else if name != "girdermoth_timers_new" {
                let named = (numbers[0] % 8) as usize;
                changed += usize::from(one.lent != start.lent);
                one.lent.entries[named] = start.lent.entries[named];
                assert_eq!(one.lent, start.lent, "{name} changes more than the timer that it names");
            }
        }
    }
    assert!(refused > 400 && changed > 400, "few are refused, or few change a timer: {refused}, {changed}");
}

/// The words of an estimator, of which any are one: as floats, two that are not a number would differ.
fn words(rto: &Rto) -> [u64; 7] {
    let Rto { rto_initial, rto_min, rto_max, no_update, srtt, rttvar, rto } = *rto;
    [rto_initial, rto_min, rto_max, no_update, srtt, rttvar.to_bits(), rto]
}

#[test]
fn any_bytes_are_an_estimator() {
    let mut rng = Rng(0x2545_F491_4F6C_DD1D);
    let (mut refused, mut changed) = (0, 0);
    // that means the same: the flag is 0 or 1
    let plain = |rto: Rto| Rto { no_update: (rto.no_update != 0).into(), ..rto };
    for round in 0..400 {
        let mut any = Rto::of(&mut || if round % 2 == 0 { rng.word() } else { rng.number() });
        any.no_update *= u64::from(round % 3 > 0);
        let start = Fenced { before: [FENCE; 8], lent: any, after: [FENCE; 8] };
        for (which, (name, asks)) in RTO_CALLS.into_iter().enumerate() {
            let numbers = [rng.number(), rng.number(), rng.number()];
            let (mut one, mut other, mut simple) = (start.clone(), start.clone(), plain(start.lent));
            let told = rto_call(which, &mut one.lent, numbers);
            assert_eq!(told, rto_call(which, &mut other.lent, numbers), "{name} answers otherwise the second time");
            assert_eq!(words(&one.lent), words(&other.lent), "{name} does otherwise the second time");
            assert_eq!(told, rto_call(which, &mut simple, numbers), "{name} answers otherwise of one that means the same");
            assert_eq!(words(&plain(one.lent)), words(&plain(simple)), "{name} does otherwise with one that means the same");
            assert!(one.before == [FENCE; 8] && one.after == [FENCE; 8], "{name} writes beside the estimator");
            if told[0] > 0 {
                assert!(told[0] <= 2 && told[1..].iter().all(|number| *number == 0), "{name} is refused, and answers {told:?}");
                refused += 1;
            }
            let (now, was) = (words(&one.lent), words(&start.lent));
            if asks || told[0] > 0 {
                assert_eq!(now, was, "{name} only asks, or is refused, and changes the estimator");
            } else if name != "girdermoth_rto_new" {
                changed += usize::from(now != was);
                assert_eq!(now[..3], was[..3], "{name} changes a setting");
            }
        }
    }
    assert!(refused > 400 && changed > 400, "few are refused, or few change the estimator: {refused}, {changed}");
}
