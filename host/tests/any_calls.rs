//! Runs of random calls: what the questions answer must agree, whatever came before, and a refused call changes none of their answers.
//! `GIRDERMOTH_SHARE=10` runs a tenth of the runs, for the slow ones of host/check; what they must reach is asserted of the whole.

use std::collections::BTreeMap;

use girdermoth::*;

struct Rng(u64);

impl Rng {
    fn below(&mut self, limit: u64) -> u64 {
        self.0 ^= self.0 << 13;
        self.0 ^= self.0 >> 7;
        self.0 ^= self.0 << 17;
        (self.0 >> 11) % limit
    }
}

/// All that can be asked of a sender whose oldest entry has the TSN `oldest`.
fn asked(s: &Sender, oldest: u32) -> impl PartialEq + std::fmt::Debug + use<> {
    let flight: Vec<Chunk> = (0..s.inflight_len() as u32).map(|at| s.get(oldest.wrapping_add(at)).expect("TSNs are consecutive")).collect();
    let streams: Vec<_> = (0..4).map(|id| (s.buffered_amount(id), s.stats(id), s.pending_contains_stream(id), s.contains_stream(id))).collect();
    let beside = (s.oldest_tsn(), s.ring_room(false), s.ring_room(true), s.next_deadline());
    (flight, streams, s.peek_pending(), s.pending_len(), s.pending_bytes(), s.next_message_id(), s.next_tsn(), beside)
}

fn agrees(s: &Sender, oldest: u32) {
    assert_eq!(s.next_tsn(), oldest.wrapping_add(s.inflight_len() as u32));
    assert_eq!((s.get(oldest.wrapping_sub(1)), s.get(s.next_tsn())), (None, None));
    let flight: Vec<Chunk> = (0..s.inflight_len() as u32).filter_map(|at| s.get(oldest.wrapping_add(at))).collect();
    assert_eq!(flight.iter().map(|c| u64::from(c.length)).sum::<u64>(), s.inflight_bytes());
    assert_eq!(flight.iter().find(|c| !c.acked && !c.abandoned).map(|c| c.tsn), s.earliest_outstanding_tsn());
    assert_eq!(flight.first().map(|c| c.tsn), s.oldest_tsn());
    assert_eq!(s.ring_room(false) + s.ring_room(true) + s.pending_len(), 2 * RING_ROOM);
    let kept = flight.iter().filter(|c| !c.abandoned);
    assert_eq!(kept.chain(&s.peek_pending()).filter_map(|c| c.deadline).min(), s.next_deadline());
    let mut ends: BTreeMap<u64, usize> = BTreeMap::new();
    for c in &flight {
        assert!(!(c.retransmit && (c.acked || c.abandoned)), "what is settled is not sent again: {c:?}");
        assert!(c.length == 0 || !(c.acked || c.abandoned), "what is settled holds nothing: {c:?}");
        assert_eq!((c.nsent, c.since.is_some()), if c.is_terminator() { (0, false) } else { (1, true) }, "{c:?}");
        assert_eq!(s.is_abandoned(c.tsn), c.abandoned);
        *ends.entry(c.message_id).or_default() += usize::from(c.ending_fragment);
        assert!(s.contains_stream(c.stream_identifier));
    }
    // At most one end, and an abandoned message has nothing pending: its last entry in flight is its end.
    assert!(ends.values().all(|count| *count <= 1));
    for pair in flight.windows(2) {
        let last_of_message = pair[0].message_id != pair[1].message_id;
        assert!(!(last_of_message && pair[0].abandoned) || pair[0].ending_fragment, "a cut message ends in flight: {pair:?}");
        assert_eq!(last_of_message, pair[0].ending_fragment, "fragments follow one another: {pair:?}");
    }
    if let (Some(last), Some(head)) = (flight.last(), s.peek_pending()) {
        assert!(head.beginning_fragment || (head.message_id == last.message_id && !last.ending_fragment && !last.abandoned));
    }
}

/// A SACK of up to three blocks: what it released, and what the flight lost of its bytes and in front, is told by the flight before it.
fn sacked(s: &mut Sender, oldest: &mut u32, rng: &mut Rng) -> Result<(), Refusal> {
    let flight: Vec<Chunk> = (0..s.inflight_len() as u32).filter_map(|at| s.get(oldest.wrapping_add(at))).collect();
    // few, until the flight is full
    let covered = match rng.below(20) {
        0 if flight.len() >= FLIGHT_ROOM - 1 => rng.below(flight.len() as u64 + 2) as u32,
        0 => rng.below(4) as u32,
        1 => u32::MAX,
        2 => 1,
        _ => 0,
    };
    let left = flight.len().saturating_sub(covered as usize) as u64;
    let block = |rng: &mut Rng| {
        let start = u64::from(rng.below(12) > 0) + rng.below(left.max(1));
        let beyond = u64::from(rng.below(6) == 0);
        (start, start + rng.below(left.saturating_sub(start) + 1 + beyond))
    };
    let blocks: Vec<(u64, u64)> = (0..rng.below(4)).map(|_| block(rng)).collect();
    let mut sack = vec![3, 0, 0, 16 + 4 * blocks.len() as u8 + u8::from(rng.below(12) == 0)];
    sack.extend(oldest.wrapping_add(covered).wrapping_sub(1).to_be_bytes());
    sack.extend([0, 0, 0, 0, 0, blocks.len() as u8, 0, 0]);
    blocks.iter().for_each(|(start, end)| sack.extend([*start as u16, *end as u16].map(u16::to_be_bytes).concat()));
    let before = s.inflight_bytes();
    let Some(answer) = s.handle_sack(&sack)? else {
        assert!(flight.is_empty() || covered as usize > flight.len(), "stale with {covered} of {} covered", flight.len());
        return Ok(());
    };
    assert_eq!(s.inflight_len() + covered as usize, flight.len());
    assert_eq!(s.inflight_bytes() + answer.bytes, before);
    *oldest = oldest.wrapping_add(covered);
    for (place, chunk) in (0..).zip(&flight).skip(covered as usize) {
        let offset = place + 1 - u64::from(covered);
        let acked = chunk.acked || blocks.iter().any(|(start, end)| (*start..=*end).contains(&offset));
        let (length, retransmit) = if acked { (0, false) } else { (chunk.length, chunk.retransmit) };
        assert_eq!(s.get(chunk.tsn), Some(Chunk { acked, length, retransmit, ..*chunk }), "of the blocks {blocks:?}, behind {covered}");
    }
    Ok(())
}

#[test]
fn whatever_is_called_the_answers_agree() {
    let share = std::env::var("GIRDERMOTH_SHARE").map_or(1, |share| share.parse().expect("GIRDERMOTH_SHARE is a number"));
    let mut refused = [0; 18];
    let (mut terminators, mut steps) = (0, 0);
    for seed in 1..=24u64.div_ceil(share) {
        let mut rng = Rng(seed.wrapping_mul(0x9E37_79B9_7F4A_7C15));
        let mut oldest = u32::MAX - rng.below(300) as u32;
        let mut s = Sender::new(oldest, u64::MAX - 1 - rng.below(400));
        let mut now = 0;
        for _ in 0..1_500 {
            steps += 1;
            now = (now + rng.below(12)).saturating_sub(rng.below(4));
            let clock = if rng.below(40) == 0 { CLOCK_MAX + 1 } else { now };
            let stream = rng.below(4) as StreamId;
            let tsn = oldest.wrapping_add(rng.below(s.inflight_len() as u64 + 2) as u32);
            let before = asked(&s, oldest);
            let next = s.next_tsn();
            let answer = match rng.below(18) {
                0 => s.open_stream(stream, [0, 1, 7, 1200][rng.below(4) as usize]),
                1 => s.set_reliability_params(stream, rng.below(2) == 0, ReliabilityType::from(rng.below(3) as u8), rng.below(60) as u32),
                2..=4 => {
                    let (ppi, length) = (PayloadProtocolIdentifier(50 + rng.below(8) as u32), [0, 1, 20, 40, 5_000, 65_537][rng.below(6) as usize]);
                    let offset = if rng.below(2) == 0 { rng.below(3_000) } else { rng.below(4_294_967_300) };
                    s.write(stream, ppi, offset, length).map(drop)
                }
                5..=8 => s.send_next(clock).map(drop),
                9 => s.expire_pending(clock).map(drop),
                10 => s.expire_pending_tail(clock).map(drop),
                11 => {
                    let known = s.get(tsn).is_some();
                    assert_eq!(s.abandon(tsn).is_some(), known);
                    Ok(())
                }
                12 => {
                    let held = s.get(tsn).map_or(0, |c| c.length);
                    assert_eq!(s.mark_as_acked(tsn), u64::from(held));
                    Ok(())
                }
                13 | 14 => sacked(&mut s, &mut oldest, &mut rng),
                16 => {
                    let mut out = [0xA5; 1_216];
                    let (lent, room) = (rng.below(8_001) as usize, if rng.below(2) == 0 { rng.below(40) as usize } else { out.len() });
                    let written = s.data_chunk(tsn, &[1; 8_000][..lent], &mut out[..room]).map(<[u8]>::len);
                    assert!(out[*written.as_ref().unwrap_or(&0)..].iter().all(|byte| *byte == 0xA5));
                    written.map(|length| assert_eq!(length, 16 + s.get(tsn).unwrap().length.next_multiple_of(4) as usize))
                }
                15 => {
                    let popped = s.pop(oldest);
                    oldest = oldest.wrapping_add(u32::from(popped.is_some()));
                    s.mark_all_to_retransmit();
                    Ok(())
                }
                _ => {
                    let mut list = [0; FLIGHT_ROOM];
                    let room = if rng.below(3) == 0 { 2 } else { FLIGHT_ROOM };
                    s.expired_inflight(clock, &mut list[..room]).map(|expired| {
                        assert!(expired.windows(2).all(|pair| pair[0].wrapping_sub(oldest) < pair[1].wrapping_sub(oldest)));
                    })
                }
            };
            if let Err(refusal) = answer {
                refused[usize::from(refusal.number())] += 1;
                assert_eq!(asked(&s, oldest), before, "{refusal:?}");
            }
            terminators += usize::from(s.next_tsn() != next && s.get(next).is_some_and(|c| c.is_terminator()));
            agrees(&s, oldest);
        }
    }
    println!("{steps} calls, {terminators} terminators, refused by number {refused:?}");
    if share > 1 {
        return;
    }
    assert!(terminators > 100);
    assert!([1, 2, 3, 4, 6, 8, 9, 10, 11, 13, 14, 15, 16, 17].iter().all(|number| refused[*number] > 0), "{refused:?}");
}
