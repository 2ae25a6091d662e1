//! The peer's SACK: what it acknowledges, when it is stale, and chunks that others have written.

use std::collections::BTreeMap;

use girdermoth::*;

const BINARY: PayloadProtocolIdentifier = PayloadProtocolIdentifier::BINARY;

/// Messages of one chunk in flight: as many as there are lengths, on the streams 1 and 2 in turn.
fn in_flight(first_tsn: u32, lengths: impl IntoIterator<Item = u64>) -> Sender {
    let mut s = Sender::new(first_tsn, 0);
    s.open_stream(1, 1200).unwrap();
    s.open_stream(2, 1200).unwrap();
    for (stream, length) in [1, 2].into_iter().cycle().zip(lengths) {
        s.write(stream, BINARY, 0, length).unwrap();
        s.send_next(0).unwrap();
    }
    s
}

fn sack(cumulative: u32, blocks: &[(u16, u16)]) -> Vec<u8> {
    let mut chunk = vec![3, 0, 0, 16 + 4 * blocks.len() as u8];
    chunk.extend(cumulative.to_be_bytes());
    chunk.extend([0, 1, 0, 0, 0, blocks.len() as u8, 0, 0]);
    blocks.iter().for_each(|(start, end)| chunk.extend([*start, *end].map(u16::to_be_bytes).concat()));
    chunk
}

/// The bytes that a SACK released, or nothing where it is stale.
fn take(s: &mut Sender, chunk: &[u8]) -> Option<u64> {
    s.handle_sack(chunk).unwrap().map(|sacked| sacked.bytes)
}

/// The TSNs in flight, and of these the acknowledged.
fn told(s: &Sender) -> (Vec<u32>, Vec<u32>) {
    let Some(oldest) = s.oldest_tsn() else { return (vec![], vec![]) };
    let flight: Vec<Chunk> = (0..s.inflight_len() as u32).filter_map(|at| s.get(oldest.wrapping_add(at))).collect();
    (flight.iter().map(|c| c.tsn).collect(), flight.iter().filter(|c| c.acked).map(|c| c.tsn).collect())
}

#[test]
fn a_sack_pops_what_it_covers_and_acknowledges_its_blocks_over_the_wrap() {
    let mut s = in_flight(u32::MAX - 1, [1, 2, 4, 8, 16, 32]);
    assert_eq!(take(&mut s, &sack(u32::MAX, &[(2, 3)])), Some(1 + 2 + 8 + 16));
    assert_eq!(told(&s), (vec![0, 1, 2, 3], vec![1, 2]));
    assert_eq!(take(&mut s, &sack(u32::MAX, &[(2, 3)])), Some(0), "the same once more releases nothing");
    assert_eq!(take(&mut s, &sack(1, &[(1, 2)])), Some(4 + 32));
    assert_eq!(told(&s), (vec![2, 3], vec![2, 3]));
    assert_eq!(take(&mut s, &sack(3, &[])), Some(0));
    assert_eq!((s.inflight_len(), s.inflight_bytes(), s.next_tsn()), (0, 0, 4));
}

#[test]
fn blocks_may_overlap_touch_and_start_at_1_and_each_entry_is_released_once() {
    let mut s = in_flight(10, [1, 2, 4, 8, 16, 32, 64]);
    assert_eq!(take(&mut s, &sack(9, &[(4, 6), (1, 1), (2, 4), (5, 5), (4, 6)])), Some(63));
    assert_eq!(told(&s), ((10..17).collect(), (10..16).collect()));
}

#[test]
fn a_sack_is_stale_outside_the_flight_and_without_one() {
    let mut s = in_flight(10, [1, 2, 4]);
    for cumulative in [8, 13, 10 + (1 << 31), 0, u32::MAX] {
        assert_eq!(take(&mut s, &sack(cumulative, &[(1, 1)])), None, "{cumulative}");
    }
    assert_eq!(take(&mut s, &sack(9, &[])), Some(0), "one before the oldest");
    assert_eq!(take(&mut s, &sack(12, &[])), Some(7), "the newest");
    for cumulative in [11, 12, 13] {
        assert_eq!(take(&mut s, &sack(cumulative, &[])), None, "nothing is in flight");
    }
}

#[test]
fn what_is_acknowledged_abandoned_or_a_terminator_is_popped_and_releases_nothing() {
    let mut s = in_flight(10, [1, 2]);
    s.write(1, BINARY, 0, 2_000).unwrap();
    s.send_next(0).unwrap();
    assert_eq!(s.mark_as_acked(11), 2);
    assert_eq!(s.abandon(12).unwrap().bytes, 2_000);
    assert!(s.get(13).unwrap().is_terminator());
    assert_eq!(take(&mut s, &sack(10, &[(1, 3)])), Some(1));
    assert_eq!(told(&s), (vec![11, 12, 13], vec![11, 12, 13]));
    assert_eq!(take(&mut s, &sack(13, &[])), Some(0));
    assert_eq!((s.inflight_len(), s.next_tsn()), (0, 14));
}

/// As a host with several streams does it.
#[test]
fn the_flight_before_and_behind_tells_whose_bytes_they_were() {
    let mut s = in_flight(u32::MAX - 1, [1, 2, 4, 8, 16]);
    let held = |s: &Sender| {
        let mut held = BTreeMap::from([(1, 0), (2, 0)]);
        for chunk in (0..5).filter_map(|at| s.get((u32::MAX - 1).wrapping_add(at))) {
            *held.get_mut(&chunk.stream_identifier).unwrap() += i64::from(chunk.length);
        }
        held
    };
    let before = held(&s);
    assert_eq!(take(&mut s, &sack(u32::MAX, &[(2, 2)])), Some(1 + 2 + 8));
    for (stream, left) in held(&s) {
        s.on_buffer_released(stream, before[&stream] - left).unwrap();
    }
    assert_eq!((s.buffered_amount(1), s.buffered_amount(2)), (Ok(20), Ok(0)));
}

#[test]
fn a_full_flight_goes_at_once_or_every_second_entry_of_it() {
    let every_second: Vec<(u16, u16)> = (1..=59).map(|i| (2 * i, 2 * i)).collect();
    let mut s = in_flight(u32::MAX - 100, [10; 255]);
    assert_eq!(take(&mut s, &sack((u32::MAX - 100).wrapping_sub(1), &every_second)), Some(590));
    assert_eq!(take(&mut s, &sack((u32::MAX - 100).wrapping_add(254), &[])), Some(2550 - 590));
    assert_eq!(s.inflight_len(), 0);
}

/// Chunks that scapy and usrsctp have written (sacks/README.md), each read with two covered entries in flight and two behind the last block.
#[test]
fn chunks_of_other_writers_acknowledge_what_they_say() {
    let mut read = 0;
    let numbers = |words: &str| -> Vec<u32> { words.split_whitespace().map(|word| word.parse().expect("a number")).collect() };
    for line in [include_str!("sacks/of_scapy.hex"), include_str!("sacks/of_usrsctp.hex")].iter().flat_map(|file| file.lines()) {
        let [cumulative, beyond, duplicates, chunk] = line.split('|').collect::<Vec<_>>()[..] else { panic!("four parts: {line}") };
        if line.starts_with('#') {
            continue;
        }
        let (cumulative, beyond) = (numbers(cumulative)[0], numbers(beyond));
        let digits = chunk.trim();
        let chunk: Vec<u8> = (0..digits.len()).step_by(2).map(|at| u8::from_str_radix(&digits[at..at + 2], 16).expect("two digits")).collect();
        assert_eq!(numbers(duplicates).len(), usize::from(chunk[15]));
        let mut s = in_flight(cumulative.wrapping_sub(1), (0..beyond.last().unwrap_or(&0) + 4).map(|at| 1 + u64::from(at)));
        let bytes = 1 + 2 + beyond.iter().map(|offset| u64::from(offset + 2)).sum::<u64>();
        assert_eq!(take(&mut s, &chunk), Some(bytes), "{line}");
        assert_eq!(s.oldest_tsn(), Some(cumulative.wrapping_add(1)), "{line}");
        assert_eq!(told(&s).1, beyond.iter().map(|offset| cumulative.wrapping_add(*offset)).collect::<Vec<u32>>(), "{line}");
        read += 1;
    }
    assert_eq!(read, 12 + 46);
}
