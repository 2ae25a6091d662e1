//! Each refusal that calls can reach: with its number, its sentence, and the order in which a call tests for it. The twelfth, a full count of
//! a timer, takes four billion calls; it is tested inside the crate.

use girdermoth::*;

const BINARY: PayloadProtocolIdentifier = PayloadProtocolIdentifier::BINARY;

fn open(maximum: u32) -> Sender {
    let mut s = Sender::new(0, 0);
    s.open_stream(1, maximum).unwrap();
    s
}

/// The number and the sentence of each, in their order.
const SAID: [(Refusal, &str); 17] = [
    (Refusal::BeyondLimit, "a number is beyond its limit"),
    (Refusal::BadBounds, "the payload maximum is outside 1 to 65,515, or the RTO minimum is above the maximum"),
    (Refusal::NotOpen, "the stream is not open"),
    (Refusal::AlreadyOpen, "the stream is already open"),
    (Refusal::StreamsFull, "64 streams are open, and there is room for no more"),
    (Refusal::MessageLong, "the message is longer than 65,536 bytes"),
    (Refusal::BufferFull, "the stream's buffered amount would pass 4,294,967,295 bytes"),
    (Refusal::RingFull, "the ring of pending chunks lacks room for all fragments of the message"),
    (Refusal::NumbersSpent, "the last message number is reached"),
    (Refusal::FlightFull, "the flight is full but for the place that is kept for a terminator, and a chunk is pending"),
    (Refusal::ListShort, "the lent list is shorter than the list of expired TSNs"),
    (Refusal::CountFull, "the timer's count of expiries is at its limit"),
    (Refusal::BadSack, "the lent bytes are no SACK: too short, of another type, or not as long as they say"),
    (Refusal::BadBlock, "a gap block of the SACK starts at 0, starts behind its end, or ends beyond the newest entry in flight"),
    (Refusal::NoEntry, "no entry in flight has the TSN, or it is acknowledged or abandoned"),
    (Refusal::PayloadOutside, "the payload of the entry ends beyond the lent bytes"),
    (Refusal::OutputShort, "the lent output is shorter than the chunk with its padding"),
];

#[test]
fn numbers_and_sentences() {
    assert_eq!(Refusal::ALL, SAID.map(|(refusal, _)| refusal));
    for (number, (refusal, sentence)) in (1..).zip(SAID) {
        assert_eq!((refusal.number(), Refusal::from_number(number)), (number, Some(refusal)));
        let error: &dyn std::error::Error = &refusal;
        assert_eq!(error.to_string(), sentence);
    }
    assert_eq!((Refusal::from_number(0), Refusal::from_number(18), Refusal::from_number(255)), (None, None, None));
}

#[test]
fn r1_beyond_a_limit() {
    let mut s = open(1200);
    let late = CLOCK_MAX + 1;
    assert_eq!(s.write(1, BINARY, 4_294_967_296, 1), Err(Refusal::BeyondLimit));
    assert_eq!(s.write(1, BINARY, 4_294_967_295, 1), Ok(false));
    assert_eq!(s.send_next(late), Err(Refusal::BeyondLimit));
    assert_eq!(s.start_timed_messages(late), Err(Refusal::BeyondLimit));
    assert_eq!(s.expire_pending(late), Err(Refusal::BeyondLimit));
    assert_eq!(s.expire_pending_tail(late), Err(Refusal::BeyondLimit));
    assert_eq!(s.expired_inflight(late, &mut []), Err(Refusal::BeyondLimit));
    assert!(s.send_next(CLOCK_MAX).unwrap().is_some());
}

#[test]
fn r2_bad_bounds() {
    let mut s = open(1200);
    for maximum in [0, 65_516, u32::MAX] {
        assert_eq!(s.open_stream(1, maximum), Err(Refusal::BadBounds), "before 4");
        assert_eq!(s.open_stream(2, maximum), Err(Refusal::BadBounds));
    }
    assert_eq!(s.open_stream(2, PAYLOAD_MAX), Ok(()));
    assert_eq!(s.open_stream(3, 1), Ok(()));
    assert_eq!(RtoManager::new(0, 2, 1), Err(Refusal::BadBounds));
}

#[test]
fn r3_not_open() {
    let mut s = open(1200);
    assert_eq!(s.write(2, BINARY, u64::MAX, u64::MAX), Err(Refusal::NotOpen), "before 6 and 1");
    assert_eq!(s.set_reliability_params(2, true, ReliabilityType::Timed, 1), Err(Refusal::NotOpen));
    assert_eq!(s.set_buffered_amount_low_threshold(2, 1), Err(Refusal::NotOpen));
    assert_eq!(s.set_buffered_amount_high_threshold(2, 1), Err(Refusal::NotOpen));
    assert_eq!(s.on_buffer_released(2, 1), Err(Refusal::NotOpen));
    assert_eq!(s.buffered_amount(2), Err(Refusal::NotOpen));
    assert_eq!(s.buffered_amount_low_threshold(2), Err(Refusal::NotOpen));
    assert_eq!(s.buffered_amount_high_threshold(2), Err(Refusal::NotOpen));
    assert_eq!(s.stats(2), Err(Refusal::NotOpen));
}

#[test]
fn r4_r5_streams() {
    let mut s = Sender::new(0, 0);
    for stream in 0..STREAMS as u16 {
        assert_eq!(s.open_stream(65_535 - stream, 1200), Ok(()));
    }
    assert_eq!(s.open_stream(65_535, 1200), Err(Refusal::AlreadyOpen), "before 5");
    assert_eq!(s.open_stream(0, 1200), Err(Refusal::StreamsFull));
}

#[test]
fn r6_a_long_message() {
    let mut s = open(1200);
    assert_eq!(s.write(1, BINARY, u64::MAX, MESSAGE_MAX + 1), Err(Refusal::MessageLong), "before 1");
    assert_eq!(s.write(1, BINARY, 0, MESSAGE_MAX), Ok(false));
    assert_eq!(s.pending_len(), 55);
}

#[test]
fn r7_a_full_buffer() {
    let mut s = open(PAYLOAD_MAX);
    for round in 0..65_535u32 {
        s.write(1, BINARY, 0, MESSAGE_MAX).unwrap();
        for part in 0..2 {
            let sent = s.send_next(0).unwrap().unwrap();
            assert_eq!(sent.tsn, 2 * round + part);
            s.pop(sent.tsn).unwrap();
        }
    }
    s.write(1, BINARY, 0, 65_535).unwrap();
    assert_eq!(s.buffered_amount(1), Ok(4_294_967_295));
    assert_eq!(s.write(1, BINARY, 0, 1), Err(Refusal::BufferFull));
    assert_eq!(s.write(1, BINARY, 0, 0), Ok(false));
    s.on_buffer_released(1, 1).unwrap();
    assert_eq!(s.write(1, BINARY, 0, 1), Ok(false));
}

#[test]
fn r8_a_full_ring() {
    let mut s = open(1);
    assert_eq!(s.write(1, BINARY, 0, 257), Err(Refusal::RingFull));
    assert_eq!(s.write(1, BINARY, 0, 256), Ok(false));
    assert_eq!(s.write(1, BINARY, 0, 1), Err(Refusal::RingFull));
    s.set_reliability_params(1, true, ReliabilityType::Reliable, 0).unwrap();
    assert_eq!(s.write(1, BINARY, 0, 256), Ok(false), "the unordered ring is another");
    assert_eq!((s.pending_len(), s.pending_bytes()), (2 * RING_ROOM, 512));
}

#[test]
fn r9_numbers_spent() {
    let mut s = Sender::new(0, u64::MAX - 1);
    s.open_stream(1, 1200).unwrap();
    assert_eq!(s.write(1, BINARY, 0, 1), Ok(false));
    assert_eq!(s.next_message_id(), u64::MAX);
    assert_eq!(s.write(1, BINARY, 0, 1), Err(Refusal::NumbersSpent));
    assert_eq!(s.write(1, BINARY, 0, 0), Ok(false), "no fragment needs no number");
    assert_eq!(s.buffered_amount(1), Ok(1));
}

#[test]
fn r10_a_full_flight_keeps_a_place_for_a_terminator() {
    let mut s = open(1);
    s.write(1, BINARY, 0, 256).unwrap();
    for _ in 0..255 {
        assert!(s.send_next(0).unwrap().is_some());
    }
    assert_eq!(s.send_next(CLOCK_MAX + 1), Err(Refusal::BeyondLimit), "before 10");
    assert_eq!(s.send_next(0), Err(Refusal::FlightFull));
    assert_eq!(s.abandon(0), Some(Abandoned { stream_identifier: 1, bytes: 256 }));
    assert_eq!(s.inflight_len(), FLIGHT_ROOM);
    assert!(s.get(255).unwrap().is_terminator());
    assert_eq!(s.send_next(0), Ok(None), "nothing is pending");
    s.write(1, BINARY, 0, 1).unwrap();
    s.pop(0).unwrap();
    assert_eq!(s.send_next(0), Err(Refusal::FlightFull));
    s.pop(1).unwrap();
    assert_eq!(s.send_next(0).unwrap().unwrap().tsn, 256);
}

#[test]
fn r11_a_short_list() {
    let mut s = open(1200);
    s.set_reliability_params(1, false, ReliabilityType::Timed, 0).unwrap();
    s.write(1, BINARY, 0, 3_000).unwrap();
    for _ in 0..3 {
        s.send_next(4).unwrap();
    }
    let mut list = [7; 3];
    assert_eq!(s.expired_inflight(4, &mut list[..2]), Err(Refusal::ListShort));
    assert_eq!(list, [7; 3], "a refused call writes nothing");
    assert_eq!(s.expired_inflight(4, &mut list), Ok(&[0, 1, 2][..]));
    assert_eq!(s.expired_inflight(3, &mut []), Ok(&[][..]), "none has expired at 3");
}

/// Three messages of one chunk in flight, TSNs 0 to 2.
fn three_in_flight() -> Sender {
    let mut s = open(1200);
    for _ in 0..3 {
        s.write(1, BINARY, 0, 10).unwrap();
        s.send_next(0).unwrap();
    }
    s
}

/// Type, flags, length, cumulative TSN, window, one block, no duplicates; the block.
fn sack(cumulative: u32, start: u8, end: u8) -> [u8; 20] {
    let [a, b, c, d] = cumulative.to_be_bytes();
    [3, 0, 0, 20, a, b, c, d, 0, 1, 0, 0, 0, 1, 0, 0, 0, start, 0, end]
}

/// The bytes that a SACK released, or nothing where it is stale.
fn take(s: &mut Sender, chunk: &[u8]) -> Result<Option<u64>, Refusal> {
    s.handle_sack(chunk).map(|sacked| sacked.map(|sacked| sacked.bytes))
}

#[test]
fn r13_no_sack() {
    let mut s = three_in_flight();
    let good = sack(0, 1, 2);
    for length in 0..20 {
        assert_eq!(take(&mut s, &good[..length]), Err(Refusal::BadSack), "{length} bytes");
    }
    assert_eq!(take(&mut s, &[&good[..], &[0]].concat()), Err(Refusal::BadSack), "bytes behind the chunk");
    for (place, byte) in [(0, 0), (0, 2), (0, 4), (2, 1), (3, 16), (3, 24), (12, 64), (13, 0), (13, 2), (15, 1), (14, 64)] {
        let mut other = good;
        other[place] = byte;
        assert_eq!(take(&mut s, &other), Err(Refusal::BadSack), "byte {place} is {byte}");
        other[7] = 77;
        assert_eq!(take(&mut s, &other), Err(Refusal::BadSack), "before stale");
    }
    assert_eq!(take(&mut s, &good), Ok(Some(30)));
    assert_eq!(take(&mut s, &good[..19]), Err(Refusal::BadSack));
}

#[test]
fn r14_a_bad_block() {
    let mut s = three_in_flight();
    for (start, end) in [(0, 0), (0, 1), (2, 1), (1, 3), (3, 3), (1, 255)] {
        assert_eq!(take(&mut s, &sack(0, start, end)), Err(Refusal::BadBlock), "{start} to {end}");
        assert_eq!(take(&mut s, &sack(3, start, end)), Ok(None), "not where it is stale");
    }
    assert_eq!(take(&mut s, &sack(2, 1, 1)), Err(Refusal::BadBlock), "behind the newest there is nothing");
    assert_eq!((s.inflight_len(), s.inflight_bytes()), (3, 30));
    assert_eq!(take(&mut s, &sack(0, 2, 2)), Ok(Some(20)));
    assert_eq!(take(&mut s, &sack(0, 1, 2)), Ok(Some(10)), "one before the oldest is not stale");
    assert_eq!((s.inflight_len(), s.inflight_bytes()), (2, 0));
}

/// The bytes that the chunk of a TSN takes, or the refusal, which leaves every byte of the output.
fn chunk(s: &Sender, tsn: u32, lent: usize, room: usize) -> Result<usize, Refusal> {
    let mut out = vec![0xA5; room];
    let written = s.data_chunk(tsn, &vec![1; lent], &mut out).map(<[u8]>::len);
    assert!(written.is_ok() || out.iter().all(|byte| *byte == 0xA5), "a refused call writes nothing");
    written
}

#[test]
fn r15_no_entry() {
    let mut s = Sender::new(u32::MAX - 1, 0);
    s.open_stream(1, 10).unwrap();
    for (length, sent) in [(10, 1), (10, 1), (15, 2), (35, 2)] {
        s.write(1, BINARY, 0, length).unwrap();
        (0..sent).for_each(|_| assert!(s.send_next(0).unwrap().is_some()));
    }
    s.mark_as_acked(u32::MAX);
    s.abandon(0).unwrap();
    assert_eq!([u32::MAX - 1, 2, 3].map(|tsn| chunk(&s, tsn, 35, 28)), [Ok(28); 3]);
    s.abandon(2).unwrap();
    assert!(s.get(4).unwrap().is_terminator());
    let unknown = [0x7FFF_FFFF, u32::MAX - 2, 5];
    for (tsn, why) in [(u32::MAX, "acknowledged"), (0, "abandoned"), (1, "abandoned"), (2, "abandoned"), (4, "a terminator")]
        .into_iter()
        .chain(unknown.map(|tsn| (tsn, "not in flight")))
    {
        assert_eq!(chunk(&s, tsn, 35, 28), Err(Refusal::NoEntry), "{why}: {tsn}");
        assert_eq!(chunk(&s, tsn, 0, 0), Err(Refusal::NoEntry), "before 16 and 17");
    }
    assert_eq!(chunk(&s, u32::MAX - 1, 35, 28), Ok(28));
    s.pop(u32::MAX - 1).unwrap();
    assert_eq!(chunk(&s, u32::MAX - 1, 35, 28), Err(Refusal::NoEntry), "popped");
    s.write(1, BINARY, 0, 10).unwrap();
    assert_eq!(chunk(&s, s.next_tsn(), 35, 28), Err(Refusal::NoEntry), "pending");
    assert_eq!(chunk(&Sender::new(0, 0), 0, 35, 28), Err(Refusal::NoEntry), "nothing is in flight");
}

#[test]
fn r16_a_payload_outside() {
    let mut s = open(10);
    s.write(1, BINARY, 100, 25).unwrap();
    s.write(1, BINARY, 4_294_967_295, 25).unwrap();
    while s.send_next(0).unwrap().is_some() {}
    for (tsn, end) in [(0, 110), (1, 120), (2, 125)] {
        assert_eq!(chunk(&s, tsn, end, 28), chunk(&s, tsn, end + 1, 28));
        assert!(chunk(&s, tsn, end, 28).is_ok(), "its end is that of the lent bytes");
        for lent in [0, 99, 100, end - 1] {
            assert_eq!(chunk(&s, tsn, lent, 28), Err(Refusal::PayloadOutside), "{lent} bytes of {end}");
            assert_eq!(chunk(&s, tsn, lent, 0), Err(Refusal::PayloadOutside), "before 17");
        }
    }
    for tsn in 3..6 {
        assert_eq!(chunk(&s, tsn, 140, 28), Err(Refusal::PayloadOutside), "its offset does not wrap");
    }
}

#[test]
fn r17_a_short_output() {
    let mut s = open(1200);
    for (tsn, length) in (0..).zip(1..=9) {
        s.write(1, BINARY, 0, length).unwrap();
        s.send_next(0).unwrap();
        let whole = 16 + (length as usize).next_multiple_of(4);
        for room in 0..whole {
            assert_eq!(chunk(&s, tsn, 9, room), Err(Refusal::OutputShort), "{room} bytes for {length}: the padding counts");
        }
        assert_eq!([whole, whole + 1, 2000].map(|room| chunk(&s, tsn, 9, room)), [Ok(whole); 3]);
    }
}
