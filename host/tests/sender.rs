//! Each call of the sender, with its answer.

use girdermoth::*;

const BINARY: PayloadProtocolIdentifier = PayloadProtocolIdentifier::BINARY;

/// Stream 1, payloads of 1,200 bytes, and a lifetime of 100 ms.
fn timed(first_tsn: u32) -> Sender {
    let mut s = Sender::new(first_tsn, 0);
    s.open_stream(1, 1200).unwrap();
    s.set_reliability_params(1, false, ReliabilityType::Timed, 100).unwrap();
    s
}

#[test]
fn a_message_is_cut_and_each_fragment_says_what_it_carries() {
    let mut s = timed(10);
    assert_eq!(s.next_message_id(), 0);
    assert_eq!(s.write(1, BINARY, 5_000, 3_000), Ok(false));
    assert_eq!((s.next_message_id(), s.pending_len(), s.pending_bytes()), (1, 3, 3_000));
    let head = s.peek_pending().unwrap();
    assert_eq!((head.tsn, head.length, head.since, head.deadline, head.nsent), (0, 1200, None, None, 0));
    let first = s.send_next(7).unwrap().unwrap();
    let all = Chunk {
        tsn: 10,
        stream_identifier: 1,
        stream_sequence_number: 0,
        payload_type: BINARY,
        message_id: 0,
        offset: 5_000,
        length: 1200,
        unordered: false,
        beginning_fragment: true,
        ending_fragment: false,
        reliability: (ReliabilityType::Timed, 100),
        deadline: Some(107),
        since: Some(7),
        nsent: 1,
        acked: false,
        abandoned: false,
        retransmit: false,
    };
    assert_eq!(first, all);
    assert_eq!(s.get(10), Some(all));
    let rest: Vec<_> = (0..2).map(|_| s.send_next(8).unwrap().unwrap()).map(|c| (c.tsn, c.offset, c.length, c.flags())).collect();
    assert_eq!(rest, [(11, 6_200, 1200, 0), (12, 7_400, 600, 1)]);
    assert_eq!(s.send_next(8), Ok(None));
    assert_eq!((s.inflight_len(), s.inflight_bytes(), s.next_tsn()), (3, 3_000, 13));
    assert_eq!(s.get(13), None);
}

#[test]
fn lengths_of_fragments() {
    for (length, fragments) in [(3_000, vec![1200, 1200, 600]), (2_400, vec![1200, 1200]), (1, vec![1]), (0, vec![])] {
        let mut s = timed(0);
        s.write(1, BINARY, 0, length).unwrap();
        let got: Vec<u32> = std::iter::from_fn(|| s.send_next(0).unwrap()).map(|c| c.length).collect();
        assert_eq!(got, fragments);
    }
}

#[test]
fn an_empty_message_takes_an_ssn_and_no_number() {
    let mut s = timed(0);
    s.write(1, BINARY, 0, 0).unwrap();
    assert_eq!((s.pending_len(), s.next_message_id()), (0, 0));
    s.write(1, BINARY, 0, 1).unwrap();
    assert_eq!(s.peek_pending().unwrap().stream_sequence_number, 1);
}

#[test]
fn the_ssn_wraps() {
    let mut s = timed(0);
    for _ in 0..65_535 {
        s.write(1, BINARY, 0, 0).unwrap();
    }
    s.write(1, BINARY, 0, 1).unwrap();
    s.write(1, BINARY, 0, 1).unwrap();
    let ssns: Vec<u16> = std::iter::from_fn(|| s.send_next(0).unwrap()).map(|c| c.stream_sequence_number).collect();
    assert_eq!(ssns, [65_535, 0]);
}

#[test]
fn tsns_wrap_in_every_call() {
    let mut s = timed(u32::MAX - 1);
    s.write(1, BINARY, 0, 4_800).unwrap();
    let tsns: Vec<u32> = std::iter::from_fn(|| s.send_next(0).unwrap()).map(|c| c.tsn).collect();
    assert_eq!(tsns, [u32::MAX - 1, u32::MAX, 0, 1]);
    assert_eq!(s.next_tsn(), 2);
    let mut list = [9; 6];
    assert_eq!(s.expired_inflight(100, &mut list), Ok(&[u32::MAX - 1, u32::MAX, 0, 1][..]));
    assert_eq!(list[4..], [9, 9]);
    assert_eq!(s.mark_as_acked(u32::MAX), 1200);
    assert_eq!(s.mark_as_acked(u32::MAX - 1), 1200);
    assert_eq!(s.earliest_outstanding_tsn(), Some(0));
    assert_eq!(s.pop(u32::MAX), None, "only the oldest is popped");
    assert_eq!(s.pop(u32::MAX - 1).map(|c| (c.tsn, c.acked, c.length)), Some((u32::MAX - 1, true, 0)));
    assert_eq!(s.pop(u32::MAX).map(|c| c.tsn), Some(u32::MAX));
    assert_eq!(s.pop(0).map(|c| (c.tsn, c.acked, c.length)), Some((0, false, 1200)));
    assert_eq!((s.inflight_len(), s.inflight_bytes()), (1, 1200));
}

#[test]
fn an_acknowledgement_answers_the_bytes_once() {
    let mut s = timed(0);
    s.write(1, BINARY, 0, 1_300).unwrap();
    s.send_next(0).unwrap();
    s.send_next(0).unwrap();
    assert_eq!((s.mark_as_acked(1), s.mark_as_acked(1), s.mark_as_acked(2)), (100, 0, 0));
    let entry = s.get(1).unwrap();
    assert!(entry.acked && entry.length == 0);
    assert_eq!(s.inflight_bytes(), 1200);
}

#[test]
fn marks_to_retransmit_skip_what_is_settled() {
    let mut s = timed(0);
    for length in [10, 20, 2_000] {
        s.write(1, BINARY, 0, length).unwrap();
    }
    while s.send_next(0).unwrap().is_some() {}
    s.mark_as_acked(0);
    s.abandon(2).unwrap();
    s.mark_all_to_retransmit();
    let marks: Vec<bool> = (0..4).map(|tsn| s.get(tsn).unwrap().retransmit).collect();
    assert_eq!(marks, [false, true, false, false]);
    assert_eq!(s.mark_as_acked(1), 20);
    assert!(!s.get(1).unwrap().retransmit);
    assert_eq!(s.earliest_outstanding_tsn(), None);
}

#[test]
fn a_whole_message_expires_without_a_tsn_and_its_ssn_is_used_again() {
    let mut s = timed(0);
    s.write(1, BINARY, 0, 3_000).unwrap();
    s.start_timed_messages(5).unwrap();
    assert_eq!(s.peek_pending().unwrap().deadline, Some(105));
    s.write(1, BINARY, 3_000, 10).unwrap();
    s.start_timed_messages(6).unwrap();
    assert_eq!(s.peek_pending().unwrap().deadline, Some(105), "a second start changes no deadline");
    assert_eq!(s.expire_pending(104), Ok(None));
    assert_eq!(s.expire_pending_tail(105), Ok(None), "nothing is under way");
    assert_eq!(s.expire_pending(105), Ok(Some(Expired { stream_identifier: 1, unordered: false, bytes: 3_000 })));
    let next = s.send_next(105).unwrap().unwrap();
    assert_eq!((next.tsn, next.stream_sequence_number, next.message_id, next.deadline), (0, 0, 1, Some(106)));
    s.write(1, BINARY, 0, 1).unwrap();
    assert_eq!(s.peek_pending().unwrap().stream_sequence_number, 1);
}

/// The entries of a message in flight, and its terminators among them.
fn terminators(s: &Sender, first: u32) -> Vec<u32> {
    (first..s.next_tsn()).filter(|&tsn| s.get(tsn).is_some_and(|c| c.is_terminator())).collect()
}

#[test]
fn a_half_sent_message_that_expires_ends_in_one_empty_terminator() {
    let mut s = timed(0);
    s.write(1, BINARY, 0, 12_000).unwrap();
    for _ in 0..4 {
        s.send_next(0).unwrap();
    }
    assert_eq!(s.mark_as_acked(0), 1200);
    assert_eq!(s.expire_pending_tail(99), Ok(None));
    assert_eq!(s.expire_pending(100), Ok(None), "its first part has left");
    assert_eq!(s.expired_inflight(100, &mut [0; 8]), Ok(&[0, 1, 2, 3][..]), "an acknowledged entry counts while its message has a rest");
    assert_eq!(s.expire_pending_tail(100), Ok(Some(ExpiredTail { stream_identifier: 1, message_id: 0, bytes: 10_800 })));
    assert_eq!(terminators(&s, 0), [4]);
    let end = s.get(4).unwrap();
    assert_eq!((end.length, end.flags(), end.since, end.nsent, end.message_id, end.deadline), (0, 1, None, 0, 0, Some(100)));
    assert!((0..5).all(|tsn| s.is_abandoned(tsn)));
    assert!(!s.is_abandoned(5));
    assert_eq!((s.pending_len(), s.pending_bytes(), s.inflight_len(), s.inflight_bytes()), (0, 0, 5, 0));
    assert_eq!(s.expired_inflight(100, &mut [0; 8]), Ok(&[][..]));
    assert_eq!(s.expire_pending_tail(100), Ok(None));
    assert_eq!(s.send_next(100), Ok(None));
    assert_eq!(s.next_tsn(), 5);
}

#[test]
fn a_half_sent_message_that_is_abandoned_ends_in_one_empty_terminator() {
    let mut s = timed(0);
    s.write(1, BINARY, 0, 6_000).unwrap();
    s.send_next(0).unwrap();
    s.send_next(0).unwrap();
    assert_eq!(s.abandon(1), Some(Abandoned { stream_identifier: 1, bytes: 6_000 }));
    assert_eq!(terminators(&s, 0), [2]);
    assert_eq!(s.abandon(0), Some(Abandoned { stream_identifier: 1, bytes: 0 }));
    assert_eq!(s.abandon(2), Some(Abandoned { stream_identifier: 1, bytes: 0 }));
    assert_eq!(s.abandon(3), None);
    assert_eq!(terminators(&s, 0), [2]);
}

#[test]
fn a_wholly_sent_message_that_is_abandoned_gets_no_terminator() {
    let mut s = timed(0);
    s.write(1, BINARY, 0, 2_400).unwrap();
    s.send_next(0).unwrap();
    s.send_next(0).unwrap();
    assert_eq!(s.abandon(0), Some(Abandoned { stream_identifier: 1, bytes: 2_400 }));
    assert_eq!((terminators(&s, 0).len(), s.inflight_len()), (0, 2));
}

#[test]
fn unordered_goes_first_and_a_message_under_way_before_it() {
    let mut s = timed(0);
    s.open_stream(2, 1200).unwrap();
    s.set_reliability_params(2, true, ReliabilityType::Rexmit, 3).unwrap();
    s.write(1, BINARY, 0, 2_400).unwrap();
    s.write(2, BINARY, 0, 10).unwrap();
    let first = s.send_next(0).unwrap().unwrap();
    assert_eq!((first.stream_identifier, first.flags(), first.reliability), (2, 7, (ReliabilityType::Rexmit, 3)));
    s.send_next(0).unwrap();
    s.write(2, BINARY, 0, 10).unwrap();
    let streams: Vec<u16> = std::iter::from_fn(|| s.send_next(0).unwrap()).map(|c| c.stream_identifier).collect();
    assert_eq!(streams, [1, 2]);
}

#[test]
fn the_channels_own_messages_are_ordered_and_live_for_ever() {
    let mut s = timed(0);
    s.set_reliability_params(1, true, ReliabilityType::Timed, 1).unwrap();
    s.write(1, PayloadProtocolIdentifier::DCEP, 0, 5).unwrap();
    let sent = s.send_next(0).unwrap().unwrap();
    assert_eq!((sent.unordered, sent.deadline, sent.payload_type), (false, None, PayloadProtocolIdentifier::DCEP));
    s.write(1, PayloadProtocolIdentifier(1234), 0, 5).unwrap();
    assert_eq!(s.peek_pending().unwrap().payload_type, PayloadProtocolIdentifier(1234), "any type is kept");
}

#[test]
fn streams_are_told_apart() {
    let mut s = timed(0);
    s.open_stream(2, 1200).unwrap();
    s.write(1, BINARY, 0, 1).unwrap();
    assert_eq!((s.pending_contains_stream(1), s.contains_stream(1), s.contains_stream(2), s.contains_stream(3)), (true, true, false, false));
    s.send_next(0).unwrap();
    assert_eq!((s.pending_contains_stream(1), s.contains_stream(1), s.pending_contains_stream(9)), (false, true, false));
    s.pop(0).unwrap();
    assert!(!s.contains_stream(1));
}

#[test]
fn buffered_amounts_and_their_thresholds() {
    for (released, low, left) in
        [(6, true, 4), (-1, false, 10), (0, false, 10), (99, true, 0), (5, false, 5), (i64::MIN, false, 10), (i64::MAX, true, 0)]
    {
        let mut s = timed(0);
        assert_eq!((s.buffered_amount_low_threshold(1), s.buffered_amount_high_threshold(1)), (Ok(0), Ok(u64::MAX)));
        s.set_buffered_amount_low_threshold(1, 4).unwrap();
        s.set_buffered_amount_high_threshold(1, 10).unwrap();
        assert_eq!((s.buffered_amount_low_threshold(1), s.buffered_amount_high_threshold(1)), (Ok(4), Ok(10)));
        assert_eq!(s.write(1, BINARY, 0, 9), Ok(false));
        assert_eq!(s.write(1, BINARY, 9, 1), Ok(true));
        assert_eq!(s.buffered_amount(1), Ok(10));
        assert_eq!(s.on_buffer_released(1, released), Ok(low));
        assert_eq!(s.buffered_amount(1), Ok(left));
    }
}

#[test]
fn statistics_count_by_type() {
    let counted = |ppi| {
        let mut s = timed(0);
        s.write(1, ppi, 0, 10).unwrap();
        s.stats(1).map(|stats| (stats.messages_sent, stats.bytes_sent))
    };
    assert_eq!(counted(PayloadProtocolIdentifier::DCEP), Ok((0, 0)));
    assert_eq!(counted(PayloadProtocolIdentifier::STRING), Ok((1, 10)));
    assert_eq!(counted(PayloadProtocolIdentifier::BINARY), Ok((1, 10)));
    assert_eq!(counted(PayloadProtocolIdentifier::STRING_EMPTY), Ok((1, 0)));
    assert_eq!(counted(PayloadProtocolIdentifier::BINARY_EMPTY), Ok((1, 0)));
    let mut s = timed(0);
    for ppi in 0..100 {
        s.write(1, PayloadProtocolIdentifier(ppi), 0, 10).unwrap();
    }
    s.write(1, BINARY, 0, 0).unwrap();
    assert_eq!(s.stats(1), Ok(DataChannelStats { messages_sent: 4, bytes_sent: 20 }));
}

/// Pending, half sent and in flight: only a `Timed` message expires.
#[test]
fn only_timed_messages_expire() {
    for kind in [ReliabilityType::Reliable, ReliabilityType::Rexmit, ReliabilityType::Timed] {
        let expires = kind == ReliabilityType::Timed;
        let mut s = timed(0);
        s.set_reliability_params(1, false, kind, 50).unwrap();
        s.write(1, BINARY, 0, 10).unwrap();
        s.start_timed_messages(1_000).unwrap();
        assert_eq!(s.peek_pending().unwrap().deadline, expires.then_some(1_050), "{kind}");
        assert_eq!(s.expire_pending(1_050).unwrap().is_some(), expires, "{kind}");
        while s.send_next(1_050).unwrap().is_some() {}
        s.write(1, BINARY, 0, 1_300).unwrap();
        let first = s.send_next(2_000).unwrap().unwrap();
        assert_eq!((first.reliability, first.deadline), ((kind, 50), expires.then_some(2_050)));
        assert_eq!(s.expired_inflight(2_050, &mut [0; 4]).unwrap().len(), usize::from(expires), "{kind}");
        assert_eq!(s.expire_pending_tail(2_050).unwrap().is_some(), expires, "{kind}");
    }
}

#[test]
fn the_clock_may_go_back() {
    let mut s = timed(0);
    s.write(1, BINARY, 0, 10).unwrap();
    s.start_timed_messages(CLOCK_MAX).unwrap();
    assert_eq!(s.expire_pending(CLOCK_MAX), Ok(None));
    s.write(1, BINARY, 0, 10).unwrap();
    let sent = s.send_next(3).unwrap().unwrap();
    assert_eq!((sent.deadline, sent.since), (Some(CLOCK_MAX + 100), Some(3)));
    assert_eq!(s.peek_pending().unwrap().deadline, Some(103));
}

#[test]
fn a_copy_goes_its_own_way() {
    let mut s = timed(0);
    s.write(1, BINARY, 0, 10).unwrap();
    let mut copy = s.clone();
    s.send_next(0).unwrap();
    assert_eq!((s.pending_len(), copy.pending_len()), (0, 1));
    assert_eq!(copy.send_next(0).unwrap().unwrap().tsn, 0);
    assert!(format!("{s:?}").contains("inflight_len: 1"));
}

#[test]
fn the_oldest_tsn_is_that_of_the_front_whatever_became_of_it() {
    let mut s = timed(u32::MAX);
    assert_eq!(s.oldest_tsn(), None);
    s.write(1, BINARY, 0, 2_400).unwrap();
    while s.send_next(0).unwrap().is_some() {}
    s.mark_as_acked(u32::MAX);
    assert_eq!((s.oldest_tsn(), s.earliest_outstanding_tsn()), (Some(u32::MAX), Some(0)));
    s.pop(u32::MAX).unwrap();
    s.abandon(0).unwrap();
    assert_eq!((s.oldest_tsn(), s.earliest_outstanding_tsn()), (Some(0), None));
    s.pop(0).unwrap();
    assert_eq!(s.oldest_tsn(), None);
}

#[test]
fn a_ring_takes_as_many_fragments_as_it_tells() {
    let mut s = timed(0);
    s.open_stream(2, 10).unwrap();
    s.set_reliability_params(2, true, ReliabilityType::Reliable, 0).unwrap();
    assert_eq!((s.ring_room(false), s.ring_room(true)), (RING_ROOM, RING_ROOM));
    s.write(1, BINARY, 0, 3_000).unwrap();
    s.write(2, BINARY, 0, 2_000).unwrap();
    assert_eq!((s.ring_room(false), s.ring_room(true)), (RING_ROOM - 3, RING_ROOM - 200));
    assert_eq!(s.write(2, BINARY, 0, 570), Err(Refusal::RingFull));
    s.write(2, BINARY, 0, 560).unwrap();
    assert_eq!(s.ring_room(true), 0);
    s.send_next(0).unwrap();
    assert_eq!((s.ring_room(false), s.ring_room(true)), (RING_ROOM - 3, 1));
}

#[test]
fn the_next_deadline_is_the_earlier_of_the_head_and_the_flight() {
    let mut s = timed(0);
    s.write(1, BINARY, 0, 10).unwrap();
    assert_eq!(s.next_deadline(), None, "its lifetime has not started");
    s.start_timed_messages(0).unwrap();
    assert_eq!(s.next_deadline(), Some(100), "the head's");
    s.send_next(0).unwrap();
    s.set_reliability_params(1, false, ReliabilityType::Timed, 20).unwrap();
    s.write(1, BINARY, 0, 10).unwrap();
    s.start_timed_messages(30).unwrap();
    assert_eq!(s.next_deadline(), Some(50), "the head's, before that in flight");
    s.send_next(30).unwrap();
    s.mark_as_acked(1);
    assert_eq!(s.next_deadline(), Some(50), "what is acknowledged counts");
    s.abandon(1).unwrap();
    assert_eq!(s.next_deadline(), Some(100), "what is abandoned does not");
    s.abandon(0).unwrap();
    assert_eq!(s.next_deadline(), None);
    s.write(1, PayloadProtocolIdentifier::DCEP, 0, 10).unwrap();
    s.start_timed_messages(40).unwrap();
    assert_eq!(s.next_deadline(), None, "payload type 50 gets none");
}

#[test]
fn what_is_acknowledged_keeps_its_deadline_until_it_is_popped_or_abandoned() {
    for popped in [true, false] {
        let mut s = timed(0);
        s.write(1, BINARY, 0, 10).unwrap();
        s.send_next(0).unwrap();
        assert_eq!(s.mark_as_acked(0), 10);
        assert_eq!(s.expired_inflight(200, &mut [0; 4]), Ok(&[][..]), "the deadline has passed, and nothing is to expire");
        assert_eq!(s.next_deadline(), Some(100));
        assert!(if popped { s.pop(0).is_some() } else { s.abandon(0).is_some() });
        assert_eq!(s.next_deadline(), None, "popped: {popped}");
    }
}
