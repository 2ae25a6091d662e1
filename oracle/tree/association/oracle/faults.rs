//! Wrong oracles, one small fault each: the comparison is sharp enough only if it finds every one (`oracle/faults`).
//! A fault stands around a call: where it shows, it gives the wrong answer or leaves the wrong state; else it
//! answers None, and the sound call goes on.

use alloc::string::String;
use alloc::vec::Vec;
use core::time::Duration;

use super::call::Call;
use super::guard::{CLOCK_MAX, DCEP, STREAMS, U32_MAX, blocks, chunk_size, long, short};
use super::{LENT, Oracle, place, put, show};
use crate::association::stream::ReliabilityType;
use crate::association::timer::Timer;
use crate::chunk::chunk_payload_data::{ChunkPayloadData, PayloadProtocolIdentifier};

type Answer = core::result::Result<(), u8>;

pub(super) struct Fault {
    pub(super) name: &'static str,
    pub(super) strike: fn(&mut Oracle, &Call, &mut String) -> Option<Answer>,
}

macro_rules! faults {
    ($($name:ident)*) => {
        pub(super) const FAULTS: &[Fault] = &[$(Fault { name: stringify!($name), strike: $name }),*];
    };
}

faults! {
    write_tests_6_before_3 write_tests_1_before_6 open_tests_4_before_2 open_tests_5_before_4
    clock_limit_refused ring_holds_255 dcep_counts_in_the_unordered_ring send_fills_the_last_entry
    refused_send_starts_lifetimes last_message_number_refused empty_message_needs_a_number
    full_buffer_refused list_must_be_longer
    high_above_threshold low_below_threshold release_beyond_ignored empty_message_keeps_ssn ssn_wraps_to_one
    empty_types_count_bytes empty_message_counted
    dcep_has_a_lifetime lifetimes_start_again
    alive_at_the_deadline tail_alive_at_the_deadline list_alive_at_the_deadline
    next_ssn_not_lowered next_ssn_lowered_for_unordered other_streams_lowered
    abandoned_listed acknowledged_listed acknowledged_with_a_tail_not_listed
    no_terminator terminator_for_each_fragment terminator_without_a_tail terminator_counts_as_sent
    acknowledged_siblings_kept abandoned_keeps_marks abandoned_stays_under_way abandoned_again_is_nothing
    byte_off_after_ack_of_abandoned acknowledged_keeps_mark acknowledged_marked abandoned_marked
    pop_takes_any popped_bytes_stay_counted abandoned_is_earliest tsn_skips_zero
    sack_type_not_tested sack_takes_bytes_behind_it sack_tests_flags sack_length_without_duplicates sack_length_turns
    stale_tested_after_14 stale_without_the_one_before stale_from_the_newest_on nothing_in_flight_is_not_stale
    stale_by_plain_numbers start_1_refused end_at_the_newest_refused end_beyond_the_newest_cut
    start_above_end_skipped blocks_tested_one_by_one covered_one_less covered_not_popped covered_bytes_lost
    blocks_from_the_old_oldest blocks_without_their_end overlaps_released_twice
    padding_counted_in_the_length answer_without_padding padding_not_cleared byte_behind_the_padding_cleared
    stream_and_ssn_swapped beginning_and_ending_swapped immediate_asked_for unordered_without_ssn unknown_types_as_58
    payload_from_the_first_byte payload_from_the_message acknowledged_written abandoned_written wrapped_tsn_not_written
    data_tests_17_before_15 data_tests_17_before_16 last_lent_byte_refused all_memory_lent payload_end_in_32_bits
    lent_in_32_bits room_in_32_bits exact_room_refused room_without_padding room_tested_while_writing
    refused_data_clears_the_wire data_counts_as_sent data_takes_the_mark
    fill_repeats sender_lends_anew sender_clears_the_wire sender_clears_the_memory
    restart_at_the_deadline timer_alive_at_the_deadline backoff_ends_at_30 backoff_ends_at_32 ack_capped
    backoff_without_ceiling backoff_one_doubling_short backoff_stays_below_the_ceiling
    failure_at_the_maximum suppression_stays suppressed_expiry_refused stop_keeps_count reset_stops
    next_timeout_without_ack fresh_restart_tests_nothing
    srtt_before_rttvar first_by_a_flag rto_rounded srtt_rounded rttvar_in_another_order reset_clamps
    measured_despite_no_update reset_despite_no_update set_rto_clamps rto_tests_2_before_1
}

fn refuse(number: u8, wrongly: bool) -> Option<Answer> {
    wrongly.then_some(Err(number))
}

fn says_none(out: &str, start: usize) -> bool {
    &out[start..] == "none"
}

// ---- refusals

fn write_tests_6_before_3(o: &mut Oracle, call: &Call, _: &mut String) -> Option<Answer> {
    let Call::Write { len, .. } = *call else { return None };
    refuse(6, len > u64::from(o.max_message()))
}

fn write_tests_1_before_6(o: &mut Oracle, call: &Call, _: &mut String) -> Option<Answer> {
    let Call::Write { sid, off, .. } = *call else { return None };
    refuse(1, o.is_open(sid) && off > U32_MAX)
}

fn open_tests_4_before_2(o: &mut Oracle, call: &Call, _: &mut String) -> Option<Answer> {
    let Call::Open { sid, .. } = *call else { return None };
    refuse(4, o.is_open(sid))
}

fn open_tests_5_before_4(o: &mut Oracle, call: &Call, _: &mut String) -> Option<Answer> {
    let Call::Open { .. } = *call else { return None };
    refuse(5, o.refusal(call) == Some(4) && o.open_streams() >= STREAMS)
}

fn clock_limit_refused(_: &mut Oracle, call: &Call, _: &mut String) -> Option<Answer> {
    let clock = match *call {
        Call::Lifetimes { now } | Call::Send { now } | Call::Expire { now } | Call::Tail { now } => now,
        Call::TimerStart { now, .. } | Call::TimerRestart { now, .. } | Call::TimerExpired { now, .. } => now,
        Call::Expired { now, .. } => now,
        _ => return None,
    };
    refuse(1, clock == CLOCK_MAX)
}

/// A write that would be accepted: its stream's amount, the message's fragments, and its ring's chunks.
fn accepted_write(o: &Oracle, call: &Call) -> Option<(u64, u64, usize)> {
    let Call::Write { sid, typ, len, .. } = *call else { return None };
    o.refusal(call).is_none().then(|| o.write_needs(sid, typ, len))
}

fn ring_holds_255(o: &mut Oracle, call: &Call, _: &mut String) -> Option<Answer> {
    let (_, fragments, used) = accepted_write(o, call)?;
    refuse(8, fragments > 0 && fragments + used as u64 == o.ring as u64)
}

fn dcep_counts_in_the_unordered_ring(o: &mut Oracle, call: &Call, _: &mut String) -> Option<Answer> {
    let Call::Write { sid, typ: DCEP, .. } = *call else { return None };
    let (_, fragments, _) = accepted_write(o, call)?;
    let room = o.ring - o.ring_lengths().0;
    refuse(8, o.state_of(sid).unordered && fragments > room as u64)
}

fn send_fills_the_last_entry(o: &mut Oracle, call: &Call, out: &mut String) -> Option<Answer> {
    let Call::Send { .. } = *call else { return None };
    let full = o.association.outbound.inflight_len() >= o.flight;
    if o.refusal(call) != Some(10) || full {
        return None;
    }
    o.perform(call, out);
    Some(Ok(()))
}

fn refused_send_starts_lifetimes(o: &mut Oracle, call: &Call, _: &mut String) -> Option<Answer> {
    let Call::Send { now } = *call else { return None };
    if o.refusal(call) == Some(10) {
        let now = o.at(now);
        o.association.outbound.start_timed_messages(now);
    }
    None
}

fn last_message_number_refused(o: &mut Oracle, call: &Call, _: &mut String) -> Option<Answer> {
    let (_, fragments, _) = accepted_write(o, call)?;
    refuse(9, fragments > 0 && o.next_message() == u64::MAX - 1)
}

fn empty_message_needs_a_number(o: &mut Oracle, call: &Call, _: &mut String) -> Option<Answer> {
    accepted_write(o, call)?;
    refuse(9, o.next_message() == u64::MAX)
}

fn full_buffer_refused(o: &mut Oracle, call: &Call, _: &mut String) -> Option<Answer> {
    let Call::Write { len, .. } = *call else { return None };
    let (buffered, ..) = accepted_write(o, call)?;
    refuse(7, buffered + len == U32_MAX)
}

fn list_must_be_longer(o: &mut Oracle, call: &Call, _: &mut String) -> Option<Answer> {
    let Call::Expired { now, room: Some(room) } = *call else { return None };
    let list = |o: &Oracle| o.association.outbound.expired_inflight(o.at(now)).len() as u64;
    refuse(11, o.refusal(call).is_none() && list(o) == room)
}

// ---- streams

fn high_above_threshold(o: &mut Oracle, call: &Call, out: &mut String) -> Option<Answer> {
    let Call::Write { sid, len, .. } = *call else { return None };
    let (before, ..) = accepted_write(o, call)?;
    let start = out.len();
    o.perform(call, out);
    let high = o.state_of(sid).buffered_amount_high as u64;
    out.truncate(start);
    put(out, format_args!("ok len={len} high={}", u8::from(before < high && before + len > high)));
    Some(Ok(()))
}

fn low_below_threshold(o: &mut Oracle, call: &Call, out: &mut String) -> Option<Answer> {
    let Call::Released { sid, .. } = *call else { return None };
    if !o.is_open(sid) {
        return None;
    }
    let before = o.state_of(sid).buffered_amount;
    let start = out.len();
    o.perform(call, out);
    let stream = o.state_of(sid);
    let low = before > stream.buffered_amount_low && stream.buffered_amount < stream.buffered_amount_low;
    out.truncate(start);
    put(out, format_args!("ok low={}", u8::from(low)));
    Some(Ok(()))
}

fn release_beyond_ignored(o: &mut Oracle, call: &Call, out: &mut String) -> Option<Answer> {
    let Call::Released { sid, bytes } = *call else { return None };
    if !o.is_open(sid) || bytes <= o.state_of(sid).buffered_amount as i64 {
        return None;
    }
    put(out, "ok low=0");
    Some(Ok(()))
}

fn empty_message_keeps_ssn(o: &mut Oracle, call: &Call, out: &mut String) -> Option<Answer> {
    let Call::Write { sid, len: 0, .. } = *call else { return None };
    accepted_write(o, call)?;
    let ssn = o.state_of(sid).sequence_number;
    o.perform(call, out);
    o.state_of(sid).sequence_number = ssn;
    Some(Ok(()))
}

fn ssn_wraps_to_one(o: &mut Oracle, call: &Call, out: &mut String) -> Option<Answer> {
    let Call::Write { sid, .. } = *call else { return None };
    accepted_write(o, call)?;
    let before = o.state_of(sid).sequence_number;
    o.perform(call, out);
    let stream = o.state_of(sid);
    if before == u16::MAX && stream.sequence_number == 0 {
        stream.sequence_number = 1;
    }
    Some(Ok(()))
}

fn empty_types_count_bytes(o: &mut Oracle, call: &Call, out: &mut String) -> Option<Answer> {
    let Call::Write { sid, typ: 56 | 57, len, .. } = *call else { return None };
    accepted_write(o, call)?;
    o.perform(call, out);
    o.state_of(sid).stats.bytes_sent += len;
    Some(Ok(()))
}

fn empty_message_counted(o: &mut Oracle, call: &Call, out: &mut String) -> Option<Answer> {
    let Call::Write { sid, typ: 51 | 53 | 56 | 57, len: 0, .. } = *call else { return None };
    accepted_write(o, call)?;
    o.perform(call, out);
    o.state_of(sid).stats.messages_sent += 1;
    Some(Ok(()))
}

// ---- lifetimes and expiry

/// The clock of a call that starts lifetimes and is not refused.
fn accepted_start(o: &Oracle, call: &Call) -> Option<u64> {
    match *call {
        Call::Lifetimes { now } | Call::Send { now } if o.refusal(call).is_none() => Some(now),
        _ => None,
    }
}

fn give_lifetimes(o: &mut Oracle, now: u64, which: impl Fn(&ChunkPayloadData) -> bool) {
    let now = o.at(now);
    for chunk in o.association.outbound.probe_parts().0.probe_chunks() {
        if let Some((ReliabilityType::Timed, lifetime)) = chunk.reliability
            && which(chunk)
        {
            chunk.deadline = Some(now + Duration::from_millis(u64::from(lifetime)));
        }
    }
}

fn dcep_has_a_lifetime(o: &mut Oracle, call: &Call, _: &mut String) -> Option<Answer> {
    let now = accepted_start(o, call)?;
    let unseen = o.association.outbound.probe_next_unstarted();
    give_lifetimes(o, now, |chunk| chunk.payload_type == PayloadProtocolIdentifier::Dcep && chunk.message_id >= unseen);
    None
}

fn lifetimes_start_again(o: &mut Oracle, call: &Call, _: &mut String) -> Option<Answer> {
    let now = accepted_start(o, call)?;
    give_lifetimes(o, now, |chunk| chunk.deadline.is_some());
    None
}

/// The call at the millisecond before: what it is to take "at the deadline" for "before it".
fn a_moment_earlier(o: &mut Oracle, call: &Call, now: u64, earlier: Call, out: &mut String) -> Option<Answer> {
    if o.refusal(call).is_some() {
        return None;
    }
    match now {
        0 => put(out, "none"),
        _ => o.perform(&earlier, out),
    }
    Some(Ok(()))
}

fn alive_at_the_deadline(o: &mut Oracle, call: &Call, out: &mut String) -> Option<Answer> {
    let Call::Expire { now } = *call else { return None };
    a_moment_earlier(o, call, now, Call::Expire { now: now.wrapping_sub(1) }, out)
}

fn tail_alive_at_the_deadline(o: &mut Oracle, call: &Call, out: &mut String) -> Option<Answer> {
    let Call::Tail { now } = *call else { return None };
    a_moment_earlier(o, call, now, Call::Tail { now: now.wrapping_sub(1) }, out)
}

fn list_alive_at_the_deadline(o: &mut Oracle, call: &Call, out: &mut String) -> Option<Answer> {
    let Call::Expired { now, room } = *call else { return None };
    let now = now.checked_sub(1)?;
    if now >= CLOCK_MAX {
        return None;
    }
    Some(o.sound_call(&Call::Expired { now, room }, out))
}

/// Whether the head is unordered, and its stream.
fn head_of(o: &Oracle) -> Option<(bool, u16)> {
    o.association.outbound.peek_pending().map(|chunk| (chunk.unordered, chunk.stream_identifier))
}

fn next_ssn_not_lowered(o: &mut Oracle, call: &Call, out: &mut String) -> Option<Answer> {
    let Call::Expire { .. } = *call else { return None };
    let (_, sid) = head_of(o)?;
    let ssn = o.state_of(sid).sequence_number;
    let answer = o.sound_call(call, out);
    o.state_of(sid).sequence_number = ssn;
    Some(answer)
}

fn next_ssn_lowered_for_unordered(o: &mut Oracle, call: &Call, out: &mut String) -> Option<Answer> {
    let Call::Expire { .. } = *call else { return None };
    let (unordered, sid) = head_of(o)?;
    let start = out.len();
    let answer = o.sound_call(call, out);
    if unordered && answer.is_ok() && !says_none(out, start) {
        let stream = o.state_of(sid);
        stream.sequence_number = stream.sequence_number.wrapping_sub(1);
    }
    Some(answer)
}

fn other_streams_lowered(o: &mut Oracle, call: &Call, out: &mut String) -> Option<Answer> {
    let Call::Expire { .. } = *call else { return None };
    let (unordered, sid) = head_of(o)?;
    let start = out.len();
    let answer = o.sound_call(call, out);
    if !unordered && answer.is_ok() && !says_none(out, start) {
        for chunk in o.association.outbound.probe_parts().0.probe_chunks() {
            if !chunk.unordered && chunk.stream_identifier != sid {
                chunk.stream_sequence_number = chunk.stream_sequence_number.wrapping_sub(1);
            }
        }
    }
    Some(answer)
}

/// The list of what has expired, by another rule; it is told whether the entry's message is pending too.
fn list_by(o: &Oracle, call: &Call, out: &mut String, rule: fn(&ChunkPayloadData, bool) -> bool) -> Option<Answer> {
    let Call::Expired { now, room } = *call else { return None };
    if now > CLOCK_MAX {
        return None;
    }
    let queue = &o.association.outbound;
    let pending = |chunk: &ChunkPayloadData| queue.probe_pending().contains_message(chunk.message_id);
    let late = |chunk: &ChunkPayloadData| chunk.deadline.is_some_and(|deadline| o.at(now) >= deadline);
    let entries = queue.probe_flight().into_iter();
    let list: Vec<u32> = entries.filter(|c| late(c) && rule(c, pending(c))).map(|c| c.tsn).collect();
    if room.is_some_and(|room| list.len() as u64 > room) {
        return Some(Err(11));
    }
    show::list(&list, out);
    Some(Ok(()))
}

fn abandoned_listed(o: &mut Oracle, call: &Call, out: &mut String) -> Option<Answer> {
    list_by(o, call, out, |chunk, pending| !chunk.acked || pending)
}

fn acknowledged_listed(o: &mut Oracle, call: &Call, out: &mut String) -> Option<Answer> {
    list_by(o, call, out, |chunk, _| !chunk.abandoned)
}

fn acknowledged_with_a_tail_not_listed(o: &mut Oracle, call: &Call, out: &mut String) -> Option<Answer> {
    list_by(o, call, out, |chunk, _| !chunk.abandoned && !chunk.acked)
}

// ---- abandonment and the flight

/// Runs a call that may abandon a message. Gives its answer, the chunks it took from the rings,
/// and the TSN of the terminator where it filed one.
fn abandonment(o: &mut Oracle, call: &Call, out: &mut String) -> Option<(Answer, usize, Option<u32>)> {
    let (Call::Abandon { .. } | Call::Tail { .. }) = *call else { return None };
    let (pending, next) = (o.pending_len(), o.association.my_next_tsn);
    let answer = o.sound_call(call, out);
    let filed = (o.association.my_next_tsn != next).then_some(next);
    Some((answer, pending - o.pending_len(), filed))
}

fn no_terminator(o: &mut Oracle, call: &Call, out: &mut String) -> Option<Answer> {
    let (answer, _, filed) = abandonment(o, call, out)?;
    if let Some(tsn) = filed {
        o.association.outbound.probe_parts().1.probe_remove(tsn);
        o.association.my_next_tsn = tsn;
    }
    Some(answer)
}

fn file_terminators(o: &mut Oracle, like: &ChunkPayloadData, number: usize) {
    for _ in 0..number.min(o.flight - o.association.outbound.inflight_len()) {
        let tsn = o.association.my_next_tsn;
        o.association.my_next_tsn = tsn.wrapping_add(1);
        o.association.outbound.probe_parts().1.push_no_check(ChunkPayloadData { tsn, ..like.clone() });
    }
}

fn terminator_for_each_fragment(o: &mut Oracle, call: &Call, out: &mut String) -> Option<Answer> {
    let (answer, taken, filed) = abandonment(o, call, out)?;
    if let Some(terminator) = filed.and_then(|tsn| o.association.outbound.get(tsn)).cloned() {
        file_terminators(o, &terminator, taken - 1);
    }
    Some(answer)
}

fn terminator_without_a_tail(o: &mut Oracle, call: &Call, out: &mut String) -> Option<Answer> {
    let Call::Abandon { tsn } = *call else { return None };
    let fresh = o.association.outbound.get(tsn).is_some_and(|chunk| !chunk.abandoned);
    let (answer, _, filed) = abandonment(o, call, out)?;
    if let Some(entry) = o.association.outbound.get(tsn).cloned()
        && fresh
        && filed.is_none()
    {
        let terminator = ChunkPayloadData { ending_fragment: true, since: None, nsent: 0, ..entry };
        file_terminators(o, &terminator, 1);
    }
    Some(answer)
}

fn terminator_counts_as_sent(o: &mut Oracle, call: &Call, out: &mut String) -> Option<Answer> {
    let (answer, _, filed) = abandonment(o, call, out)?;
    if let Some(terminator) = filed.and_then(|tsn| o.association.outbound.get_mut(tsn)) {
        terminator.nsent = 1;
    }
    Some(answer)
}

/// The entries of which something holds before an abandonment.
fn entries_where(o: &Oracle, which: fn(&ChunkPayloadData) -> bool) -> Vec<u32> {
    o.association.outbound.probe_flight().into_iter().filter(|chunk| which(chunk)).map(|chunk| chunk.tsn).collect()
}

fn acknowledged_siblings_kept(o: &mut Oracle, call: &Call, out: &mut String) -> Option<Answer> {
    let kept = entries_where(o, |chunk| chunk.acked && !chunk.abandoned);
    let (answer, ..) = abandonment(o, call, out)?;
    for tsn in kept {
        o.association.outbound.get_mut(tsn).expect("still in flight").abandoned = false;
    }
    Some(answer)
}

fn abandoned_keeps_marks(o: &mut Oracle, call: &Call, out: &mut String) -> Option<Answer> {
    let marked = entries_where(o, |chunk| chunk.retransmit);
    let (answer, ..) = abandonment(o, call, out)?;
    for tsn in marked {
        o.association.outbound.get_mut(tsn).expect("still in flight").retransmit = true;
    }
    Some(answer)
}

fn abandoned_stays_under_way(o: &mut Oracle, call: &Call, out: &mut String) -> Option<Answer> {
    let under_way = o.association.outbound.probe_pending().probe_selected();
    let (answer, ..) = abandonment(o, call, out)?;
    if under_way {
        o.association.outbound.probe_parts().0.probe_select();
    }
    Some(answer)
}

fn abandoned_again_is_nothing(o: &mut Oracle, call: &Call, out: &mut String) -> Option<Answer> {
    let Call::Abandon { tsn } = *call else { return None };
    if !o.association.outbound.is_abandoned(tsn) {
        return None;
    }
    put(out, "none");
    Some(Ok(()))
}

fn byte_off_after_ack_of_abandoned(o: &mut Oracle, call: &Call, _: &mut String) -> Option<Answer> {
    let Call::Ack { tsn } = *call else { return None };
    if o.association.outbound.is_abandoned(tsn) {
        *o.association.outbound.probe_parts().1.probe_bytes() += 1;
    }
    None
}

fn acknowledged_keeps_mark(o: &mut Oracle, call: &Call, out: &mut String) -> Option<Answer> {
    let Call::Ack { tsn } = *call else { return None };
    let marked = o.association.outbound.get(tsn)?.retransmit;
    o.perform(call, out);
    o.association.outbound.get_mut(tsn)?.retransmit = marked;
    Some(Ok(()))
}

fn mark_where(o: &mut Oracle, call: &Call, out: &mut String, which: fn(&ChunkPayloadData) -> bool) -> Option<Answer> {
    let Call::MarkAll = *call else { return None };
    o.perform(call, out);
    for chunk in o.association.outbound.probe_parts().1.probe_entries() {
        chunk.retransmit |= which(chunk);
    }
    Some(Ok(()))
}

fn acknowledged_marked(o: &mut Oracle, call: &Call, out: &mut String) -> Option<Answer> {
    mark_where(o, call, out, |chunk| !chunk.abandoned)
}

fn abandoned_marked(o: &mut Oracle, call: &Call, out: &mut String) -> Option<Answer> {
    mark_where(o, call, out, |chunk| !chunk.acked)
}

fn pop_takes_any(o: &mut Oracle, call: &Call, out: &mut String) -> Option<Answer> {
    let Call::Pop { tsn } = *call else { return None };
    let entry = o.association.outbound.probe_parts().1.probe_remove(tsn);
    o.show_chunk_or_none(entry.as_ref(), out);
    Some(Ok(()))
}

fn popped_bytes_stay_counted(o: &mut Oracle, call: &Call, out: &mut String) -> Option<Answer> {
    let Call::Pop { .. } = *call else { return None };
    let bytes = o.association.outbound.inflight_bytes();
    o.perform(call, out);
    *o.association.outbound.probe_parts().1.probe_bytes() = bytes;
    Some(Ok(()))
}

fn abandoned_is_earliest(o: &mut Oracle, call: &Call, out: &mut String) -> Option<Answer> {
    let Call::Earliest = *call else { return None };
    match entries_where(o, |chunk| !chunk.acked).first() {
        None => put(out, "none"),
        Some(tsn) => put(out, tsn),
    }
    Some(Ok(()))
}

fn tsn_skips_zero(o: &mut Oracle, call: &Call, out: &mut String) -> Option<Answer> {
    let Call::Send { .. } = *call else { return None };
    let before = o.association.my_next_tsn;
    let answer = o.sound_call(call, out);
    if before == u32::MAX && o.association.my_next_tsn == 0 {
        o.association.my_next_tsn = 1;
    }
    Some(answer)
}

// ---- SACKs

/// A SACK that is neither refused nor stale.
struct Taken {
    cumulative: u32,
    covered: u32,
    blocks: Vec<(usize, usize)>,
}

fn taken_sack(o: &Oracle, call: &Call) -> Option<Taken> {
    let Call::Sack { bytes } = *call else { return None };
    let sack = o.lent(bytes);
    if o.refusal(call).is_some() {
        return None;
    }
    let cumulative = long(sack, 4);
    Some(Taken { cumulative, covered: o.covered(cumulative)?, blocks: blocks(sack).collect() })
}

/// The bytes of a SACK that is not one, if its 16 fixed bytes are there.
fn refused_13(o: &Oracle, call: &Call) -> Option<Vec<u8>> {
    let Call::Sack { bytes } = *call else { return None };
    (o.refusal(call) == Some(13) && bytes >= 16).then(|| o.lent(bytes).to_vec())
}

impl Taken {
    fn covered_tsns(&self) -> impl Iterator<Item = u32> {
        (0..self.covered).rev().map(|back| self.cumulative.wrapping_sub(back))
    }
    fn block_tsns(&self) -> impl Iterator<Item = u32> {
        let offsets = self.blocks.iter().flat_map(|(start, end)| *start..=*end);
        offsets.map(|offset| self.cumulative.wrapping_add(offset as u32))
    }
}

fn acknowledge(o: &mut Oracle, tsns: impl Iterator<Item = u32>) -> usize {
    tsns.map(|tsn| o.association.outbound.mark_as_acked(tsn)).sum()
}

fn acknowledge_and_pop(o: &mut Oracle, tsns: impl Iterator<Item = u32>) -> usize {
    let queue = &mut o.association.outbound;
    tsns.map(|tsn| {
        let bytes = queue.mark_as_acked(tsn);
        queue.pop(tsn);
        bytes
    })
    .sum()
}

fn releases(bytes: usize, out: &mut String) -> Option<Answer> {
    put(out, format_args!("bytes={bytes}"));
    Some(Ok(()))
}

/// The SACK, as if these bytes were lent.
fn sack_of(o: &mut Oracle, bytes: &[u8], out: &mut String) -> Option<Answer> {
    let wire = o.wire.clone();
    o.wire[..bytes.len()].copy_from_slice(bytes);
    let answer = o.sound_call(&Call::Sack { bytes: bytes.len() as u64 }, out);
    o.wire = wire;
    Some(answer)
}

fn sack_type_not_tested(o: &mut Oracle, call: &Call, out: &mut String) -> Option<Answer> {
    let mut sack = refused_13(o, call)?;
    sack[0] = 3;
    sack_of(o, &sack, out)
}

fn sack_takes_bytes_behind_it(o: &mut Oracle, call: &Call, out: &mut String) -> Option<Answer> {
    let sack = refused_13(o, call)?;
    let length = short(&sack, 2);
    if length < 16 {
        return None;
    }
    sack_of(o, sack.get(..length)?, out)
}

fn sack_tests_flags(o: &mut Oracle, call: &Call, _: &mut String) -> Option<Answer> {
    let Call::Sack { bytes } = *call else { return None };
    refuse(13, o.lent(bytes).get(1).is_some_and(|flags| *flags != 0))
}

fn sack_length_without_duplicates(o: &mut Oracle, call: &Call, _: &mut String) -> Option<Answer> {
    let Call::Sack { bytes } = *call else { return None };
    refuse(13, o.refusal(call).is_none() && short(o.lent(bytes), 14) > 0)
}

fn sack_length_turns(o: &mut Oracle, call: &Call, out: &mut String) -> Option<Answer> {
    let mut sack = refused_13(o, call)?;
    sack[12] &= 0x3f;
    sack_of(o, &sack, out)
}

fn stale_tested_after_14(o: &mut Oracle, call: &Call, _: &mut String) -> Option<Answer> {
    let Call::Sack { bytes } = *call else { return None };
    let stale = o.refusal(call).is_none() && o.covered(long(o.lent(bytes), 4)).is_none();
    refuse(14, stale && blocks(o.lent(bytes)).any(|(start, end)| start == 0 || start > end))
}

fn stale(out: &mut String, wrongly: bool) -> Option<Answer> {
    wrongly.then(|| put(out, "stale")).map(Ok)
}

fn stale_without_the_one_before(o: &mut Oracle, call: &Call, out: &mut String) -> Option<Answer> {
    let wrongly = taken_sack(o, call)?.covered == 0;
    stale(out, wrongly)
}

fn stale_from_the_newest_on(o: &mut Oracle, call: &Call, out: &mut String) -> Option<Answer> {
    let wrongly = taken_sack(o, call)?.covered as usize == o.association.outbound.inflight_len();
    stale(out, wrongly)
}

fn stale_by_plain_numbers(o: &mut Oracle, call: &Call, out: &mut String) -> Option<Answer> {
    let taken = taken_sack(o, call)?;
    let oldest = o.association.outbound.probe_oldest()?;
    stale(out, taken.covered > 0 && taken.cumulative < oldest)
}

fn nothing_in_flight_is_not_stale(o: &mut Oracle, call: &Call, out: &mut String) -> Option<Answer> {
    let Call::Sack { bytes } = *call else { return None };
    let next = o.association.my_next_tsn;
    let empty = o.refusal(call).is_none() && o.association.outbound.probe_oldest().is_none();
    if !empty || long(o.lent(bytes), 4) != next.wrapping_sub(1) {
        return None;
    }
    releases(0, out)
}

fn start_1_refused(o: &mut Oracle, call: &Call, _: &mut String) -> Option<Answer> {
    refuse(14, taken_sack(o, call)?.blocks.iter().any(|(start, _)| *start == 1))
}

fn end_at_the_newest_refused(o: &mut Oracle, call: &Call, _: &mut String) -> Option<Answer> {
    let taken = taken_sack(o, call)?;
    let left = o.association.outbound.inflight_len() - taken.covered as usize;
    refuse(14, taken.blocks.iter().any(|(_, end)| *end == left))
}

/// The SACK without the blocks that are refused, or with others in their place.
fn with_blocks(
    o: &mut Oracle,
    call: &Call,
    out: &mut String,
    other: fn((usize, usize), usize) -> Option<(usize, usize)>,
) -> Option<Answer> {
    let Call::Sack { bytes } = *call else { return None };
    if o.refusal(call) != Some(14) {
        return None;
    }
    let sack = o.lent(bytes);
    let cumulative = long(sack, 4);
    let covered = o.covered(cumulative)?;
    let left = o.association.outbound.inflight_len() - covered as usize;
    let blocks: Vec<_> = blocks(sack).filter_map(|block| other(block, left)).collect();
    if blocks.iter().any(|(start, end)| *start == 0 || start > end || *end > left) {
        return None;
    }
    let taken = Taken { cumulative, covered, blocks };
    let prefix = acknowledge_and_pop(o, taken.covered_tsns());
    releases(prefix + acknowledge(o, taken.block_tsns()), out)
}

fn end_beyond_the_newest_cut(o: &mut Oracle, call: &Call, out: &mut String) -> Option<Answer> {
    with_blocks(o, call, out, |(start, end), left| Some((start, end.min(left))))
}

fn start_above_end_skipped(o: &mut Oracle, call: &Call, out: &mut String) -> Option<Answer> {
    with_blocks(o, call, out, |(start, end), _| (start <= end).then_some((start, end)))
}

fn blocks_tested_one_by_one(o: &mut Oracle, call: &Call, _: &mut String) -> Option<Answer> {
    let Call::Sack { bytes } = *call else { return None };
    if o.refusal(call) == Some(14) {
        let sack = o.lent(bytes);
        let (cumulative, (start, end)) = (long(sack, 4), blocks(sack).next()?);
        let left = o.association.outbound.inflight_len() - o.covered(cumulative)? as usize;
        if start > 0 && end <= left {
            acknowledge(o, (start..=end).map(|offset| cumulative.wrapping_add(offset as u32)));
        }
    }
    None
}

fn covered_one_less(o: &mut Oracle, call: &Call, out: &mut String) -> Option<Answer> {
    let taken = taken_sack(o, call)?;
    let prefix = acknowledge_and_pop(o, taken.covered_tsns().take(taken.covered.saturating_sub(1) as usize));
    releases(prefix + acknowledge(o, taken.block_tsns()), out)
}

fn covered_not_popped(o: &mut Oracle, call: &Call, out: &mut String) -> Option<Answer> {
    let taken = taken_sack(o, call)?;
    let released = acknowledge(o, taken.covered_tsns().chain(taken.block_tsns()));
    releases(released, out)
}

fn covered_bytes_lost(o: &mut Oracle, call: &Call, out: &mut String) -> Option<Answer> {
    let taken = taken_sack(o, call)?;
    acknowledge_and_pop(o, taken.covered_tsns());
    releases(acknowledge(o, taken.block_tsns()), out)
}

fn blocks_from_the_old_oldest(o: &mut Oracle, call: &Call, out: &mut String) -> Option<Answer> {
    let taken = taken_sack(o, call)?;
    let prefix = acknowledge_and_pop(o, taken.covered_tsns());
    let shifted: Vec<u32> = taken.block_tsns().map(|tsn| tsn.wrapping_sub(taken.covered)).collect();
    releases(prefix + acknowledge(o, shifted.into_iter()), out)
}

fn blocks_without_their_end(o: &mut Oracle, call: &Call, out: &mut String) -> Option<Answer> {
    let mut taken = taken_sack(o, call)?;
    taken.blocks.iter_mut().for_each(|(_, end)| *end -= 1);
    let prefix = acknowledge_and_pop(o, taken.covered_tsns());
    releases(prefix + acknowledge(o, taken.block_tsns()), out)
}

fn overlaps_released_twice(o: &mut Oracle, call: &Call, out: &mut String) -> Option<Answer> {
    let taken = taken_sack(o, call)?;
    let prefix = acknowledge_and_pop(o, taken.covered_tsns());
    let queue = &o.association.outbound;
    let held = taken.block_tsns().filter_map(|tsn| queue.get(tsn)).map(|chunk| chunk.user_data.len()).sum::<usize>();
    acknowledge(o, taken.block_tsns());
    releases(prefix + held, out)
}

// ---- DATA chunks

/// Writes an entry's chunk, whatever would refuse it, with other bytes.
fn write_chunk(
    o: &mut Oracle,
    call: &Call,
    out: &mut String,
    change: fn(&Oracle, &ChunkPayloadData, &mut Vec<u8>),
) -> Option<Answer> {
    let Call::Data { tsn, room } = *call else { return None };
    let entry = o.association.outbound.get(tsn)?;
    let mut bytes = o.chunk_bytes(entry);
    change(o, entry, &mut bytes);
    o.put_chunk(&bytes, room, out);
    Some(Ok(()))
}

/// The same for a call that is not refused.
fn other_chunk(
    o: &mut Oracle,
    call: &Call,
    out: &mut String,
    change: fn(&Oracle, &ChunkPayloadData, &mut Vec<u8>),
) -> Option<Answer> {
    o.refusal(call).is_none().then(|| write_chunk(o, call, out, change))?
}

fn padding_counted_in_the_length(o: &mut Oracle, call: &Call, out: &mut String) -> Option<Answer> {
    other_chunk(o, call, out, |_, _, bytes| {
        let length = bytes.len() as u16;
        bytes[2..4].copy_from_slice(&length.to_be_bytes());
    })
}

fn answer_without_padding(o: &mut Oracle, call: &Call, out: &mut String) -> Option<Answer> {
    let Call::Data { tsn, room } = *call else { return None };
    let start = out.len();
    other_chunk(o, call, out, |_, _, _| {})?.ok()?;
    let length = o.live(tsn)?.user_data.len();
    out.truncate(start);
    o.show_chunk_bytes(16 + length, room, out);
    Some(Ok(()))
}

fn padding_not_cleared(o: &mut Oracle, call: &Call, out: &mut String) -> Option<Answer> {
    other_chunk(o, call, out, |o, entry, bytes| {
        let padding = 16 + entry.user_data.len()..bytes.len();
        bytes[padding.clone()].copy_from_slice(&o.wire[padding]);
    })
}

fn byte_behind_the_padding_cleared(o: &mut Oracle, call: &Call, out: &mut String) -> Option<Answer> {
    let Call::Data { tsn, room } = *call else { return None };
    let behind = chunk_size(o.live(tsn)?);
    if behind < place(room) && o.refusal(call).is_none() {
        o.wire[behind] = 0;
    }
    Some(o.sound_call(call, out))
}

fn stream_and_ssn_swapped(o: &mut Oracle, call: &Call, out: &mut String) -> Option<Answer> {
    other_chunk(o, call, out, |_, _, bytes| bytes[8..12].rotate_left(2))
}

fn beginning_and_ending_swapped(o: &mut Oracle, call: &Call, out: &mut String) -> Option<Answer> {
    other_chunk(o, call, out, |_, _, bytes| bytes[1] = bytes[1] & 4 | (bytes[1] & 1) << 1 | (bytes[1] & 2) >> 1)
}

fn immediate_asked_for(o: &mut Oracle, call: &Call, out: &mut String) -> Option<Answer> {
    other_chunk(o, call, out, |_, entry, bytes| bytes[1] |= u8::from(entry.ending_fragment) << 3)
}

fn unordered_without_ssn(o: &mut Oracle, call: &Call, out: &mut String) -> Option<Answer> {
    other_chunk(o, call, out, |_, entry, bytes| {
        if entry.unordered {
            bytes[10..12].fill(0);
        }
    })
}

fn unknown_types_as_58(o: &mut Oracle, call: &Call, out: &mut String) -> Option<Answer> {
    other_chunk(o, call, out, |_, entry, bytes| {
        bytes[12..16].copy_from_slice(&(entry.payload_type as u32).to_be_bytes());
    })
}

fn payload_from_the_first_byte(o: &mut Oracle, call: &Call, out: &mut String) -> Option<Answer> {
    other_chunk(o, call, out, |o, entry, bytes| {
        let length = entry.user_data.len();
        bytes[16..16 + length].copy_from_slice(&o.memory[..length]);
    })
}

fn payload_from_the_message(o: &mut Oracle, call: &Call, out: &mut String) -> Option<Answer> {
    other_chunk(o, call, out, |o, entry, bytes| {
        let (from, length) = (o.places[&entry.message_id].offset as usize, entry.user_data.len());
        bytes[16..16 + length].copy_from_slice(&o.memory[from..from + length]);
    })
}

/// An entry that may not be written is, without the bytes that it has lost.
fn dead_written(o: &mut Oracle, call: &Call, out: &mut String, dead: fn(&ChunkPayloadData) -> bool) -> Option<Answer> {
    let Call::Data { tsn, room } = *call else { return None };
    if room < 16 || !dead(o.association.outbound.get(tsn)?) {
        return None;
    }
    write_chunk(o, call, out, |_, _, _| {})
}

fn acknowledged_written(o: &mut Oracle, call: &Call, out: &mut String) -> Option<Answer> {
    dead_written(o, call, out, |entry| entry.acked && !entry.abandoned)
}

fn abandoned_written(o: &mut Oracle, call: &Call, out: &mut String) -> Option<Answer> {
    dead_written(o, call, out, |entry| entry.abandoned && !entry.acked)
}

fn wrapped_tsn_not_written(o: &mut Oracle, call: &Call, _: &mut String) -> Option<Answer> {
    let Call::Data { tsn, .. } = *call else { return None };
    refuse(15, tsn < o.association.outbound.probe_oldest()?)
}

fn data_tests_17_before_15(o: &mut Oracle, call: &Call, _: &mut String) -> Option<Answer> {
    let Call::Data { room, .. } = *call else { return None };
    refuse(17, o.refusal(call) == Some(15) && room < 16)
}

fn data_tests_17_before_16(o: &mut Oracle, call: &Call, _: &mut String) -> Option<Answer> {
    let Call::Data { tsn, room } = *call else { return None };
    let size = chunk_size(o.live(tsn)?);
    refuse(17, o.refusal(call) == Some(16) && place(room) < size)
}

fn last_lent_byte_refused(o: &mut Oracle, call: &Call, _: &mut String) -> Option<Answer> {
    let Call::Data { tsn, .. } = *call else { return None };
    refuse(16, o.payload_end(o.live(tsn)?) == o.memory_lent as u64)
}

/// The call, as if so much of the memory were lent.
fn lent_so_far(o: &mut Oracle, call: &Call, out: &mut String, lent: usize) -> Answer {
    let before = core::mem::replace(&mut o.memory_lent, lent);
    let answer = o.sound_call(call, out);
    o.memory_lent = before;
    answer
}

fn all_memory_lent(o: &mut Oracle, call: &Call, out: &mut String) -> Option<Answer> {
    let Call::Data { .. } = *call else { return None };
    Some(lent_so_far(o, call, out, o.memory.len()))
}

fn payload_end_in_32_bits(o: &mut Oracle, call: &Call, out: &mut String) -> Option<Answer> {
    let Call::Data { tsn, .. } = *call else { return None };
    let turned = o.payload_end(o.live(tsn)?) as u32 as usize;
    (turned <= o.memory_lent).then(|| lent_so_far(o, call, out, usize::MAX))
}

fn lent_in_32_bits(o: &mut Oracle, call: &Call, out: &mut String) -> Option<Answer> {
    let Call::Lend { bytes } = *call else { return None };
    Some(o.sound_call(&Call::Lend { bytes: bytes & U32_MAX }, out))
}

fn room_in_32_bits(o: &mut Oracle, call: &Call, out: &mut String) -> Option<Answer> {
    let Call::Data { tsn, room } = *call else { return None };
    Some(o.sound_call(&Call::Data { tsn, room: room & U32_MAX }, out))
}

fn exact_room_refused(o: &mut Oracle, call: &Call, _: &mut String) -> Option<Answer> {
    let Call::Data { tsn, room } = *call else { return None };
    refuse(17, o.refusal(call).is_none() && place(room) == chunk_size(o.live(tsn)?))
}

fn room_without_padding(o: &mut Oracle, call: &Call, out: &mut String) -> Option<Answer> {
    let Call::Data { tsn, room } = *call else { return None };
    let length = o.live(tsn)?.user_data.len();
    if o.refusal(call) != Some(17) || place(room) < 16 + length {
        return None;
    }
    write_chunk(o, call, out, |_, entry, bytes| bytes.truncate(16 + entry.user_data.len()))
}

fn room_tested_while_writing(o: &mut Oracle, call: &Call, _: &mut String) -> Option<Answer> {
    let Call::Data { tsn, room } = *call else { return None };
    if o.refusal(call) == Some(17) {
        let fitting = &o.chunk_bytes(o.live(tsn)?)[..place(room)];
        o.wire[..fitting.len()].copy_from_slice(fitting);
    }
    None
}

fn refused_data_clears_the_wire(o: &mut Oracle, call: &Call, _: &mut String) -> Option<Answer> {
    let Call::Data { room, .. } = *call else { return None };
    if o.refusal(call).is_some() {
        o.wire[..place(room)].fill(0);
    }
    None
}

/// Writing changes nothing of the entry; here it does.
fn entry_changed(o: &mut Oracle, call: &Call, out: &mut String, change: fn(&mut ChunkPayloadData)) -> Option<Answer> {
    let Call::Data { tsn, .. } = *call else { return None };
    let answer = o.sound_call(call, out);
    if answer.is_ok() {
        change(o.association.outbound.get_mut(tsn)?);
    }
    Some(answer)
}

fn data_counts_as_sent(o: &mut Oracle, call: &Call, out: &mut String) -> Option<Answer> {
    entry_changed(o, call, out, |entry| entry.nsent += 1)
}

fn data_takes_the_mark(o: &mut Oracle, call: &Call, out: &mut String) -> Option<Answer> {
    entry_changed(o, call, out, |entry| entry.retransmit = false)
}

fn fill_repeats(o: &mut Oracle, call: &Call, out: &mut String) -> Option<Answer> {
    let Call::Fill { seed } = *call else { return None };
    o.memory.iter_mut().enumerate().for_each(|(i, to)| *to = seed.wrapping_add(i as u8));
    put(out, "ok");
    Some(Ok(()))
}

fn sender_lends_anew(o: &mut Oracle, call: &Call, _: &mut String) -> Option<Answer> {
    if let Call::Sender { .. } = *call {
        o.memory_lent = LENT;
    }
    None
}

fn sender_clears_the_wire(o: &mut Oracle, call: &Call, _: &mut String) -> Option<Answer> {
    if let Call::Sender { .. } = *call {
        o.wire.fill(0);
    }
    None
}

fn sender_clears_the_memory(o: &mut Oracle, call: &Call, _: &mut String) -> Option<Answer> {
    if let Call::Sender { .. } = *call {
        o.memory.fill(0);
    }
    None
}

// ---- timers

/// A start that will happen: the timer, the clock, the interval. A restart of a timer that is not stale is none.
fn starting(o: &Oracle, call: &Call) -> Option<(Timer, u64, u64)> {
    if o.refusal(call).is_some() {
        return None;
    }
    match *call {
        Call::TimerStart { timer, now, interval } => Some((timer, now, interval)),
        Call::TimerRestart { timer, now, interval } => {
            let stale = o.timers.get(timer).is_none_or(|deadline| deadline < o.at(now));
            stale.then_some((timer, now, interval))
        }
        _ => None,
    }
}

fn deadline_after(o: &mut Oracle, timer: Timer, now: u64, wait: u64, out: &mut String) -> Option<Answer> {
    let deadline = o.at(now + wait);
    o.timers.set(timer, Some(deadline));
    put(out, "ok");
    Some(Ok(()))
}

fn restart_at_the_deadline(o: &mut Oracle, call: &Call, out: &mut String) -> Option<Answer> {
    let Call::TimerRestart { timer, now, interval } = *call else { return None };
    if o.refusal(call).is_some() || o.timers.get(timer) != Some(o.at(now)) {
        return None;
    }
    o.perform(&Call::TimerStart { timer, now, interval }, out);
    Some(Ok(()))
}

fn timer_alive_at_the_deadline(o: &mut Oracle, call: &Call, out: &mut String) -> Option<Answer> {
    let Call::TimerExpired { timer, now } = *call else { return None };
    let kept = o.timers.probe(timer);
    if now > CLOCK_MAX || kept.deadline != Some(o.at(now)) {
        return None;
    }
    show::expiry(false, false, kept.count, out);
    Some(Ok(()))
}

fn backoff_ends_at_30(o: &mut Oracle, call: &Call, out: &mut String) -> Option<Answer> {
    let (timer, now, _) = starting(o, call)?;
    if timer == Timer::Ack || o.timers.probe(timer).count != 30 {
        return None;
    }
    deadline_after(o, timer, now, o.timers.probe_rto_max(), out)
}

fn backoff_ends_at_32(o: &mut Oracle, call: &Call, out: &mut String) -> Option<Answer> {
    let (timer, now, interval) = starting(o, call)?;
    if timer == Timer::Ack || o.timers.probe(timer).count != 31 {
        return None;
    }
    deadline_after(o, timer, now, (interval << 31).min(o.timers.probe_rto_max()), out)
}

/// A start whose wait is doubled: its count is below 31, and it is not Ack's.
fn doubling(o: &Oracle, call: &Call) -> Option<(Timer, u64, u64, u32)> {
    let (timer, now, interval) = starting(o, call)?;
    let count = o.timers.probe(timer).count;
    (timer != Timer::Ack && count < 31).then_some((timer, now, interval, count as u32))
}

fn backoff_without_ceiling(o: &mut Oracle, call: &Call, out: &mut String) -> Option<Answer> {
    let (timer, now, interval, count) = doubling(o, call)?;
    deadline_after(o, timer, now, interval << count, out)
}

fn backoff_one_doubling_short(o: &mut Oracle, call: &Call, out: &mut String) -> Option<Answer> {
    let (timer, now, interval, count) = doubling(o, call)?;
    let wait = interval << count.saturating_sub(1);
    deadline_after(o, timer, now, wait.min(o.timers.probe_rto_max()), out)
}

/// Doubling that stops one step before the ceiling would be reached, and answers the wait of that step.
fn backoff_stays_below_the_ceiling(o: &mut Oracle, call: &Call, out: &mut String) -> Option<Answer> {
    let (timer, now, interval, count) = doubling(o, call)?;
    let ceiling = o.timers.probe_rto_max();
    let below = (0..=count).rev().map(|times| interval << times).find(|wait| *wait <= ceiling);
    deadline_after(o, timer, now, below.unwrap_or(ceiling), out)
}

fn ack_capped(o: &mut Oracle, call: &Call, out: &mut String) -> Option<Answer> {
    let (Timer::Ack, now, interval) = starting(o, call)? else { return None };
    deadline_after(o, Timer::Ack, now, interval.min(o.timers.probe_rto_max()), out)
}

fn failure_at_the_maximum(o: &mut Oracle, call: &Call, out: &mut String) -> Option<Answer> {
    let Call::TimerExpired { timer, now } = *call else { return None };
    let kept = o.timers.probe(timer);
    if o.refusal(call).is_some() || kept.suppressed {
        return None;
    }
    let (expired, _, count) = o.timers.is_expired(timer, o.at(now));
    show::expiry(expired, expired && kept.maximum.is_some_and(|maximum| count >= maximum), count, out);
    Some(Ok(()))
}

fn suppression_stays(o: &mut Oracle, call: &Call, out: &mut String) -> Option<Answer> {
    let Call::TimerExpired { timer, .. } = *call else { return None };
    let suppressed = o.timers.probe(timer).suppressed;
    let answer = o.sound_call(call, out);
    if suppressed {
        o.timers.suppress_error_count(timer);
    }
    Some(answer)
}

fn suppressed_expiry_refused(o: &mut Oracle, call: &Call, _: &mut String) -> Option<Answer> {
    let Call::TimerExpired { timer, now } = *call else { return None };
    let kept = o.timers.probe(timer);
    let expired = now <= CLOCK_MAX && kept.deadline.is_some_and(|deadline| deadline <= o.at(now));
    refuse(12, expired && kept.suppressed && kept.count as u64 == U32_MAX)
}

fn stop_keeps_count(o: &mut Oracle, call: &Call, out: &mut String) -> Option<Answer> {
    let Call::TimerStop { timer } = *call else { return None };
    let count = o.timers.probe(timer).count;
    o.perform(call, out);
    o.timers.probe_set_count(timer, count);
    Some(Ok(()))
}

fn reset_stops(o: &mut Oracle, call: &Call, out: &mut String) -> Option<Answer> {
    let Call::TimerReset { timer } = *call else { return None };
    o.timers.set(timer, None);
    o.perform(call, out);
    Some(Ok(()))
}

fn next_timeout_without_ack(o: &mut Oracle, call: &Call, out: &mut String) -> Option<Answer> {
    let Call::TimerNext = *call else { return None };
    let others = Timer::VALUES.into_iter().filter(|timer| *timer != Timer::Ack);
    let next = others.filter_map(|timer| o.timers.get(timer)).min();
    o.show_time(next, out);
    Some(Ok(()))
}

fn fresh_restart_tests_nothing(o: &mut Oracle, call: &Call, out: &mut String) -> Option<Answer> {
    let Call::TimerRestart { timer, now, interval } = *call else { return None };
    let fresh = now <= CLOCK_MAX && o.timers.get(timer).is_some_and(|deadline| deadline >= o.at(now));
    if !fresh || interval <= U32_MAX {
        return None;
    }
    put(out, "ok");
    Some(Ok(()))
}

// ---- the estimator

/// A measurement that is not the first and not refused.
fn later_measurement(o: &Oracle, call: &Call) -> Option<u64> {
    match *call {
        Call::Measure { rtt } if o.refusal(call).is_none() && o.rto.srtt != 0 && !o.rto.no_update => Some(rtt),
        _ => None,
    }
}

fn estimate(o: &mut Oracle, srtt: u64, rttvar: f64, out: &mut String) -> Option<Answer> {
    (o.rto.srtt, o.rto.rttvar) = (srtt, rttvar);
    o.rto.rto = (srtt + (4.0 * rttvar) as u64).clamp(o.rto.rto_min, o.rto.rto_max);
    put(out, format_args!("srtt={srtt}"));
    Some(Ok(()))
}

fn smoothed(srtt: u64, rtt: u64) -> u64 {
    (7 * srtt + rtt) / 8
}

fn varied(rttvar: f64, srtt: u64, rtt: u64) -> f64 {
    (6.0 * rttvar + 2.0 * srtt.abs_diff(rtt) as f64) / 8.0
}

fn srtt_before_rttvar(o: &mut Oracle, call: &Call, out: &mut String) -> Option<Answer> {
    let rtt = later_measurement(o, call)?;
    let srtt = smoothed(o.rto.srtt, rtt);
    estimate(o, srtt, varied(o.rto.rttvar, srtt, rtt), out)
}

fn first_by_a_flag(o: &mut Oracle, call: &Call, out: &mut String) -> Option<Answer> {
    let Call::Measure { rtt } = *call else { return None };
    // srtt fell back to 0: rttvar still tells that there was a measurement.
    if o.refusal(call).is_some() || o.rto.no_update || o.rto.srtt != 0 || o.rto.rttvar == 0.0 {
        return None;
    }
    estimate(o, smoothed(0, rtt), varied(o.rto.rttvar, 0, rtt), out)
}

fn rto_rounded(o: &mut Oracle, call: &Call, out: &mut String) -> Option<Answer> {
    let rtt = later_measurement(o, call)?;
    let (srtt, rttvar) = (smoothed(o.rto.srtt, rtt), varied(o.rto.rttvar, o.rto.srtt, rtt));
    let answer = estimate(o, srtt, rttvar, out);
    o.rto.rto = (srtt + (4.0 * rttvar + 0.5) as u64).clamp(o.rto.rto_min, o.rto.rto_max);
    answer
}

fn srtt_rounded(o: &mut Oracle, call: &Call, out: &mut String) -> Option<Answer> {
    let rtt = later_measurement(o, call)?;
    estimate(o, (7 * o.rto.srtt + rtt + 4) / 8, varied(o.rto.rttvar, o.rto.srtt, rtt), out)
}

fn rttvar_in_another_order(o: &mut Oracle, call: &Call, out: &mut String) -> Option<Answer> {
    let rtt = later_measurement(o, call)?;
    // The same number but for the rounding.
    let rttvar = o.rto.rttvar + (o.rto.srtt.abs_diff(rtt) as f64 - o.rto.rttvar) / 4.0;
    estimate(o, smoothed(o.rto.srtt, rtt), rttvar, out)
}

fn reset_clamps(o: &mut Oracle, call: &Call, out: &mut String) -> Option<Answer> {
    let Call::RtoReset = *call else { return None };
    if o.rto.no_update {
        return None;
    }
    o.perform(call, out);
    o.rto.rto = o.rto.rto.clamp(o.rto.rto_min, o.rto.rto_max);
    Some(Ok(()))
}

fn despite_no_update(o: &mut Oracle, call: &Call, out: &mut String) -> Option<Answer> {
    let no_update = core::mem::replace(&mut o.rto.no_update, false);
    let answer = o.sound_call(call, out);
    o.rto.no_update = no_update;
    Some(answer)
}

fn measured_despite_no_update(o: &mut Oracle, call: &Call, out: &mut String) -> Option<Answer> {
    let Call::Measure { .. } = *call else { return None };
    despite_no_update(o, call, out)
}

fn reset_despite_no_update(o: &mut Oracle, call: &Call, out: &mut String) -> Option<Answer> {
    let Call::RtoReset = *call else { return None };
    despite_no_update(o, call, out)
}

fn set_rto_clamps(o: &mut Oracle, call: &Call, out: &mut String) -> Option<Answer> {
    let Call::RtoSet { .. } = *call else { return None };
    let answer = o.sound_call(call, out);
    if answer.is_ok() {
        o.rto.rto = o.rto.rto.clamp(o.rto.rto_min, o.rto.rto_max);
    }
    Some(answer)
}

fn rto_tests_2_before_1(_: &mut Oracle, call: &Call, _: &mut String) -> Option<Answer> {
    let Call::Rto { min, max, .. } = *call else { return None };
    refuse(2, min > max)
}
