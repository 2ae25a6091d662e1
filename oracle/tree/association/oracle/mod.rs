//! The oracle: a module inside the copy of the crate that drives the original code from a script.
//! README.md has the language.
//!
//! `mode guard` (as it starts): document 01's refusals stand in front of each call (guard.rs), after expire_pending
//! the stream's next SSN drops (01: "added here"), and a DATA chunk has its padding and the write's payload type
//! (data.rs). `mode raw`: the calls of the Rust alone. All else is the original's work, but that a SACK is single
//! calls: what the original makes of one stands in a file that is a stub here.

mod aim;
pub mod bench;
mod call;
mod data;
mod faults;
mod guard;
mod show;

use alloc::string::{String, ToString};
use alloc::vec;
use alloc::vec::Vec;
use core::fmt::{Display, Write};
use core::panic::AssertUnwindSafe;
use core::time::Duration;
use std::collections::HashMap;
use std::panic::catch_unwind;
use std::time::Instant;

use self::call::{Call, Line};
use self::faults::Fault;
use super::Association;
use super::stream::{ReliabilityType, Stream, StreamState};
use super::timer::{RtoManager, TimerTable};
use crate::Side;
use crate::chunk::Chunk;
use crate::chunk::chunk_payload_data::PayloadProtocolIdentifier;
use crate::chunk::chunk_selective_ack::ChunkSelectiveAck;
use crate::queue::outbound_queue::OutboundQueue;

/// 01's capacities; `cap` sets others.
const RING: usize = 256;
const FLIGHT: usize = 256;
const MESSAGE: u32 = 65_536;
/// The bytes of the wire, and of the memory.
const BYTES: usize = 65_544;
/// So many of the memory are lent at the start.
const LENT: usize = 65_536;

/// What the script said of a message.
struct Place {
    /// The address of its first byte.
    first: usize,
    offset: u64,
    /// The payload type, which the original keeps only where it knows it.
    typ: u32,
}

pub struct Oracle {
    /// The script's time 0.
    base: Instant,
    guard: bool,
    ring: usize,
    flight: usize,
    fault: Option<&'static Fault>,
    association: Association,
    /// The open streams, in the order of opening.
    order: Vec<u16>,
    /// Of each message, by its number.
    places: HashMap<u64, Place>,
    timers: TimerTable,
    rto: RtoManager,
    /// Bytes to write: one more than a message may have, so that the Rust sees any that is too long.
    data: Vec<u8>,
    /// Bytes of the script, for the calls that read some or write some.
    wire: Vec<u8>,
    /// Bytes of the script, for payloads; the first of them are lent.
    memory: Vec<u8>,
    memory_lent: usize,
}

impl Default for Oracle {
    fn default() -> Self {
        Self::new()
    }
}

impl Oracle {
    pub fn new() -> Self {
        Oracle {
            base: Instant::now(),
            guard: true,
            ring: RING,
            flight: FLIGHT,
            fault: None,
            association: Association::new(0, 0, MESSAGE),
            order: vec![],
            places: HashMap::new(),
            timers: TimerTable::new(None, None, 60_000),
            rto: RtoManager::new(3000, 1000, 60_000),
            data: vec![0; MESSAGE as usize + 1],
            wire: vec![0; BYTES],
            memory: vec![0; BYTES],
            memory_lent: LENT,
        }
    }

    /// An oracle with one planted fault, or None where no fault has that name.
    pub fn with_fault(name: &str) -> Option<Self> {
        let fault = faults::FAULTS.iter().find(|fault| fault.name == name)?;
        Some(Oracle { fault: Some(fault), ..Self::new() })
    }

    /// The names of the faults that can be planted.
    pub fn fault_names() -> impl Iterator<Item = &'static str> {
        faults::FAULTS.iter().map(|fault| fault.name)
    }

    /// Runs one line and adds its answer to `out`, each line of it ended; nothing for a blank line.
    pub fn line(&mut self, line: &[u8], out: &mut String) {
        let call = match call::read(line) {
            Line::Blank => return,
            Line::Bad => return out.push_str("bad\n"),
            Line::Call(call) => call,
        };
        let start = out.len();
        let answer = catch_unwind(AssertUnwindSafe(|| self.call(&call, out)));
        match answer {
            Ok(Ok(())) => {}
            Ok(Err(number)) => put(out, format_args!("R {number}")),
            Err(panic) => {
                out.truncate(start);
                put(out, format_args!("panic {}", message(&*panic)));
            }
        }
        out.push('\n');
    }

    /// Err is a refusal's number; nothing has been written then.
    fn call(&mut self, call: &Call, out: &mut String) -> core::result::Result<(), u8> {
        match self.fault.and_then(|fault| (fault.strike)(self, call, out)) {
            Some(wrong) => wrong,
            None => self.sound_call(call, out),
        }
    }

    fn sound_call(&mut self, call: &Call, out: &mut String) -> core::result::Result<(), u8> {
        match self.refusal(call) {
            Some(number) => Err(number),
            None => {
                self.perform(call, out);
                Ok(())
            }
        }
    }

    fn at(&self, ms: u64) -> Instant {
        self.base.checked_add(Duration::from_millis(ms)).expect("clock fits an Instant")
    }

    fn is_open(&self, sid: u16) -> bool {
        self.association.streams.contains_key(&sid)
    }
    fn open_streams(&self) -> usize {
        self.association.streams.len()
    }
    fn pending_len(&self) -> usize {
        self.association.outbound.pending_len()
    }
    fn next_message(&self) -> u64 {
        self.association.outbound.next_message_id()
    }
    fn max_message(&self) -> u32 {
        self.association.max_message
    }
    fn ring_lengths(&self) -> (usize, usize) {
        let rings = self.association.outbound.probe_pending();
        (rings.probe_unordered().len(), rings.probe_ordered().len())
    }
    /// All but the entry that is kept for a terminator.
    fn flight_is_full(&self) -> bool {
        self.association.outbound.inflight_len() + 1 >= self.flight
    }

    /// Of an open stream only: a refusal stands in front.
    fn state_of(&mut self, sid: u16) -> &mut StreamState {
        self.association.streams.get_mut(&sid).expect("the stream is open")
    }
    fn handle(&mut self, sid: u16) -> Stream<'_> {
        Stream { stream_identifier: sid, association: &mut self.association }
    }

    fn perform(&mut self, call: &Call, out: &mut String) {
        match *call {
            Call::Mode { guard } => self.guard = guard,
            Call::Capacity { ring, flight, message } => {
                (self.ring, self.flight, self.association.max_message) = (ring, flight, message);
                self.data.resize(message as usize + 1, 0);
            }
            Call::State { parts } => return self.show_state(parts, out),
            Call::Wipe { byte } => self.wire.fill(byte),
            Call::Put { at, width, value } => {
                let bytes = &value.to_be_bytes()[8 - width..];
                self.wire.iter_mut().skip(place(at)).zip(bytes).for_each(|(to, from)| *to = *from);
            }
            Call::Look { at, bytes } => {
                return show::bytes(self.wire.iter().skip(place(at)).take(place(bytes)), out);
            }
            Call::Sack { bytes } => return self.sack(bytes, out),
            Call::Fill { seed } => {
                let byte = |i: usize| seed.wrapping_add(i as u8).wrapping_add((i / 256) as u8);
                self.memory.iter_mut().enumerate().for_each(|(i, to)| *to = byte(i));
            }
            Call::Lend { bytes } => self.memory_lent = place(bytes),
            Call::Read { at, bytes } => {
                return show::bytes(self.memory.iter().skip(place(at)).take(place(bytes)), out);
            }
            Call::Data { tsn, room } => return self.data(tsn, room, out),
            Call::Timers { .. }
            | Call::TimerSet { .. }
            | Call::TimerStart { .. }
            | Call::TimerRestart { .. }
            | Call::TimerStop { .. }
            | Call::TimerReset { .. }
            | Call::TimerSuppress { .. }
            | Call::TimerGet { .. }
            | Call::TimerNext
            | Call::TimerExpired { .. }
            | Call::TimerCount { .. } => return self.perform_timer(call, out),
            Call::Rto { .. } | Call::Measure { .. } | Call::RtoReset | Call::RtoSet { .. } | Call::RtoGet => {
                return self.perform_rto(call, out);
            }
            Call::Sender { .. }
            | Call::Open { .. }
            | Call::Reliability { .. }
            | Call::Low { .. }
            | Call::High { .. }
            | Call::Write { .. }
            | Call::Released { .. }
            | Call::Stream { .. }
            | Call::SetSsn { .. }
            | Call::SetBuffered { .. }
            | Call::SetStatistics { .. } => return self.perform_stream(call, out),
            _ => return self.perform_queue(call, out),
        }
        put(out, "ok");
    }

    fn perform_stream(&mut self, call: &Call, out: &mut String) {
        let done = match *call {
            Call::Sender { tsn, msg } => {
                self.association = Association::new(tsn, msg, self.max_message());
                self.order.clear();
                self.places.clear();
                Ok(())
            }
            Call::Open { sid, maximum } => {
                let stream = StreamState::new(Side::Client, sid, maximum, MESSAGE, PayloadProtocolIdentifier::Binary);
                if self.association.streams.insert(sid, stream).is_none() {
                    self.order.push(sid);
                }
                Ok(())
            }
            Call::Reliability { sid, unordered, kind, value } => {
                self.handle(sid).set_reliability_params(unordered, ReliabilityType::from(kind), value)
            }
            Call::Low { sid, threshold } => self.handle(sid).set_buffered_amount_low_threshold(threshold as usize),
            Call::High { sid, threshold } => self.handle(sid).set_buffered_amount_high_threshold(threshold as usize),
            Call::Write { sid, typ, off, len } => return self.write(sid, typ, off, len, out),
            Call::Released { sid, bytes } => {
                let low = self.state_of(sid).on_buffer_released(bytes);
                return put(out, format_args!("ok low={}", u8::from(low)));
            }
            Call::Stream { sid } => return self.show_stream(sid, out),
            Call::SetSsn { sid, ssn } => {
                self.state_of(sid).sequence_number = ssn;
                Ok(())
            }
            Call::SetBuffered { sid, bytes } => {
                self.state_of(sid).buffered_amount = bytes as usize;
                Ok(())
            }
            Call::SetStatistics { sid, messages, bytes } => {
                let statistics = &mut self.state_of(sid).stats;
                (statistics.messages_sent, statistics.bytes_sent) = (messages, bytes);
                Ok(())
            }
            _ => unreachable!("a call of streams"),
        };
        match done {
            Ok(()) => put(out, "ok"),
            Err(error) => put(out, format_args!("err {error:?}")),
        }
    }

    /// The original's whole write: is_writable, packetize, reliability, push, statistics, event.
    fn write(&mut self, sid: u16, typ: u32, off: u64, len: u64, out: &mut String) {
        let number = self.next_message();
        let bytes = usize::try_from(len).map_or(self.data.len(), |len| len.min(self.data.len()));
        self.association.events.clear();
        let mut stream = Stream { stream_identifier: sid, association: &mut self.association };
        let written = stream.write_with_ppi(&self.data[..bytes], typ.into());
        if self.next_message() != number {
            let first = self.pending_chunk_of(number).expect("the message was just written");
            self.places.insert(number, Place { first, offset: off, typ });
        }
        match written {
            Ok(len) => put(out, format_args!("ok len={len} high={}", u8::from(!self.association.events.is_empty()))),
            Err(error) => put(out, format_args!("err {error:?}")),
        }
    }

    /// The address of the first pending byte of a message.
    fn pending_chunk_of(&self, number: u64) -> Option<usize> {
        let rings = self.association.outbound.probe_pending();
        // Both rings are in message-number order, and the message is the newest.
        [rings.probe_unordered(), rings.probe_ordered()].into_iter().find_map(|ring| {
            let start = ring.partition_point(|chunk| chunk.message_id < number);
            ring.get(start).map(|chunk| chunk.user_data.as_ptr() as usize)
        })
    }

    /// The first bytes of the wire: as many as there are.
    fn lent(&self, bytes: u64) -> &[u8] {
        &self.wire[..place(bytes)]
    }

    /// The original's reader, and the single calls that its fields mean.
    fn sack(&mut self, bytes: u64, out: &mut String) {
        let sack = match ChunkSelectiveAck::unmarshal(&self.lent(bytes).to_vec().into()) {
            Ok(sack) => sack,
            Err(error) => return put(out, format_args!("err {error:?}")),
        };
        let Some(covered) = self.covered(sack.cumulative_tsn_ack) else { return put(out, "stale") };
        put(out, format_args!("bytes={}", single_calls(&mut self.association.outbound, &sack, covered)));
    }

    fn perform_queue(&mut self, call: &Call, out: &mut String) {
        let base = self.base;
        let at = |ms| base.checked_add(Duration::from_millis(ms)).expect("clock fits an Instant");
        let Association { outbound: queue, my_next_tsn: next_tsn, .. } = &mut self.association;
        match *call {
            Call::Lifetimes { now } => {
                queue.start_timed_messages(at(now));
                put(out, "ok");
            }
            Call::Send { now } => {
                let sent = queue.send_next(next_tsn, at(now));
                self.show_chunk_or_none(sent.as_ref(), out);
            }
            Call::Expire { now } => match queue.expire_pending(at(now)) {
                None => put(out, "none"),
                Some((sid, unordered, bytes)) => {
                    if self.guard && !unordered {
                        let stream = self.state_of(sid);
                        stream.sequence_number = stream.sequence_number.wrapping_sub(1);
                    }
                    put(out, format_args!("sid={sid} u={} bytes={bytes}", u8::from(unordered)));
                }
            },
            Call::Tail { now } => match queue.expire_pending_tail(at(now), next_tsn) {
                None => put(out, "none"),
                Some((sid, msg, bytes)) => put(out, format_args!("sid={sid} msg={msg} bytes={bytes}")),
            },
            Call::Abandon { tsn } => match queue.abandon(tsn, next_tsn) {
                None => put(out, "none"),
                Some((sid, bytes)) => put(out, format_args!("sid={sid} bytes={bytes}")),
            },
            Call::Expired { now, .. } => show::list(&queue.expired_inflight(at(now)), out),
            Call::MarkAll => {
                queue.mark_all_to_retransmit();
                put(out, "ok");
            }
            Call::Ack { tsn } => put(out, format_args!("bytes={}", queue.mark_as_acked(tsn))),
            Call::Pop { tsn } => {
                let popped = queue.pop(tsn);
                self.show_chunk_or_none(popped.as_ref(), out);
            }
            Call::Get { tsn } => self.show_chunk_or_none(self.association.outbound.get(tsn), out),
            Call::Peek => self.show_chunk_or_none(self.association.outbound.peek_pending(), out),
            Call::IsAbandoned { tsn } => put(out, u8::from(queue.is_abandoned(tsn))),
            Call::HasPending { sid } => put(out, u8::from(queue.pending_contains_stream(sid))),
            Call::Has { sid } => put(out, u8::from(queue.contains_stream(sid))),
            Call::Counts => self.show_counts(out),
            Call::NextMessage => put(out, queue.next_message_id()),
            Call::NextTsn => put(out, *next_tsn),
            Call::Earliest => match queue.earliest_outstanding_tsn() {
                None => put(out, "none"),
                Some(tsn) => put(out, tsn),
            },
            Call::Touch { tsn, now } => match queue.get_mut(tsn) {
                None => put(out, "none"),
                Some(chunk) => {
                    chunk.retransmit = false;
                    chunk.since = Some(at(now));
                    chunk.nsent += 1;
                    put(out, "ok");
                }
            },
            Call::Wire { tsn } => match queue.get(tsn) {
                None => put(out, "none"),
                Some(chunk) => show::wire(&chunk.marshal().expect("a chunk can be written"), out),
            },
            _ => unreachable!("a call of the queue"),
        }
    }

    fn perform_timer(&mut self, call: &Call, out: &mut String) {
        match *call {
            Call::Timers { init, data, rto_max } => {
                let maximum = |m: Option<u64>| m.map(|m| m as usize);
                self.timers = TimerTable::new(maximum(init), maximum(data), rto_max);
            }
            Call::TimerSet { timer, deadline } => self.timers.set(timer, deadline.map(|d| self.at(d))),
            Call::TimerStart { timer, now, interval } => self.timers.start(timer, self.at(now), interval),
            Call::TimerRestart { timer, now, interval } => self.timers.restart_if_stale(timer, self.at(now), interval),
            Call::TimerStop { timer } => self.timers.stop(timer),
            Call::TimerReset { timer } => self.timers.reset_retrans(timer),
            Call::TimerSuppress { timer } => self.timers.suppress_error_count(timer),
            Call::TimerCount { timer, count } => self.timers.probe_set_count(timer, count as usize),
            Call::TimerGet { timer } => return self.show_time(self.timers.get(timer), out),
            Call::TimerNext => return self.show_time(self.timers.next_timeout(), out),
            Call::TimerExpired { timer, now } => {
                let (expired, failure, count) = self.timers.is_expired(timer, self.at(now));
                return show::expiry(expired, failure, count, out);
            }
            _ => unreachable!("a call of the timers"),
        }
        put(out, "ok");
    }

    fn perform_rto(&mut self, call: &Call, out: &mut String) {
        match *call {
            Call::Rto { initial, min, max } => self.rto = RtoManager::new(initial, min, max),
            Call::RtoReset => self.rto.reset(),
            Call::RtoSet { rto, no_update } => self.rto.set_rto(rto, no_update),
            Call::Measure { rtt } => return put(out, format_args!("srtt={}", self.rto.set_new_rtt(rtt))),
            Call::RtoGet => return self.show_rto(out),
            _ => unreachable!("a call of the estimator"),
        }
        put(out, "ok");
    }
}

/// The covered prefix is acknowledged and popped, then the blocks are acknowledged; what these calls released.
fn single_calls(queue: &mut OutboundQueue, sack: &ChunkSelectiveAck, covered: u32) -> usize {
    let mut released = 0;
    for back in (0..covered).rev() {
        let tsn = sack.cumulative_tsn_ack.wrapping_sub(back);
        released += queue.mark_as_acked(tsn);
        queue.pop(tsn);
    }
    for offset in sack.gap_ack_blocks.iter().flat_map(|block| block.start..=block.end) {
        released += queue.mark_as_acked(sack.cumulative_tsn_ack.wrapping_add(offset.into()));
    }
    released
}

/// A place of the wire or of the memory, or their end.
fn place(at: u64) -> usize {
    at.min(BYTES as u64) as usize
}

fn put(out: &mut String, text: impl Display) {
    write!(out, "{text}").expect("a String takes what is written");
}

fn message(panic: &(dyn core::any::Any + Send)) -> String {
    let text = panic
        .downcast_ref::<String>()
        .map(String::as_str)
        .or_else(|| panic.downcast_ref::<&str>().copied())
        .unwrap_or_default();
    text.to_string().replace('\n', " ")
}
