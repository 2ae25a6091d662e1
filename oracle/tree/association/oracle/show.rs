//! What the answers look like.

use alloc::string::String;
use alloc::vec::Vec;
use core::fmt;
use std::time::Instant;

use super::call::Parts;
use super::{Oracle, put};
use crate::association::timer::Timer;
use crate::chunk::Chunk;
use crate::chunk::chunk_payload_data::{ChunkPayloadData, PayloadProtocolIdentifier};

/// A value, or a word in its place where it is absent.
struct Or<T>(Option<T>, &'static str);

impl<T: fmt::Display> fmt::Display for Or<T> {
    fn fmt(&self, f: &mut fmt::Formatter<'_>) -> fmt::Result {
        match &self.0 {
            Some(value) => value.fmt(f),
            None => f.write_str(self.1),
        }
    }
}

pub(super) fn list(tsns: &[u32], out: &mut String) {
    put(out, format_args!("n={}", tsns.len()));
    for tsn in tsns {
        put(out, format_args!(" {tsn}"));
    }
}

pub(super) fn expiry(expired: bool, failure: bool, count: usize, out: &mut String) {
    let (expired, failure) = (u8::from(expired), u8::from(failure));
    put(out, format_args!("expired={expired} failure={failure} count={count}"));
}

/// Two digits for each byte, or the word of none.
pub(super) fn bytes<'a>(bytes: impl ExactSizeIterator<Item = &'a u8>, out: &mut String) {
    if bytes.len() == 0 {
        put(out, "-");
    }
    const DIGITS: &[u8; 16] = b"0123456789abcdef";
    for byte in bytes {
        out.push(DIGITS[usize::from(byte >> 4)].into());
        out.push(DIGITS[usize::from(byte & 15)].into());
    }
}

/// The length and the first 16 bytes of a chunk as written to the wire.
pub(super) fn wire(chunk: &[u8], out: &mut String) {
    put(out, format_args!("n={} ", chunk.len()));
    bytes(chunk.iter().take(16), out);
}

impl Oracle {
    fn ms(&self, time: Option<Instant>) -> Or<u128> {
        Or(time.map(|t| t.duration_since(self.base).as_millis()), "-")
    }

    pub(super) fn show_time(&self, time: Option<Instant>, out: &mut String) {
        put(out, self.ms(time));
    }

    pub(super) fn show_chunk_or_none(&self, chunk: Option<&ChunkPayloadData>, out: &mut String) {
        match chunk {
            None => put(out, "none"),
            Some(chunk) => self.show_chunk(chunk, out),
        }
    }

    fn show_chunk(&self, c: &ChunkPayloadData, out: &mut String) {
        let typ = (c.payload_type != PayloadProtocolIdentifier::Unknown).then_some(c.payload_type as u32);
        let (kind, value) = c.reliability.expect("a write gives every chunk its reliability");
        put(
            out,
            format_args!(
                "tsn={} sid={} ssn={} flags={} type={} off={} len={} msg={} rel={}:{value} deadline={} since={} \
                 nsent={} acked={} aband={} retx={} miss={}",
                c.tsn,
                c.stream_identifier,
                c.stream_sequence_number,
                c.header().flags,
                Or(typ, "other"),
                Or(self.offset(c), "-"),
                c.user_data.len(),
                c.message_id,
                kind as u8,
                self.ms(c.deadline),
                self.ms(c.since),
                c.nsent,
                u8::from(c.acked),
                u8::from(c.abandoned),
                u8::from(c.retransmit),
                c.miss_indicator,
            ),
        );
    }

    /// The offset of the bytes that a chunk holds: the script's, and how far they lie behind the message's first.
    pub(super) fn offset(&self, c: &ChunkPayloadData) -> Option<u64> {
        let message = self.places.get(&c.message_id)?;
        let behind = (c.user_data.as_ptr() as usize).checked_sub(message.first)? as u64;
        (!c.user_data.is_empty()).then_some(message.offset.saturating_add(behind))
    }

    pub(super) fn show_stream(&self, sid: u16, out: &mut String) {
        let s = &self.association.streams[&sid];
        put(
            out,
            format_args!(
                "sid={} m={} ssn={} u={} rel={}:{} buf={} low={} high={} msgs={} bytes={}",
                s.stream_identifier,
                s.max_payload_size,
                s.sequence_number,
                u8::from(s.unordered),
                s.reliability_type as u8,
                s.reliability_value,
                s.buffered_amount,
                s.buffered_amount_low,
                s.buffered_amount_high,
                s.stats.messages_sent,
                s.stats.bytes_sent
            ),
        );
    }

    pub(super) fn show_counts(&self, out: &mut String) {
        let queue = &self.association.outbound;
        put(
            out,
            format_args!(
                "plen={} pbytes={} flen={} fbytes={}",
                queue.pending_len(),
                queue.pending_bytes(),
                queue.inflight_len(),
                queue.inflight_bytes()
            ),
        );
    }

    pub(super) fn show_rto(&self, out: &mut String) {
        let r = &self.rto;
        put(
            out,
            format_args!(
                "rto={} srtt={} rttvar={:016x} no_update={} initial={} min={} max={}",
                r.get_rto(),
                r.srtt,
                r.rttvar.to_bits(),
                u8::from(r.no_update),
                r.rto_initial,
                r.rto_min,
                r.rto_max
            ),
        );
    }

    pub(super) fn show_state(&self, parts: Parts, out: &mut String) {
        if parts.sender {
            self.show_sender(out);
        }
        if parts.timers {
            self.show_timers(out);
        }
        if parts.rto {
            self.show_rto(out);
            out.push('\n');
        }
        out.push_str("end");
    }

    fn show_sender(&self, out: &mut String) {
        let queue = &self.association.outbound;
        let rings = queue.probe_pending();
        let under_way = if rings.probe_selected() { queue.peek_pending().map(|c| c.message_id) } else { None };
        put(
            out,
            format_args!(
                "sender next_tsn={} next_msg={} next_unseen={} underway={} ",
                self.association.my_next_tsn,
                queue.next_message_id(),
                queue.probe_next_unstarted(),
                Or(under_way, "-"),
            ),
        );
        self.show_counts(out);
        out.push('\n');
        for sid in &self.order {
            out.push_str("stream ");
            self.show_stream(*sid, out);
            out.push('\n');
        }
        let flight: Vec<&ChunkPayloadData> = queue.probe_flight();
        self.show_chunks("pending-u", rings.probe_unordered().iter(), out);
        self.show_chunks("pending-o", rings.probe_ordered().iter(), out);
        self.show_chunks("flight", flight.into_iter(), out);
    }

    fn show_chunks<'a>(&self, place: &str, chunks: impl Iterator<Item = &'a ChunkPayloadData>, out: &mut String) {
        for chunk in chunks {
            put(out, format_args!("{place} "));
            self.show_chunk(chunk, out);
            out.push('\n');
        }
    }

    fn show_timers(&self, out: &mut String) {
        put(out, format_args!("timers rto_max={}\n", self.timers.probe_rto_max()));
        for timer in Timer::VALUES {
            let kept = self.timers.probe(timer);
            put(
                out,
                format_args!(
                    "timer {} {timer:?} deadline={} count={} max={} suppressed={}\n",
                    timer as u8,
                    self.ms(kept.deadline),
                    kept.count,
                    Or(kept.maximum, "-"),
                    u8::from(kept.suppressed)
                ),
            );
        }
    }
}
