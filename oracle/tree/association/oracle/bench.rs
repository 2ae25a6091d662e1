//! The originals without the script around them, for `src/bin/bench.rs` and for the race in `bench/`.
//! Each call stands by itself (`inline(never)`), as a call of the archive does, and answers what the original answers.

use alloc::vec::Vec;
use core::time::Duration;
use std::time::Instant;

use super::guard::covered;
use super::{Oracle, single_calls};
use crate::Side;
use crate::association::Association;
use crate::association::stream::{ReliabilityType, Stream, StreamState};
use crate::association::timer::{RtoManager, Timer, TimerTable};
use crate::chunk::Chunk;
use crate::chunk::chunk_payload_data::{ChunkPayloadData, PayloadProtocolIdentifier as Ppi};
use crate::chunk::chunk_selective_ack::ChunkSelectiveAck;

/// What is told of a chunk.
#[derive(Clone, Copy, Debug, PartialEq, Eq)]
pub struct BenchChunk {
    pub tsn: u32,
    pub ssn: u16,
    pub stream: u16,
    pub number: u64,
    pub length: usize,
}

fn told(chunk: &ChunkPayloadData) -> BenchChunk {
    BenchChunk {
        tsn: chunk.tsn,
        ssn: chunk.stream_sequence_number,
        stream: chunk.stream_identifier,
        number: chunk.message_id,
        length: chunk.user_data.len(),
    }
}

/// The bytes that are written.
static DATA: [u8; 1 << 18] = [7; 1 << 18];

pub struct BenchSender {
    base: Instant,
    a: Association,
}

impl BenchSender {
    pub fn now(&self, ms: u64) -> Instant {
        self.base + Duration::from_millis(ms)
    }
}

impl Oracle {
    pub fn bench_sender(payload: u32, timed_ms: u32) -> BenchSender {
        let mut sender = BenchSender { base: Instant::now(), a: Association::new(4_294_967_000, 0, 262_144) };
        (1..=2).for_each(|sid| sender.open(sid, payload, timed_ms));
        sender
    }
}

impl BenchSender {
    /// A stream: reliable where the milliseconds are 0.
    pub fn open(&mut self, sid: u16, payload: u32, timed_ms: u32) {
        let mut s = StreamState::new(Side::Client, sid, payload, 65536, Ppi::Binary);
        if timed_ms > 0 {
            s.reliability_type = ReliabilityType::Timed;
            s.reliability_value = timed_ms;
        }
        self.a.streams.insert(sid, s);
    }
    /// The whole write of stream.rs (it copies the bytes once, into a fresh allocation).
    #[inline(never)]
    pub fn write(&mut self, sid: u16, len: usize) -> Option<usize> {
        Stream { stream_identifier: sid, association: &mut self.a }.write_with_ppi(&DATA[..len], Ppi::Binary).ok()
    }
    /// packetize + reliability + push of an already shared buffer: no copy.
    #[inline(never)]
    pub fn write_shared(&mut self, sid: u16, p: &bytes::Bytes) {
        let s = self.a.streams.get_mut(&sid).expect("open");
        let (_, mut chunks) = s.probe_packetize(p, Ppi::Binary);
        for c in &mut chunks {
            c.reliability = Some((s.reliability_type, s.reliability_value));
        }
        s.stats.probe_sent(Ppi::Binary, p.len());
        self.a.outbound.push(chunks);
    }
    #[inline(never)]
    pub fn send(&mut self, now: Instant) -> Option<BenchChunk> {
        self.a.outbound.send_next(&mut self.a.my_next_tsn, now).map(|c| told(&c))
    }
    #[inline(never)]
    pub fn ack(&mut self, tsn: u32) -> usize {
        self.a.outbound.mark_as_acked(tsn)
    }
    #[inline(never)]
    pub fn pop(&mut self, tsn: u32) -> Option<BenchChunk> {
        self.a.outbound.pop(tsn).map(|c| told(&c))
    }
    /// The original's reader, and the single calls of the SACK that it read; nothing where that is none, or stale.
    #[inline(never)]
    pub fn sack(&mut self, chunk: &bytes::Bytes) -> Option<usize> {
        let sack = ChunkSelectiveAck::unmarshal(chunk).ok()?;
        let queue = &mut self.a.outbound;
        let covered = covered(queue, sack.cumulative_tsn_ack)?;
        Some(single_calls(queue, &sack, covered))
    }
    /// The chunk of a TSN in flight as the original writes it, in a fresh allocation.
    #[inline(never)]
    pub fn marshal(&self, tsn: u32) -> Option<bytes::Bytes> {
        self.a.outbound.get(tsn)?.marshal().ok()
    }
    /// The same in a buffer that is kept, of which what it had goes.
    #[inline(never)]
    pub fn marshal_to(&self, tsn: u32, writer: &mut bytes::BytesMut) -> Option<usize> {
        writer.clear();
        self.a.outbound.get(tsn)?.marshal_to(writer).ok()
    }
    #[inline(never)]
    pub fn released(&mut self, sid: u16, n: i64) -> bool {
        self.a.streams.get_mut(&sid).expect("open").on_buffer_released(n)
    }
    #[inline(never)]
    pub fn abandon(&mut self, tsn: u32) -> Option<(u16, usize)> {
        self.a.outbound.abandon(tsn, &mut self.a.my_next_tsn)
    }
    #[inline(never)]
    pub fn expired(&self, now: Instant) -> Vec<u32> {
        self.a.outbound.expired_inflight(now)
    }
    #[inline(never)]
    pub fn expire_pending(&mut self, now: Instant) -> Option<(u16, bool, usize)> {
        self.a.outbound.expire_pending(now)
    }
    #[inline(never)]
    pub fn expire_tail(&mut self, now: Instant) -> Option<(u16, u64, usize)> {
        self.a.outbound.expire_pending_tail(now, &mut self.a.my_next_tsn)
    }
    #[inline(never)]
    pub fn lifetimes(&mut self, now: Instant) {
        self.a.outbound.start_timed_messages(now)
    }
    #[inline(never)]
    pub fn mark_all(&mut self) {
        self.a.outbound.mark_all_to_retransmit()
    }
    pub fn is_marked(&self, tsn: u32) -> bool {
        self.a.outbound.get(tsn).is_some_and(|c| c.retransmit)
    }
    #[inline(never)]
    pub fn get(&self, tsn: u32) -> Option<BenchChunk> {
        self.a.outbound.get(tsn).map(told)
    }
    #[inline(never)]
    pub fn has_pending(&self, sid: u16) -> bool {
        self.a.outbound.pending_contains_stream(sid)
    }
    #[inline(never)]
    pub fn has(&self, sid: u16) -> bool {
        self.a.outbound.contains_stream(sid)
    }
    #[inline(never)]
    pub fn earliest(&self) -> Option<u32> {
        self.a.outbound.earliest_outstanding_tsn()
    }
    pub fn oldest(&self) -> Option<u32> {
        self.a.outbound.probe_oldest()
    }
    #[inline(never)]
    pub fn flight(&self) -> usize {
        self.a.outbound.inflight_len()
    }
    #[inline(never)]
    pub fn pending(&self) -> usize {
        self.a.outbound.pending_len()
    }
}

/// The timers' table and the round-trip estimator.
pub struct BenchTimers {
    base: Instant,
    timers: TimerTable,
    rto: RtoManager,
}

impl Oracle {
    pub fn bench_timers() -> BenchTimers {
        BenchTimers {
            base: Instant::now(),
            timers: TimerTable::new(Some(8), Some(10), 60_000),
            rto: RtoManager::new(3000, 1000, 60_000),
        }
    }
}

impl BenchTimers {
    pub fn now(&self, ms: u64) -> Instant {
        self.base + Duration::from_millis(ms)
    }
    /// A deadline in milliseconds.
    pub fn since(&self, deadline: Instant) -> u64 {
        (deadline - self.base).as_millis() as u64
    }
    #[inline(never)]
    pub fn start(&mut self, timer: usize, now: Instant, interval: u64) {
        self.timers.start(Timer::VALUES[timer], now, interval)
    }
    #[inline(never)]
    pub fn stop(&mut self, timer: usize) {
        self.timers.stop(Timer::VALUES[timer])
    }
    #[inline(never)]
    pub fn is_expired(&mut self, timer: usize, now: Instant) -> (bool, bool, usize) {
        self.timers.is_expired(Timer::VALUES[timer], now)
    }
    #[inline(never)]
    pub fn next_timeout(&self) -> Option<Instant> {
        self.timers.next_timeout()
    }
    #[inline(never)]
    pub fn measure(&mut self, rtt: u64) -> u64 {
        self.rto.set_new_rtt(rtt)
    }
    /// The RTO, and the bits of rttvar.
    pub fn estimate(&self) -> (u64, u64) {
        (self.rto.get_rto(), self.rto.rttvar.to_bits())
    }
}

impl Oracle {
    /// `n` rounds of starting, asking and measuring.
    pub fn bench_timer_rto(n: u64) -> (u64, f64) {
        let base = Instant::now();
        let mut timers = TimerTable::new(Some(8), Some(10), 60000);
        let mut rto = RtoManager::new(3000, 1000, 60000);
        let mut sum = 0;
        for i in 0..n {
            let now = base + Duration::from_millis(i);
            timers.start(Timer::T3RTX, now, rto.get_rto());
            sum += timers.is_expired(Timer::T3RTX, now).2 as u64;
            sum += u64::from(timers.next_timeout().is_some());
            sum += rto.set_new_rtt(100 + (i * 7919) % 400);
        }
        (sum, rto.rttvar)
    }
}
