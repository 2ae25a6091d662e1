//! The unchanged Rust, behind the oracle's probes.
use std::hint::black_box;
use std::time::Instant;

use sctp_proto::{Endpoint as Oracle, SnapError as BareTimers, SnapSide as BareSender};

use crate::side::{Bytes, Chunk, Clockwork, Freed, Output, Side};

pub struct Theirs {
    sender: BareSender,
    shared: bytes::Bytes,
    list: Vec<u32>,
    marshalled: bytes::Bytes,
    kept: bytes::BytesMut,
    /// Whether the last chunk stands in the buffer that is kept.
    in_kept: bool,
}

fn freed(stream: u16, bytes: usize) -> Freed {
    Freed { stream, bytes: bytes as u64 }
}

/// The probe's chunk has no name outside its crate.
macro_rules! chunk {
    ($told:expr) => {
        $told.map(|c| Chunk { tsn: c.tsn, ssn: c.ssn, stream: c.stream, number: c.number, length: c.length as u64 })
    };
}

impl Side for Theirs {
    type Time = Instant;
    type Timers = TheirTimers;
    type Packet = bytes::Bytes;

    fn fresh(payload: u32, lifetime: u32) -> Self {
        Theirs {
            sender: Oracle::bench_sender(payload, lifetime),
            shared: bytes::Bytes::new(),
            list: Vec::new(),
            marshalled: bytes::Bytes::new(),
            kept: bytes::BytesMut::with_capacity(1500),
            in_kept: false,
        }
    }
    fn open(&mut self, stream: u16, payload: u32, lifetime: u32) {
        self.sender.open(stream, payload, lifetime);
    }
    fn time(&self, milliseconds: u64) -> Instant {
        self.sender.now(milliseconds)
    }
    fn write(&mut self, bytes: Bytes, stream: u16, length: usize) {
        if bytes != Bytes::NeitherCopies {
            assert!(self.sender.write(stream, length) == Some(length));
            return;
        }
        if self.shared.len() != length {
            self.shared = vec![7; length].into();
        }
        self.sender.write_shared(stream, &self.shared);
    }
    fn send(&mut self, now: Instant) -> Option<Chunk> {
        chunk!(self.sender.send(now))
    }
    fn acknowledge(&mut self, tsn: u32) -> u64 {
        self.sender.ack(tsn) as u64
    }
    fn pop(&mut self, tsn: u32) -> Option<Chunk> {
        chunk!(self.sender.pop(tsn))
    }
    fn packet(chunk: &[u8]) -> bytes::Bytes {
        chunk.to_vec().into()
    }
    fn sack(&mut self, packet: &bytes::Bytes) -> Option<u64> {
        self.sender.sack(packet).map(|bytes| bytes as u64)
    }
    fn data(&mut self, output: Output, tsn: u32) -> usize {
        self.in_kept = output == Output::Kept;
        if self.in_kept {
            return self.sender.marshal_to(tsn, &mut self.kept).expect("in flight");
        }
        self.marshalled = self.sender.marshal(tsn).expect("in flight");
        self.marshalled.len()
    }
    fn written(&self) -> &[u8] {
        if self.in_kept { &self.kept } else { &self.marshalled }
    }
    fn release(&mut self, stream: u16, bytes: i64) -> bool {
        self.sender.released(stream, bytes)
    }
    fn abandon(&mut self, tsn: u32) -> Option<Freed> {
        self.sender.abandon(tsn).map(|(stream, bytes)| freed(stream, bytes))
    }
    fn expired(&mut self, now: Instant) -> usize {
        self.list = black_box(self.sender.expired(now));
        self.list.len()
    }
    fn listed(&self, i: usize) -> u32 {
        self.list[i]
    }
    fn expire_pending(&mut self, now: Instant) -> Option<Freed> {
        self.sender.expire_pending(now).map(|(stream, _, bytes)| freed(stream, bytes))
    }
    fn expire_pending_tail(&mut self, now: Instant) -> Option<Freed> {
        self.sender.expire_tail(now).map(|(stream, _, bytes)| freed(stream, bytes))
    }
    fn start_lifetimes(&mut self, now: Instant) {
        self.sender.lifetimes(now);
    }
    fn mark_all(&mut self) {
        self.sender.mark_all();
    }
    fn is_marked(&self, tsn: u32) -> bool {
        self.sender.is_marked(tsn)
    }
    fn get(&self, tsn: u32) -> Option<Chunk> {
        chunk!(self.sender.get(tsn))
    }
    fn pending_contains_stream(&self, stream: u16) -> bool {
        self.sender.has_pending(stream)
    }
    fn contains_stream(&self, stream: u16) -> bool {
        self.sender.has(stream)
    }
    fn earliest_outstanding(&self) -> Option<u32> {
        self.sender.earliest()
    }
    fn in_flight(&self) -> usize {
        self.sender.flight()
    }
    fn pending(&self) -> usize {
        self.sender.pending()
    }
}

pub struct TheirTimers {
    timers: BareTimers,
}

impl Clockwork for TheirTimers {
    type Time = Instant;

    fn fresh() -> Self {
        TheirTimers { timers: Oracle::bench_timers() }
    }
    fn time(&self, milliseconds: u64) -> Instant {
        self.timers.now(milliseconds)
    }
    fn start(&mut self, timer: usize, now: Instant, interval: u64) {
        self.timers.start(timer, now, interval);
    }
    fn stop(&mut self, timer: usize) {
        self.timers.stop(timer);
    }
    fn is_expired(&mut self, timer: usize, now: Instant) -> (bool, bool, u64) {
        let (expired, failure, count) = self.timers.is_expired(timer, now);
        (expired, failure, count as u64)
    }
    fn next_timeout(&self) -> Option<Instant> {
        self.timers.next_timeout()
    }
    fn milliseconds(&self, time: Instant) -> u64 {
        self.timers.since(time)
    }
    fn measure(&mut self, rtt: u64) -> u64 {
        self.timers.measure(rtt)
    }
    fn estimate(&self) -> (u64, u64) {
        self.timers.estimate()
    }
}
