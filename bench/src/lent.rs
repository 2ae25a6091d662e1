//! The sides whose state the host lends to each call: ours, which is the archive, and the anchor.
use std::hint::black_box;
use std::marker::PhantomData;

use crate::calls::{Anchor, Archive, Calls};
use crate::side::{Bytes, Chunk, Clockwork, FIRST_TSN, Freed, Output, Side};
use crate::sys;

pub type Ours = Lent<Archive>;
pub type Anchored = Lent<Anchor>;

const BINARY: u32 = 53;
const TIMED: u8 = 2;
const LONGEST: usize = 65_536;
/// Room for the bytes of 511 messages of 1,200 bytes: more than can be pending and in flight.
const STORE: usize = 1200 * 511 + LONGEST;

static SOURCE: [u8; LONGEST] = [7; LONGEST];

pub struct Lent<C> {
    sender: Box<sys::Sender>,
    list: [u32; 256],
    /// The host's copies, one behind the other, over and over; made at the first copy.
    store: Vec<u8>,
    place: usize,
    output: Vec<u8>,
    calls: PhantomData<C>,
}

impl<C> Lent<C> {
    fn copy(&mut self, length: usize) {
        if self.store.is_empty() {
            self.store = vec![0; STORE];
        }
        self.store[self.place..self.place + length].copy_from_slice(black_box(&SOURCE[..length]));
    }
    fn advance(&mut self, length: usize) {
        let next = self.place + length;
        self.place = if next + LONGEST > STORE { 0 } else { next };
    }
}

fn chunk(f: sys::Fragment) -> Option<Chunk> {
    assert!(f.refusal == 0);
    (f.some != 0).then_some(Chunk {
        tsn: f.tsn,
        ssn: f.ssn,
        stream: f.stream,
        number: f.message_id,
        length: u64::from(f.length),
    })
}

fn freed(f: sys::Freed) -> Option<Freed> {
    (f.some != 0).then_some(Freed { stream: f.stream, bytes: f.bytes })
}

impl<C: Calls> Side for Lent<C> {
    type Time = u64;
    type Timers = LentTimers<C>;
    type Packet = Vec<u8>;

    fn fresh(payload: u32, lifetime: u32) -> Self {
        let mut sender = Box::new(sys::Sender::ZERO);
        C::init(&mut sender, FIRST_TSN, 0);
        let mut side = Lent { sender, list: [0; 256], store: Vec::new(), place: 0, output: vec![0; 1500], calls: PhantomData };
        (1..=2).for_each(|stream| side.open(stream, payload, lifetime));
        side
    }
    fn open(&mut self, stream: u16, payload: u32, lifetime: u32) {
        assert!(C::open_stream(&mut self.sender, stream, payload).refusal == 0);
        if lifetime > 0 {
            C::set_reliability(&mut self.sender, stream, false, TIMED, lifetime);
        }
    }
    fn time(&self, milliseconds: u64) -> u64 {
        milliseconds
    }
    fn write(&mut self, bytes: Bytes, stream: u16, length: usize) {
        if bytes == Bytes::BothCopy {
            self.copy(length);
        }
        let reply = C::write(&mut self.sender, stream, BINARY, self.place as u64, length as u64);
        assert!(reply.refusal == 0);
        self.advance(length);
    }
    fn send(&mut self, now: u64) -> Option<Chunk> {
        chunk(C::send(&mut self.sender, now))
    }
    fn acknowledge(&mut self, tsn: u32) -> u64 {
        C::acknowledge(&mut self.sender, tsn).value
    }
    fn pop(&mut self, tsn: u32) -> Option<Chunk> {
        chunk(C::pop(&mut self.sender, tsn))
    }
    fn packet(chunk: &[u8]) -> Vec<u8> {
        chunk.to_vec()
    }
    fn sack(&mut self, packet: &Vec<u8>) -> Option<u64> {
        let sacked = C::handle_sack(&mut self.sender, packet);
        assert!(sacked.refusal == 0);
        (sacked.stale == 0).then_some(sacked.bytes)
    }
    fn data(&mut self, _: Output, tsn: u32) -> usize {
        let reply = C::data_chunk(&self.sender, &self.store, &mut self.output, tsn);
        assert!(reply.refusal == 0);
        reply.value as usize
    }
    fn written(&self) -> &[u8] {
        &self.output
    }
    fn release(&mut self, stream: u16, bytes: i64) -> bool {
        C::release(&mut self.sender, stream, bytes).yes != 0
    }
    fn abandon(&mut self, tsn: u32) -> Option<Freed> {
        freed(C::abandon(&mut self.sender, tsn))
    }
    fn expired(&mut self, now: u64) -> usize {
        let reply = C::expired_inflight(&mut self.sender, &mut self.list, now);
        assert!(reply.refusal == 0);
        black_box(&self.list);
        reply.value as usize
    }
    fn listed(&self, i: usize) -> u32 {
        self.list[i]
    }
    fn expire_pending(&mut self, now: u64) -> Option<Freed> {
        freed(C::expire_pending(&mut self.sender, now))
    }
    fn expire_pending_tail(&mut self, now: u64) -> Option<Freed> {
        freed(C::expire_pending_tail(&mut self.sender, now))
    }
    fn start_lifetimes(&mut self, now: u64) {
        C::start_lifetimes(&mut self.sender, now);
    }
    fn mark_all(&mut self) {
        C::mark_all(&mut self.sender);
    }
    fn is_marked(&self, tsn: u32) -> bool {
        C::get(&self.sender, tsn).retransmit != 0
    }
    fn get(&self, tsn: u32) -> Option<Chunk> {
        chunk(C::get(&self.sender, tsn))
    }
    fn pending_contains_stream(&self, stream: u16) -> bool {
        C::pending_contains_stream(&self.sender, stream).yes != 0
    }
    fn contains_stream(&self, stream: u16) -> bool {
        C::contains_stream(&self.sender, stream).yes != 0
    }
    fn earliest_outstanding(&self) -> Option<u32> {
        let reply = C::earliest_outstanding(&self.sender);
        (reply.yes != 0).then_some(reply.value as u32)
    }
    fn in_flight(&self) -> usize {
        C::inflight_length(&self.sender).value as usize
    }
    fn pending(&self) -> usize {
        C::pending_length(&self.sender).value as usize
    }
}

pub struct LentTimers<C> {
    timers: sys::Timers,
    rto: sys::Rto,
    calls: PhantomData<C>,
}

impl<C: Calls> Clockwork for LentTimers<C> {
    type Time = u64;

    fn fresh() -> Self {
        let mut timers = sys::Timers::ZERO;
        assert!(C::timers_new(&mut timers, true, 8, true, 10, 60_000) == 0);
        let mut rto = sys::Rto::ZERO;
        assert!(C::rto_new(&mut rto, 3000, 1000, 60_000) == 0);
        LentTimers { timers, rto, calls: PhantomData }
    }
    fn time(&self, milliseconds: u64) -> u64 {
        milliseconds
    }
    fn start(&mut self, timer: usize, now: u64, interval: u64) {
        assert!(C::timer_start(&mut self.timers, timer, now, interval) == 0);
    }
    fn stop(&mut self, timer: usize) {
        assert!(C::timer_stop(&mut self.timers, timer) == 0);
    }
    fn is_expired(&mut self, timer: usize, now: u64) -> (bool, bool, u64) {
        let reply = C::timer_is_expired(&mut self.timers, timer, now);
        assert!(reply.refusal == 0);
        (reply.expired != 0, reply.failure != 0, u64::from(reply.count))
    }
    fn next_timeout(&self) -> Option<u64> {
        let due = C::timers_next_timeout(&self.timers);
        (due.yes != 0).then_some(due.value)
    }
    fn milliseconds(&self, time: u64) -> u64 {
        time
    }
    fn measure(&mut self, rtt: u64) -> u64 {
        C::rto_set_new_rtt(&mut self.rto, rtt).value
    }
    fn estimate(&self) -> (u64, u64) {
        (self.rto.rto, self.rto.rttvar.to_bits())
    }
}
