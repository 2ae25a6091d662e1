//! One set of calls for all sides. A fresh sender has two streams, 1 and 2, ordered, and the first TSN is 4,294,967,000, so that TSNs wrap.

/// What is told of a chunk.
#[derive(Clone, Copy, Debug, PartialEq, Eq)]
pub struct Chunk {
    pub tsn: u32,
    pub ssn: u16,
    pub stream: u16,
    pub number: u64,
    pub length: u64,
}

/// What an expiry or an abandonment freed.
#[derive(Clone, Copy, Debug, PartialEq, Eq)]
pub struct Freed {
    pub stream: u16,
    pub bytes: u64,
}

/// What becomes of a message's bytes at a write.
#[derive(Clone, Copy, PartialEq, Eq)]
pub enum Bytes {
    /// As the calls are: the Rust copies, ours and the anchor leave the bytes with the host.
    AsTheCallsAre,
    /// The host of ours and of the anchor copies them to its own store as well.
    BothCopy,
    /// The Rust is handed a shared buffer.
    NeitherCopies,
}

/// Where a chunk is written. Ours and the anchor write into bytes that the host lends, in either case.
#[derive(Clone, Copy, PartialEq, Eq)]
pub enum Output {
    /// As the Rust's `marshal` is: into a fresh allocation.
    Anew,
    /// As its `marshal_to` is: into a buffer that has the room.
    Kept,
}

pub const FIRST_TSN: u32 = 4_294_967_000;

pub trait Side {
    type Time: Copy;
    type Timers: Clockwork;
    /// A chunk of the peer's, as the side's reader takes it.
    type Packet;

    /// `lifetime` in milliseconds; 0 is reliable.
    fn fresh(payload: u32, lifetime: u32) -> Self;
    /// One more stream.
    fn open(&mut self, stream: u16, payload: u32, lifetime: u32);
    fn time(&self, milliseconds: u64) -> Self::Time;
    fn write(&mut self, bytes: Bytes, stream: u16, length: usize);
    fn send(&mut self, now: Self::Time) -> Option<Chunk>;
    fn acknowledge(&mut self, tsn: u32) -> u64;
    fn pop(&mut self, tsn: u32) -> Option<Chunk>;
    fn packet(chunk: &[u8]) -> Self::Packet;
    /// The bytes that a SACK released; nothing where it is stale.
    fn sack(&mut self, packet: &Self::Packet) -> Option<u64>;
    /// Writes the DATA chunk of a TSN; how many bytes it has.
    fn data(&mut self, output: Output, tsn: u32) -> usize;
    /// The chunk that was written last, in front.
    fn written(&self) -> &[u8];
    fn release(&mut self, stream: u16, bytes: i64) -> bool;
    fn abandon(&mut self, tsn: u32) -> Option<Freed>;
    /// How many; the list itself is made as well.
    fn expired(&mut self, now: Self::Time) -> usize;
    /// A TSN of the list that was made last.
    fn listed(&self, i: usize) -> u32;
    fn expire_pending(&mut self, now: Self::Time) -> Option<Freed>;
    fn expire_pending_tail(&mut self, now: Self::Time) -> Option<Freed>;
    fn start_lifetimes(&mut self, now: Self::Time);
    fn mark_all(&mut self);
    /// Whether the entry is to be retransmitted.
    fn is_marked(&self, tsn: u32) -> bool;
    fn get(&self, tsn: u32) -> Option<Chunk>;
    fn pending_contains_stream(&self, stream: u16) -> bool;
    fn contains_stream(&self, stream: u16) -> bool;
    fn earliest_outstanding(&self) -> Option<u32>;
    fn in_flight(&self) -> usize;
    fn pending(&self) -> usize;
}

/// The six timers and the round-trip estimator.
pub trait Clockwork {
    type Time: Copy;

    fn fresh() -> Self;
    fn time(&self, milliseconds: u64) -> Self::Time;
    fn start(&mut self, timer: usize, now: Self::Time, interval: u64);
    fn stop(&mut self, timer: usize);
    /// Expired, failure, count.
    fn is_expired(&mut self, timer: usize, now: Self::Time) -> (bool, bool, u64);
    fn next_timeout(&self) -> Option<Self::Time>;
    fn milliseconds(&self, time: Self::Time) -> u64;
    fn measure(&mut self, rtt: u64) -> u64;
    /// The RTO, and the bits of rttvar.
    fn estimate(&self) -> (u64, u64);
}
