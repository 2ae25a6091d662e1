//! What the generator of scripts asks, to aim at the places where things break.

use alloc::vec::Vec;
use std::time::Instant;

use super::Oracle;
use crate::association::timer::Timer;
use crate::chunk::chunk_payload_data::ChunkPayloadData;

impl Oracle {
    /// The oldest TSN in flight, how many there are, and the TSN that comes next.
    pub fn flight(&self) -> (Option<u32>, usize, u32) {
        let queue = &self.association.outbound;
        (queue.probe_oldest(), queue.inflight_len(), self.association.my_next_tsn)
    }

    /// Chunks in the unordered ring and in the ordered.
    pub fn rings(&self) -> (usize, usize) {
        self.ring_lengths()
    }

    /// A stream's payload maximum, buffered amount, thresholds, and whether it is unordered.
    pub fn stream(&self, sid: u16) -> Option<(u64, u64, u64, u64, bool)> {
        let s = self.association.streams.get(&sid)?;
        let amounts = (s.buffered_amount as u64, s.buffered_amount_low as u64, s.buffered_amount_high as u64);
        Some((u64::from(s.max_payload_size), amounts.0, amounts.1, amounts.2, s.unordered))
    }

    /// The open streams, in the order of opening.
    pub fn open(&self) -> &[u16] {
        &self.order
    }

    /// Whether a message is under way, and the deadline of the chunk that is sent next.
    pub fn head(&self) -> (bool, Option<u64>) {
        let queue = &self.association.outbound;
        let deadline = queue.peek_pending().and_then(|chunk| self.deadline(chunk));
        (queue.probe_pending().probe_selected(), deadline)
    }

    /// The deadlines in flight, oldest entry first.
    pub fn flight_deadlines(&self) -> Vec<u64> {
        let flight = self.association.outbound.probe_flight();
        flight.into_iter().filter_map(|chunk| self.deadline(chunk)).collect()
    }

    /// Of an entry that is neither acknowledged nor abandoned: the offset of its bytes, and their number.
    pub fn held(&self, tsn: u32) -> Option<(u64, u64)> {
        let entry = self.live(tsn)?;
        Some((self.offset(entry)?, entry.user_data.len() as u64))
    }

    /// The deadlines of the six timers.
    pub fn timer_deadlines(&self) -> [Option<u64>; 6] {
        Timer::VALUES.map(|timer| self.timers.get(timer).map(|t| self.since_base(t)))
    }

    /// The estimator's srtt and RTO.
    pub fn estimate(&self) -> (u64, u64) {
        (self.rto.srtt, self.rto.get_rto())
    }

    fn deadline(&self, chunk: &ChunkPayloadData) -> Option<u64> {
        chunk.deadline.map(|t| self.since_base(t))
    }
    fn since_base(&self, time: Instant) -> u64 {
        time.duration_since(self.base).as_millis() as u64
    }
}
