//! Document 01's refusals, in 01's orders, and those of the SACK and of the DATA chunk. Nothing is changed here.

use super::call::Call;
use super::{Oracle, place};
use crate::chunk::chunk_payload_data::ChunkPayloadData;
use crate::queue::outbound_queue::OutboundQueue;

pub(super) const CLOCK_MAX: u64 = 1 << 40;
pub(super) const U32_MAX: u64 = u32::MAX as u64;
pub(super) const STREAMS: usize = 64;
pub(super) const PAYLOAD_MAX: u32 = 65_515;
/// Type 50 is always ordered.
pub(super) const DCEP: u32 = 50;

/// The first case that holds, as 01's number.
fn first(cases: &[(bool, u8)]) -> Option<u8> {
    cases.iter().find(|(holds, _)| *holds).map(|(_, number)| *number)
}

impl Oracle {
    /// Two refusals stand in `mode raw` too: on a stream that is not open there is nothing to call,
    /// and with a payload maximum of 0 the Rust would never return from a write.
    pub(super) fn refusal(&self, call: &Call) -> Option<u8> {
        match *call {
            _ if named_stream(call).is_some_and(|sid| !self.is_open(sid)) => Some(3),
            Call::Open { maximum: 0, .. } => Some(2),
            _ if self.guard => self.refusal_of_01(call),
            _ => None,
        }
    }

    fn refusal_of_01(&self, call: &Call) -> Option<u8> {
        match *call {
            Call::Open { sid, maximum } => first(&[
                (!(1..=PAYLOAD_MAX).contains(&maximum), 2),
                (self.is_open(sid), 4),
                (self.open_streams() >= STREAMS, 5),
            ]),
            Call::Write { sid, typ, off, len } => self.write_refusal(sid, typ, off, len),
            Call::Lifetimes { now } | Call::Expire { now } | Call::Tail { now } | Call::Touch { now, .. } => {
                first(&[(now > CLOCK_MAX, 1)])
            }
            Call::Send { now } => first(&[(now > CLOCK_MAX, 1), (self.pending_len() > 0 && self.flight_is_full(), 10)]),
            Call::Expired { now, room } => {
                first(&[(now > CLOCK_MAX, 1)]).or_else(|| first(&[(self.list_is_longer(now, room), 11)]))
            }
            Call::Timers { rto_max, .. } => first(&[(rto_max > U32_MAX, 1)]),
            Call::TimerSet { deadline, .. } => first(&[(deadline.is_some_and(|d| d > CLOCK_MAX), 1)]),
            Call::TimerStart { now, interval, .. } | Call::TimerRestart { now, interval, .. } => {
                first(&[(now > CLOCK_MAX || interval > U32_MAX, 1)])
            }
            Call::TimerExpired { timer, now } => {
                first(&[(now > CLOCK_MAX, 1)]).or_else(|| first(&[(self.count_is_at_its_end(timer, now), 12)]))
            }
            Call::Rto { initial, min, max } => {
                first(&[([initial, min, max].iter().any(|x| *x > U32_MAX), 1), (min > max, 2)])
            }
            Call::Measure { rtt } => first(&[(rtt > U32_MAX, 1)]),
            Call::RtoSet { rto, .. } => first(&[(rto > U32_MAX, 1)]),
            Call::Sack { bytes } => {
                let chunk = self.lent(bytes);
                first(&[(!is_sack(chunk), 13)]).or_else(|| first(&[(self.has_bad_block(chunk), 14)]))
            }
            Call::Data { tsn, room } => match self.live(tsn) {
                None => Some(15),
                Some(entry) => first(&[
                    (self.payload_end(entry) > self.memory_lent as u64, 16),
                    (place(room) < chunk_size(entry), 17),
                ]),
            },
            _ => None,
        }
    }

    fn write_refusal(&self, sid: u16, typ: u32, off: u64, len: u64) -> Option<u8> {
        let (buffered, fragments, used) = self.write_needs(sid, typ, len);
        first(&[
            (len > u64::from(self.max_message()), 6),
            (off > U32_MAX, 1),
            (buffered.saturating_add(len) > U32_MAX, 7),
            (fragments > self.ring.saturating_sub(used) as u64, 8),
            (fragments > 0 && self.next_message() == u64::MAX, 9),
        ])
    }

    /// The stream's buffered amount, the message's fragments, and the chunks that its ring holds already.
    pub(super) fn write_needs(&self, sid: u16, typ: u32, len: u64) -> (u64, u64, usize) {
        let stream = &self.association.streams[&sid];
        let (unordered, ordered) = self.ring_lengths();
        let used = if stream.unordered && typ != DCEP { unordered } else { ordered };
        (stream.buffered_amount as u64, len.div_ceil(u64::from(stream.max_payload_size)), used)
    }

    pub(super) fn covered(&self, cumulative: u32) -> Option<u32> {
        covered(&self.association.outbound, cumulative)
    }

    /// Of a SACK that is not stale: a block with start 0, start above end, or end beyond the newest.
    fn has_bad_block(&self, sack: &[u8]) -> bool {
        self.covered(long(sack, 4)).is_some_and(|covered| {
            let left = self.association.outbound.inflight_len() - covered as usize;
            blocks(sack).any(|(start, end)| start == 0 || start > end || end > left)
        })
    }

    /// The byte of the memory behind an entry's last.
    pub(super) fn payload_end(&self, entry: &ChunkPayloadData) -> u64 {
        self.offset(entry).unwrap_or_default().saturating_add(entry.user_data.len() as u64)
    }

    fn list_is_longer(&self, now: u64, room: Option<u64>) -> bool {
        let longer = |room| self.association.outbound.expired_inflight(self.at(now)).len() as u64 > room;
        room.is_some_and(longer)
    }

    fn count_is_at_its_end(&self, timer: crate::association::timer::Timer, now: u64) -> bool {
        let kept = self.timers.probe(timer);
        let expired = kept.deadline.is_some_and(|d| d <= self.at(now));
        expired && !kept.suppressed && kept.count as u64 == U32_MAX
    }
}

/// The bytes that an entry's DATA chunk takes, padding included.
pub(super) fn chunk_size(entry: &ChunkPayloadData) -> usize {
    16 + entry.user_data.len().next_multiple_of(4)
}

/// How many entries a cumulative TSN covers: from one before the oldest to the newest; none where the SACK is stale.
pub(super) fn covered(queue: &OutboundQueue, cumulative: u32) -> Option<u32> {
    let covered = cumulative.wrapping_add(1).wrapping_sub(queue.probe_oldest()?);
    (covered as usize <= queue.inflight_len()).then_some(covered)
}

// ---- the bytes of a SACK

pub(super) fn short(bytes: &[u8], at: usize) -> usize {
    usize::from(bytes[at]) << 8 | usize::from(bytes[at + 1])
}
pub(super) fn long(bytes: &[u8], at: usize) -> u32 {
    (short(bytes, at) << 16 | short(bytes, at + 2)) as u32
}

/// Type 3, 16 fixed bytes, and a length field that is 16 plus 4 for each block and duplicate, and the bytes lent.
fn is_sack(bytes: &[u8]) -> bool {
    bytes.len() >= 16
        && bytes[0] == 3
        && short(bytes, 2) == 16 + 4 * (short(bytes, 12) + short(bytes, 14))
        && short(bytes, 2) == bytes.len()
}

/// Start and end of each block.
pub(super) fn blocks(sack: &[u8]) -> impl Iterator<Item = (usize, usize)> {
    sack[16..].chunks_exact(4).take(short(sack, 12)).map(|block| (short(block, 0), short(block, 2)))
}

/// The stream that a call is about and that has to be open for it.
fn named_stream(call: &Call) -> Option<u16> {
    match *call {
        Call::Reliability { sid, .. }
        | Call::Low { sid, .. }
        | Call::High { sid, .. }
        | Call::Write { sid, .. }
        | Call::Released { sid, .. }
        | Call::Stream { sid }
        | Call::SetSsn { sid, .. }
        | Call::SetBuffered { sid, .. }
        | Call::SetStatistics { sid, .. } => Some(sid),
        _ => None,
    }
}
