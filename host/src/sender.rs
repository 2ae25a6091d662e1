use std::fmt;

use crate::chunk::{Chunk, PayloadProtocolIdentifier, ReliabilityType};
use crate::sys;
use crate::{Refusal, StreamId};

/// A whole message that expired before any of it was sent. It took no TSN.
#[derive(Clone, Copy, Debug, PartialEq, Eq)]
pub struct Expired {
    /// The message's stream.
    pub stream_identifier: StreamId,
    /// Whether it was unordered.
    pub unordered: bool,
    /// Its bytes, for [`Sender::on_buffer_released`].
    pub bytes: u64,
}

/// A message that expired with its first part sent.
#[derive(Clone, Copy, Debug, PartialEq, Eq)]
pub struct ExpiredTail {
    /// The message's stream.
    pub stream_identifier: StreamId,
    /// The message's number.
    pub message_id: u64,
    /// The bytes that it still held, in flight and pending, for [`Sender::on_buffer_released`].
    pub bytes: u64,
}

/// A message that was abandoned by a TSN in flight.
#[derive(Clone, Copy, Debug, PartialEq, Eq)]
pub struct Abandoned {
    /// The message's stream.
    pub stream_identifier: StreamId,
    /// The bytes that it still held, for [`Sender::on_buffer_released`]; 0 if it was abandoned before.
    pub bytes: u64,
}

/// What a SACK has acknowledged.
#[derive(Clone, Copy, Debug, PartialEq, Eq)]
#[non_exhaustive]
pub struct Sacked {
    /// The bytes that the entries held, of all streams together, each entry's once.
    pub bytes: u64,
}

/// What a stream has accepted for sending.
#[derive(Clone, Copy, Debug, Default, PartialEq, Eq)]
pub struct DataChannelStats {
    /// Messages of types 51, 53, 56 and 57.
    pub messages_sent: u64,
    /// Bytes of those of types 51 and 53.
    pub bytes_sent: u64,
}

/// The sender of an association: its streams, what is pending, and what is in flight.
///
/// It owns one block of 53,360 bytes, and no call allocates another. Questions take `&self` and only read, so a sender may be shared between
/// threads for them; all else takes `&mut self`.
#[derive(Clone)]
pub struct Sender(Box<sys::Sender>);

impl fmt::Debug for Sender {
    fn fmt(&self, f: &mut fmt::Formatter<'_>) -> fmt::Result {
        f.debug_struct("Sender")
            .field("next_tsn", &self.next_tsn())
            .field("next_message_id", &self.next_message_id())
            .field("pending_len", &self.pending_len())
            .field("pending_bytes", &self.pending_bytes())
            .field("inflight_len", &self.inflight_len())
            .field("inflight_bytes", &self.inflight_bytes())
            .finish_non_exhaustive()
    }
}

/// What a reply holds, unless it is a refusal.
fn answer(reply: sys::Reply) -> Result<sys::Reply, Refusal> {
    Refusal::check(reply.refusal).map(|()| reply)
}

/// What an expiry freed, if anything.
fn freed(freed: sys::Freed) -> Result<Option<sys::Freed>, Refusal> {
    Refusal::check(freed.refusal).map(|()| (freed.some != 0).then_some(freed))
}

impl Sender {
    /// A fresh sender: the first chunk takes the TSN `first_tsn`, the first message the number `first_message`.
    pub fn new(first_tsn: u32, first_message: u64) -> Sender {
        let mut sender = Box::new(sys::Sender::ZERO);
        sys::girdermoth_init(&mut sender, first_tsn, first_message);
        Sender(sender)
    }

    // ---- streams

    /// Opens a stream: ordered, reliable, with the low threshold 0 and the high one 2^64 - 1. A chunk's payload has at most `max_payload_size`
    /// bytes.
    ///
    /// Refused, in this order: [`BadBounds`](Refusal::BadBounds), [`AlreadyOpen`](Refusal::AlreadyOpen), [`StreamsFull`](Refusal::StreamsFull).
    pub fn open_stream(&mut self, stream: StreamId, max_payload_size: u32) -> Result<(), Refusal> {
        answer(sys::girdermoth_open_stream(&mut self.0, stream, max_payload_size)).map(drop)
    }

    /// How messages that are written from now on are delivered: `rel_val` is a number of retransmissions for `Rexmit`, a lifetime in milliseconds
    /// for `Timed`. The limit of `Rexmit` is the host's to keep, by [`abandon`](Sender::abandon): the sender does not know what is sent again.
    ///
    /// Refused: [`NotOpen`](Refusal::NotOpen).
    pub fn set_reliability_params(&mut self, stream: StreamId, unordered: bool, rel_type: ReliabilityType, rel_val: u32) -> Result<(), Refusal> {
        answer(sys::girdermoth_set_reliability_params(&mut self.0, stream, unordered, rel_type as u8, rel_val)).map(drop)
    }

    /// Sets the amount that [`on_buffer_released`](Sender::on_buffer_released) tells the fall to.
    ///
    /// Refused: [`NotOpen`](Refusal::NotOpen).
    pub fn set_buffered_amount_low_threshold(&mut self, stream: StreamId, threshold: u64) -> Result<(), Refusal> {
        answer(sys::girdermoth_set_buffered_amount_low_threshold(&mut self.0, stream, threshold)).map(drop)
    }

    /// Sets the amount that [`write`](Sender::write) tells the rise to.
    ///
    /// Refused: [`NotOpen`](Refusal::NotOpen).
    pub fn set_buffered_amount_high_threshold(&mut self, stream: StreamId, threshold: u64) -> Result<(), Refusal> {
        answer(sys::girdermoth_set_buffered_amount_high_threshold(&mut self.0, stream, threshold)).map(drop)
    }

    /// Bytes of the stream have left: acknowledged, expired or abandoned. Answers whether the buffered amount fell from above the low threshold to
    /// it or below. Zero or less changes nothing; more than is buffered leaves 0.
    ///
    /// Refused: [`NotOpen`](Refusal::NotOpen).
    pub fn on_buffer_released(&mut self, stream: StreamId, bytes: i64) -> Result<bool, Refusal> {
        answer(sys::girdermoth_on_buffer_released(&mut self.0, stream, bytes)).map(|reply| reply.yes != 0)
    }

    /// The bytes that were written on the stream and not yet released.
    ///
    /// Refused: [`NotOpen`](Refusal::NotOpen).
    pub fn buffered_amount(&self, stream: StreamId) -> Result<u64, Refusal> {
        answer(sys::girdermoth_buffered_amount(&self.0, stream)).map(|reply| reply.value)
    }

    /// Refused: [`NotOpen`](Refusal::NotOpen).
    pub fn buffered_amount_low_threshold(&self, stream: StreamId) -> Result<u64, Refusal> {
        answer(sys::girdermoth_buffered_amount_low_threshold(&self.0, stream)).map(|reply| reply.value)
    }

    /// Refused: [`NotOpen`](Refusal::NotOpen).
    pub fn buffered_amount_high_threshold(&self, stream: StreamId) -> Result<u64, Refusal> {
        answer(sys::girdermoth_buffered_amount_high_threshold(&self.0, stream)).map(|reply| reply.value)
    }

    /// What the stream has accepted.
    ///
    /// Refused: [`NotOpen`](Refusal::NotOpen).
    pub fn stats(&self, stream: StreamId) -> Result<DataChannelStats, Refusal> {
        let counts = sys::girdermoth_stats(&self.0, stream);
        Refusal::check(counts.refusal).map(|()| DataChannelStats { messages_sent: counts.messages, bytes_sent: counts.bytes })
    }

    // ---- messages

    /// Writes a message: cut in fragments, it becomes pending. Its bytes are the caller's from `offset` on, `length` of them. Answers whether the
    /// buffered amount rose from below the high threshold to it or above.
    ///
    /// The rings are shared by all streams. A message of length 0 has no fragment and takes no number. Do not write an ordered one: it takes an SSN
    /// that no chunk carries, so that its stream is stopped for good.
    ///
    /// Refused, in this order: [`NotOpen`](Refusal::NotOpen), [`MessageLong`](Refusal::MessageLong), [`BeyondLimit`](Refusal::BeyondLimit)
    /// (the offset), [`BufferFull`](Refusal::BufferFull), [`RingFull`](Refusal::RingFull), [`NumbersSpent`](Refusal::NumbersSpent).
    pub fn write(&mut self, stream: StreamId, ppi: PayloadProtocolIdentifier, offset: u64, length: u64) -> Result<bool, Refusal> {
        answer(sys::girdermoth_write(&mut self.0, stream, ppi.0, offset, length)).map(|reply| reply.yes != 0)
    }

    /// Starts the lifetimes of the messages that were written since the last start. [`send_next`](Sender::send_next) does so too.
    ///
    /// Refused: [`BeyondLimit`](Refusal::BeyondLimit).
    pub fn start_timed_messages(&mut self, now: u64) -> Result<(), Refusal> {
        answer(sys::girdermoth_start_timed_messages(&mut self.0, now)).map(drop)
    }

    /// Takes the next chunk from what is pending, gives it the next TSN and files it in flight; nothing if nothing is pending. It never looks at
    /// deadlines: call the two expiries before each call of it.
    ///
    /// Refused: [`BeyondLimit`](Refusal::BeyondLimit), [`FlightFull`](Refusal::FlightFull).
    pub fn send_next(&mut self, now: u64) -> Result<Option<Chunk>, Refusal> {
        let fragment = sys::girdermoth_send_next(&mut self.0, now);
        Refusal::check(fragment.refusal).map(|()| Chunk::from_fragment(&fragment))
    }

    /// Discards the message at the head, if it is wholly unsent and its lifetime has ended. It takes no TSN, and the messages behind it on an
    /// ordered stream move up by one SSN.
    ///
    /// Refused: [`BeyondLimit`](Refusal::BeyondLimit).
    pub fn expire_pending(&mut self, now: u64) -> Result<Option<Expired>, Refusal> {
        let gone = freed(sys::girdermoth_expire_pending(&mut self.0, now))?;
        Ok(gone.map(|gone| Expired { stream_identifier: gone.stream, unordered: gone.unordered != 0, bytes: gone.bytes }))
    }

    /// Abandons the message under way, if its lifetime has ended with a rest of it unsent. One terminator takes the place of the rest.
    ///
    /// Refused: [`BeyondLimit`](Refusal::BeyondLimit).
    pub fn expire_pending_tail(&mut self, now: u64) -> Result<Option<ExpiredTail>, Refusal> {
        let gone = freed(sys::girdermoth_expire_pending_tail(&mut self.0, now))?;
        Ok(gone.map(|gone| ExpiredTail { stream_identifier: gone.stream, message_id: gone.message_id, bytes: gone.bytes }))
    }

    /// Abandons the message of a TSN in flight, whatever its reliability: all its entries are marked, its pending fragments go, and if there were
    /// any, one terminator takes their place: an entry without bytes that is never sent, and of which the peer hears by FORWARD-TSN. Nothing for a
    /// TSN that is not in flight.
    pub fn abandon(&mut self, tsn: u32) -> Option<Abandoned> {
        let gone = sys::girdermoth_abandon(&mut self.0, tsn);
        (gone.some != 0).then_some(Abandoned { stream_identifier: gone.stream, bytes: gone.bytes })
    }

    // ---- the flight

    /// Reads a SACK of the peer's (RFC 9260, section 3.3.4). The lent bytes are exactly the chunk, which the host cuts from its packet. The entries up
    /// to its cumulative TSN are acknowledged and popped, then those of its gap blocks are acknowledged. Nothing where it is stale: its cumulative TSN
    /// does not lie from one before the oldest in flight to the newest, or nothing is in flight. Then nothing changes.
    ///
    /// The bytes are not yet off the buffered amounts of their streams: give them to [`on_buffer_released`](Sender::on_buffer_released). Which stream
    /// has how many of them is told by [`get`](Sender::get) over the flight, before the call and behind it.
    ///
    /// Refused, in this order: [`BadSack`](Refusal::BadSack); where it is not stale, [`BadBlock`](Refusal::BadBlock). Every block is tested before
    /// anything changes.
    pub fn handle_sack(&mut self, chunk: &[u8]) -> Result<Option<Sacked>, Refusal> {
        let sacked = sys::handle_sack(&mut self.0, chunk);
        Refusal::check(sacked.refusal).map(|()| (sacked.stale == 0).then_some(Sacked { bytes: sacked.bytes }))
    }

    /// The entry of a TSN is acknowledged. Answers the bytes that it held, which it now lets go; 0 for an entry that held none and for an unknown
    /// TSN.
    pub fn mark_as_acked(&mut self, tsn: u32) -> u64 {
        sys::girdermoth_mark_as_acked(&mut self.0, tsn).value
    }

    /// Takes the oldest entry out of the flight, if it has this TSN.
    pub fn pop(&mut self, tsn: u32) -> Option<Chunk> {
        Chunk::from_fragment(&sys::girdermoth_pop(&mut self.0, tsn))
    }

    /// Marks every entry that is neither acknowledged nor abandoned for retransmission.
    pub fn mark_all_to_retransmit(&mut self) {
        sys::girdermoth_mark_all_to_retransmit(&mut self.0);
    }

    /// The TSNs in flight that are due, not abandoned, and not acknowledged or with a rest of their message pending; oldest first. They are written
    /// to the front of `list`, and answered as the part of it that they fill; the rest of `list` stays. The sender stays the same.
    ///
    /// Refused: [`BeyondLimit`](Refusal::BeyondLimit), [`ListShort`](Refusal::ListShort).
    pub fn expired_inflight<'a>(&mut self, now: u64, list: &'a mut [u32]) -> Result<&'a [u32], Refusal> {
        let count = answer(sys::expired_inflight(&mut self.0, list, now))?.value;
        Ok(&list[..count as usize])
    }

    // ---- chunks for the wire

    /// Writes the DATA chunk of a TSN in flight (RFC 9260, section 3.3.1), the first time and whenever it is sent again: its header, its payload, and
    /// zeros up to a multiple of four. They are written to the front of `out`, and answered as the part of it that they fill; the rest of `out` stays,
    /// and so does the sender. The payload is copied from `bytes`, which the offset of [`write`](Sender::write) counts from. The packet around the
    /// chunk, with its common header and its checksum, is the host's.
    ///
    /// Refused, in this order: [`NoEntry`](Refusal::NoEntry), [`PayloadOutside`](Refusal::PayloadOutside), [`OutputShort`](Refusal::OutputShort); then
    /// all of `out` stays.
    ///
    /// ```
    /// use girdermoth::{PayloadProtocolIdentifier, Refusal, Sender};
    ///
    /// # fn main() -> Result<(), Refusal> {
    /// let store = b"..hello.."; // the host's bytes, of which a message is a part
    /// let mut sender = Sender::new(4_294_967_295, 0);
    /// sender.open_stream(7, 1200)?;
    /// sender.write(7, PayloadProtocolIdentifier::STRING, 2, 5)?;
    /// let chunk = sender.send_next(0)?.expect("it is pending");
    ///
    /// let mut packet = [0; 1212];
    /// let data = sender.data_chunk(chunk.tsn, store, &mut packet[12..])?; // behind the common header
    /// assert_eq!(data[..8], [0, 3, 0, 21, 255, 255, 255, 255]); // DATA, first and last fragment, 16 + 5 bytes, TSN
    /// assert_eq!(data[8..16], [0, 7, 0, 0, 0, 0, 0, 51]); // stream, SSN, payload type
    /// assert_eq!(data[16..], *b"hello\0\0\0");
    ///
    /// sender.mark_as_acked(chunk.tsn);
    /// assert_eq!(sender.data_chunk(chunk.tsn, store, &mut packet[12..]), Err(Refusal::NoEntry));
    /// # Ok(())
    /// # }
    /// ```
    pub fn data_chunk<'a>(&self, tsn: u32, bytes: &[u8], out: &'a mut [u8]) -> Result<&'a [u8], Refusal> {
        let written = answer(sys::data_chunk(&self.0, bytes, out, tsn))?.value;
        Ok(&out[..written as usize])
    }

    // ---- questions

    /// The entry of a TSN in flight.
    pub fn get(&self, tsn: u32) -> Option<Chunk> {
        Chunk::from_fragment(&sys::girdermoth_get(&self.0, tsn))
    }

    /// Whether the TSN is in flight and its message abandoned.
    pub fn is_abandoned(&self, tsn: u32) -> bool {
        sys::girdermoth_is_abandoned(&self.0, tsn).yes != 0
    }

    /// The chunk that is sent next. Its TSN is 0: it has none yet.
    pub fn peek_pending(&self) -> Option<Chunk> {
        Chunk::from_fragment(&sys::girdermoth_peek_pending(&self.0))
    }

    /// The number of the next message.
    pub fn next_message_id(&self) -> u64 {
        sys::girdermoth_next_message_id(&self.0).value
    }

    /// The TSN of the next chunk that is sent, or of the next terminator.
    pub fn next_tsn(&self) -> u32 {
        sys::girdermoth_next_tsn(&self.0).value as u32
    }

    /// How many chunks are pending.
    pub fn pending_len(&self) -> usize {
        sys::girdermoth_pending_len(&self.0).value as usize
    }

    /// How many bytes are pending.
    pub fn pending_bytes(&self) -> u64 {
        sys::girdermoth_pending_bytes(&self.0).value
    }

    /// How many entries the flight has, terminators among them.
    pub fn inflight_len(&self) -> usize {
        sys::girdermoth_inflight_len(&self.0).value as usize
    }

    /// How many bytes the entries of the flight hold.
    pub fn inflight_bytes(&self) -> u64 {
        sys::girdermoth_inflight_bytes(&self.0).value
    }

    /// The oldest TSN in flight that is neither acknowledged nor abandoned.
    pub fn earliest_outstanding_tsn(&self) -> Option<u32> {
        let reply = sys::girdermoth_earliest_outstanding_tsn(&self.0);
        (reply.yes != 0).then_some(reply.value as u32)
    }

    /// Whether the stream has chunks pending; no for a stream that is not open.
    pub fn pending_contains_stream(&self, stream: StreamId) -> bool {
        sys::girdermoth_pending_contains_stream(&self.0, stream).yes != 0
    }

    /// Whether the stream has chunks pending or in flight; no for a stream that is not open.
    pub fn contains_stream(&self, stream: StreamId) -> bool {
        sys::girdermoth_contains_stream(&self.0, stream).yes != 0
    }

    /// The oldest TSN in flight, acknowledged or abandoned as it may be: [`pop`](Self::pop) takes that one, and the walk for FORWARD-TSN begins there.
    pub fn oldest_tsn(&self) -> Option<u32> {
        let reply = sys::girdermoth_oldest_tsn(&self.0);
        (reply.yes != 0).then_some(reply.value as u32)
    }

    /// How many more fragments the ring of unordered messages takes, or that of ordered ones: a message of more is refused with
    /// [`RingFull`](Refusal::RingFull).
    pub fn ring_room(&self, unordered: bool) -> usize {
        sys::girdermoth_ring_room(&self.0, unordered).value as usize
    }

    /// The earliest deadline of the chunk at the head and of those in flight that are not abandoned: a host that has expired all that was due may wait
    /// until then. What is acknowledged counts until it is popped: where such a deadline has passed, wait for the next acknowledgement and do not ask
    /// again. A message whose lifetime has not started has no deadline yet.
    pub fn next_deadline(&self) -> Option<u64> {
        let reply = sys::girdermoth_next_deadline(&self.0);
        (reply.yes != 0).then_some(reply.value)
    }
}

#[cfg(test)]
mod tests {
    use super::*;

    /// What a refused call leaves, to the last word of the block.
    fn refuses<T: fmt::Debug>(sender: &mut Sender, refusal: Refusal, call: impl FnOnce(&mut Sender) -> Result<T, Refusal>) {
        let before = sender.clone();
        assert_eq!(call(sender).unwrap_err(), refusal);
        assert!(*sender.0 == *before.0, "{refusal:?} changed the sender");
    }

    #[test]
    fn a_refused_call_changes_no_word() {
        let late = crate::CLOCK_MAX + 1;
        let mut s = Sender::new(7, u64::MAX - 1);
        s.open_stream(1, 1200).unwrap();
        s.set_reliability_params(1, false, ReliabilityType::Timed, 0).unwrap();
        s.write(1, PayloadProtocolIdentifier::BINARY, 0, 3000).unwrap();
        s.send_next(0).unwrap();
        refuses(&mut s, Refusal::BeyondLimit, |s| s.send_next(late));
        refuses(&mut s, Refusal::BeyondLimit, |s| s.start_timed_messages(late));
        refuses(&mut s, Refusal::BeyondLimit, |s| s.expire_pending(late));
        refuses(&mut s, Refusal::BeyondLimit, |s| s.expire_pending_tail(late));
        refuses(&mut s, Refusal::BeyondLimit, |s| s.expired_inflight(late, &mut [0; 4]).map(<[u32]>::len));
        refuses(&mut s, Refusal::ListShort, |s| s.expired_inflight(0, &mut []).map(<[u32]>::len));
        refuses(&mut s, Refusal::BadBounds, |s| s.open_stream(2, 0));
        refuses(&mut s, Refusal::AlreadyOpen, |s| s.open_stream(1, 1));
        refuses(&mut s, Refusal::NotOpen, |s| s.write(2, PayloadProtocolIdentifier::BINARY, 0, 1));
        refuses(&mut s, Refusal::MessageLong, |s| s.write(1, PayloadProtocolIdentifier::BINARY, 0, 65_537));
        refuses(&mut s, Refusal::NumbersSpent, |s| s.write(1, PayloadProtocolIdentifier::BINARY, 0, 1));
        let mut sack = [3, 0, 0, 20, 0, 0, 0, 6, 0, 0, 0, 0, 0, 1, 0, 0, 0, 1, 0, 2];
        refuses(&mut s, Refusal::BadSack, |s| s.handle_sack(&sack[..19]));
        refuses(&mut s, Refusal::BadBlock, |s| s.handle_sack(&sack));
        let mut out = [7; 1216];
        refuses(&mut s, Refusal::NoEntry, |s| s.data_chunk(8, &[0; 3000], &mut out).map(<[u8]>::len));
        refuses(&mut s, Refusal::PayloadOutside, |s| s.data_chunk(7, &[0; 1199], &mut out).map(<[u8]>::len));
        refuses(&mut s, Refusal::OutputShort, |s| s.data_chunk(7, &[0; 1200], &mut out[..1215]).map(<[u8]>::len));
        assert_eq!(out, [7; 1216]);
        sack[19] = 1;
        assert_eq!(s.handle_sack(&sack), Ok(Some(Sacked { bytes: 1200 })));
    }

    #[test]
    fn a_sender_crosses_threads() {
        fn both<T: Send + Sync>() {}
        both::<Sender>();
    }
}
