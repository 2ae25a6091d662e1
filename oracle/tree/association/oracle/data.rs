//! The DATA chunk of an entry in flight, as the original writes it.
//!
//! Three things are the driver's. The payload: the chunks here hold zeros, so a copy of the entry's gets the bytes that
//! the memory has at its offset. The zeros behind it: the original leaves them to the packet, which is a stub here; how
//! many there are its own `get_padding_size` tells. And the payload type where the original does not know the write's
//! number: its enum has lost it, and writes 58 for all such. `mode raw` has the first of the three alone.

use alloc::string::String;
use alloc::vec::Vec;
use core::iter::repeat;

use super::{Oracle, place, put, show};
use crate::chunk::Chunk;
use crate::chunk::chunk_payload_data::{ChunkPayloadData, PayloadProtocolIdentifier};
use crate::util::get_padding_size;

/// Where the payload type stands in a chunk.
const TYPE: core::ops::Range<usize> = 12..16;
/// How many bytes behind what was written are shown.
const BEHIND: usize = 8;

impl Oracle {
    /// An entry that is neither acknowledged nor abandoned.
    pub(super) fn live(&self, tsn: u32) -> Option<&ChunkPayloadData> {
        self.association.outbound.get(tsn).filter(|entry| !entry.acked && !entry.abandoned)
    }

    pub(super) fn data(&mut self, tsn: u32, room: u64, out: &mut String) {
        match self.association.outbound.get(tsn) {
            None => put(out, "none"),
            Some(entry) => self.put_chunk(&self.chunk_bytes(entry), room, out),
        }
    }

    pub(super) fn chunk_bytes(&self, entry: &ChunkPayloadData) -> Vec<u8> {
        let chunk = ChunkPayloadData { user_data: self.payload(entry).into(), ..entry.clone() };
        let mut bytes = chunk.marshal().expect("a chunk can be written").to_vec();
        if self.guard {
            if entry.payload_type == PayloadProtocolIdentifier::Unknown {
                bytes[TYPE].copy_from_slice(&self.places[&entry.message_id].typ.to_be_bytes());
            }
            bytes.resize(bytes.len() + get_padding_size(bytes.len()), 0);
            assert!(reads_back(&bytes, &chunk), "the original's reader gives another chunk");
        }
        bytes
    }

    /// What the memory has for an entry; where it has ended (only `mode raw` comes there), zeros.
    fn payload(&self, entry: &ChunkPayloadData) -> Vec<u8> {
        let offset = place(self.offset(entry).unwrap_or_default());
        self.memory.iter().copied().skip(offset).chain(repeat(0)).take(entry.user_data.len()).collect()
    }

    /// On the wire, whose first `room` bytes are lent; then these bytes are shown, and some behind them.
    pub(super) fn put_chunk(&mut self, bytes: &[u8], room: u64, out: &mut String) {
        self.wire.iter_mut().zip(bytes).for_each(|(to, from)| *to = *from);
        self.show_chunk_bytes(bytes.len(), room, out);
    }

    pub(super) fn show_chunk_bytes(&self, written: usize, room: u64, out: &mut String) {
        put(out, format_args!("n={written} "));
        let shown = (written + BEHIND).min(place(room).max(written));
        show::bytes(self.wire.iter().take(shown), out);
    }
}

/// Whether the original's reader gives a chunk again.
fn reads_back(bytes: &[u8], chunk: &ChunkPayloadData) -> bool {
    let fields = |c: &ChunkPayloadData| (c.tsn, c.stream_identifier, c.stream_sequence_number, c.header().flags);
    ChunkPayloadData::unmarshal(&bytes.to_vec().into()).is_ok_and(|read| {
        fields(&read) == fields(chunk) && read.payload_type == chunk.payload_type && read.user_data == chunk.user_data
    })
}
