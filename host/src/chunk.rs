use std::fmt;

use crate::sys;

/// What kind of bytes a message has (PPID). Any number may be given, and is kept.
#[derive(Clone, Copy, Debug, PartialEq, Eq, Hash)]
pub struct PayloadProtocolIdentifier(pub u32);

impl PayloadProtocolIdentifier {
    /// 50: the data channel's own messages. Always ordered, and never given a lifetime.
    pub const DCEP: Self = Self(50);
    /// 51: text.
    pub const STRING: Self = Self(51);
    /// 53: bytes.
    pub const BINARY: Self = Self(53);
    /// 56: an empty text, sent as one byte.
    pub const STRING_EMPTY: Self = Self(56);
    /// 57: no bytes, sent as one.
    pub const BINARY_EMPTY: Self = Self(57);
}

/// How hard a stream tries to deliver a message.
#[derive(Clone, Copy, Debug, Default, PartialEq, Eq, Hash)]
#[repr(u8)]
pub enum ReliabilityType {
    /// Until it is delivered.
    #[default]
    Reliable = 0,
    /// With a limited number of retransmissions; the caller counts them.
    Rexmit = 1,
    /// For a lifetime in milliseconds.
    Timed = 2,
}

impl From<u8> for ReliabilityType {
    fn from(kind: u8) -> Self {
        match kind {
            1 => ReliabilityType::Rexmit,
            2 => ReliabilityType::Timed,
            _ => ReliabilityType::Reliable,
        }
    }
}

impl fmt::Display for ReliabilityType {
    fn fmt(&self, f: &mut fmt::Formatter<'_>) -> fmt::Result {
        f.write_str(match self {
            ReliabilityType::Reliable => "Reliable",
            ReliabilityType::Rexmit => "Rexmit",
            ReliabilityType::Timed => "Timed",
        })
    }
}

/// A fragment of a message: pending, in flight, or taken out of the flight. The sender holds no bytes: `offset` and `length` say which of the
/// caller's they are.
#[derive(Clone, Copy, Debug, PartialEq, Eq)]
pub struct Chunk {
    /// The transmission sequence number; 0 while the chunk is pending.
    pub tsn: u32,
    /// The stream's identifier.
    pub stream_identifier: u16,
    /// The message's number on its stream (SSN).
    pub stream_sequence_number: u16,
    /// The payload type.
    pub payload_type: PayloadProtocolIdentifier,
    /// The message's number, the same for all its fragments, and for no other message.
    pub message_id: u64,
    /// Where the fragment's bytes begin. It stays when the bytes are let go.
    pub offset: u64,
    /// How many bytes the chunk still holds: 0 once it is acknowledged or abandoned.
    pub length: u32,
    /// U: the message is delivered in no order.
    pub unordered: bool,
    /// B: the first fragment of its message.
    pub beginning_fragment: bool,
    /// E: the last fragment of its message.
    pub ending_fragment: bool,
    /// The reliability and its value that the stream had at the write.
    pub reliability: (ReliabilityType, u32),
    /// When the message's lifetime ends.
    pub deadline: Option<u64>,
    /// When the chunk was sent.
    pub since: Option<u64>,
    /// How often it was sent: 1 in flight, 0 for a pending chunk and for a terminator.
    pub nsent: u32,
    /// It is acknowledged.
    pub acked: bool,
    /// Its message is abandoned.
    pub abandoned: bool,
    /// It is marked to be sent again, and stays so until it is acknowledged or abandoned.
    pub retransmit: bool,
}

impl Chunk {
    /// The flags octet of RFC 9260: E 1, B 2, U 4.
    pub fn flags(&self) -> u8 {
        u8::from(self.ending_fragment) | u8::from(self.beginning_fragment) << 1 | u8::from(self.unordered) << 2
    }

    /// Whether this entry of the flight stands for the unsent rest of an abandoned message: it was never sent, holds nothing, and ends the
    /// message.
    pub fn is_terminator(&self) -> bool {
        self.abandoned && self.ending_fragment && !self.beginning_fragment && self.length == 0 && self.nsent == 0
    }

    pub(crate) fn from_fragment(f: &sys::Fragment) -> Option<Chunk> {
        (f.some != 0).then(|| Chunk {
            tsn: f.tsn,
            stream_identifier: f.stream,
            stream_sequence_number: f.ssn,
            payload_type: PayloadProtocolIdentifier(f.protocol),
            message_id: f.message_id,
            offset: f.offset,
            length: f.length,
            unordered: f.unordered != 0,
            beginning_fragment: f.beginning != 0,
            ending_fragment: f.ending != 0,
            reliability: (f.kind.into(), f.value),
            deadline: (f.has_deadline != 0).then_some(f.deadline),
            since: (f.has_since != 0).then_some(f.since),
            nsent: f.nsent,
            acked: f.acked != 0,
            abandoned: f.abandoned != 0,
            retransmit: f.retransmit != 0,
        })
    }
}
