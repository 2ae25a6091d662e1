use std::fmt;

/// Why a call was refused. A refused call changes nothing: not the state, not a lent list or output.
#[derive(Clone, Copy, Debug, PartialEq, Eq, Hash)]
#[repr(u8)]
pub enum Refusal {
    /// 1: a number is beyond its limit, and no other line names it: a clock above [`CLOCK_MAX`](crate::CLOCK_MAX), an offset, an interval, an
    /// RTO setting or a round-trip time above 4,294,967,295.
    BeyondLimit = 1,
    /// 2: the payload maximum is outside 1 to 65,515, or the RTO minimum is above the maximum.
    BadBounds = 2,
    /// 3: the stream is not open.
    NotOpen = 3,
    /// 4: the stream is already open.
    AlreadyOpen = 4,
    /// 5: 64 streams are open.
    StreamsFull = 5,
    /// 6: the message is over 65,536 bytes.
    MessageLong = 6,
    /// 7: the stream's buffered amount would pass 4,294,967,295.
    BufferFull = 7,
    /// 8: the message's ring (256 chunks, one for ordered and one for unordered messages) lacks room for all its fragments.
    RingFull = 8,
    /// 9: the message has a fragment, and the next message number is 2^64 - 1.
    NumbersSpent = 9,
    /// 10: the flight holds 255 or more entries, and a chunk is pending. The last place is kept for a terminator.
    FlightFull = 10,
    /// 11: the lent list is shorter than the list of expired TSNs.
    ListShort = 11,
    /// 12: an expiry that would be counted finds the timer's count at 4,294,967,295.
    CountFull = 12,
    /// 13: the lent bytes are no SACK: under 16, of another type, or not as long as their length field and counts say.
    BadSack = 13,
    /// 14: a gap block starts at 0, starts behind its end, or ends beyond the newest entry in flight.
    BadBlock = 14,
    /// 15: no entry in flight has the TSN, or the one that has it is acknowledged or abandoned, as a terminator is.
    NoEntry = 15,
    /// 16: the entry's payload ends beyond the lent bytes.
    PayloadOutside = 16,
    /// 17: the lent output is shorter than the chunk with its padding.
    OutputShort = 17,
}

impl Refusal {
    /// Every refusal, in the order of its number.
    pub const ALL: [Refusal; 17] = [
        Refusal::BeyondLimit,
        Refusal::BadBounds,
        Refusal::NotOpen,
        Refusal::AlreadyOpen,
        Refusal::StreamsFull,
        Refusal::MessageLong,
        Refusal::BufferFull,
        Refusal::RingFull,
        Refusal::NumbersSpent,
        Refusal::FlightFull,
        Refusal::ListShort,
        Refusal::CountFull,
        Refusal::BadSack,
        Refusal::BadBlock,
        Refusal::NoEntry,
        Refusal::PayloadOutside,
        Refusal::OutputShort,
    ];

    /// The number that the archive answers, 1 to 17.
    pub const fn number(self) -> u8 {
        self as u8
    }

    /// The refusal of a number; nothing for 0, which is "done", and for numbers above 17.
    pub const fn from_number(number: u8) -> Option<Refusal> {
        match number {
            1..=17 => Some(Refusal::ALL[number as usize - 1]),
            _ => None,
        }
    }

    /// A reply's refusal. No call answers a number above 17; an archive that does is not the one that this crate is written for.
    pub(crate) fn check(number: u8) -> Result<(), Refusal> {
        match number {
            0 => Ok(()),
            _ => Err(Refusal::from_number(number).expect("the archive answers 0 to 17")),
        }
    }
}

impl fmt::Display for Refusal {
    fn fmt(&self, f: &mut fmt::Formatter<'_>) -> fmt::Result {
        f.write_str(match self {
            Refusal::BeyondLimit => "a number is beyond its limit",
            Refusal::BadBounds => "the payload maximum is outside 1 to 65,515, or the RTO minimum is above the maximum",
            Refusal::NotOpen => "the stream is not open",
            Refusal::AlreadyOpen => "the stream is already open",
            Refusal::StreamsFull => "64 streams are open, and there is room for no more",
            Refusal::MessageLong => "the message is longer than 65,536 bytes",
            Refusal::BufferFull => "the stream's buffered amount would pass 4,294,967,295 bytes",
            Refusal::RingFull => "the ring of pending chunks lacks room for all fragments of the message",
            Refusal::NumbersSpent => "the last message number is reached",
            Refusal::FlightFull => "the flight is full but for the place that is kept for a terminator, and a chunk is pending",
            Refusal::ListShort => "the lent list is shorter than the list of expired TSNs",
            Refusal::CountFull => "the timer's count of expiries is at its limit",
            Refusal::BadSack => "the lent bytes are no SACK: too short, of another type, or not as long as they say",
            Refusal::BadBlock => "a gap block of the SACK starts at 0, starts behind its end, or ends beyond the newest entry in flight",
            Refusal::NoEntry => "no entry in flight has the TSN, or it is acknowledged or abandoned",
            Refusal::PayloadOutside => "the payload of the entry ends beyond the lent bytes",
            Refusal::OutputShort => "the lent output is shorter than the chunk with its padding",
        })
    }
}

impl std::error::Error for Refusal {}
