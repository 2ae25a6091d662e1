//! The send side of SCTP for WebRTC data channels: safe functions over the Girdermoth archive, under the names of the Rust crate sctp-proto.
//!
//! What each call does is proved in Rattle, for every argument: it returns, stays in its memory, and its answer and the state after it are the
//! ones that `docs/CALLS.md` gives. This crate adds types. It allocates once for a [`Sender`], and has no dependency but `std`.
//!
//! - [`Sender`]: streams, messages and the flight: `OutboundQueue` of the Rust with the sending half of its streams.
//! - [`TimerTable`]: the six timers of an association.
//! - [`RtoManager`]: the round-trip estimator, bit for bit the Rust's.
//!
//! The caller brings the clock, in whole milliseconds: any beginning will do, up to [`CLOCK_MAX`]; it may go back. The caller also keeps the
//! bytes of its messages: a message is given as an offset and a length, a chunk tells which of the bytes it carries, and
//! [`data_chunk`](Sender::data_chunk) copies these into what goes on the wire.
//!
//! A call that is refused answers a [`Refusal`] and changes nothing.
//!
//! ```
//! use girdermoth::{PayloadProtocolIdentifier, ReliabilityType, Sender};
//!
//! # fn main() -> Result<(), girdermoth::Refusal> {
//! let mut sender = Sender::new(4_294_967_295, 0);
//! sender.open_stream(1, 1200)?;
//! sender.set_reliability_params(1, false, ReliabilityType::Timed, 100)?;
//! sender.write(1, PayloadProtocolIdentifier::BINARY, 0, 3000)?;
//!
//! let first = sender.send_next(5)?.expect("three fragments are pending");
//! assert_eq!((first.tsn, first.length, first.deadline), (4_294_967_295, 1200, Some(105)));
//!
//! // The lifetime ends with two fragments unsent: they go, and one empty terminator takes their place.
//! let cut = sender.expire_pending_tail(105)?.expect("the rest has expired");
//! assert_eq!(cut.bytes, 3000);
//! assert!(sender.get(0).is_some_and(|entry| entry.is_terminator()));
//! assert_eq!(sender.send_next(105)?, None);
//! # Ok(())
//! # }
//! ```
#![deny(unsafe_code, missing_docs)]

#[cfg(test)]
mod any_bytes;
#[cfg(test)]
mod any_calls;
#[cfg(test)]
mod bad_sacks;
mod chunk;
mod refusal;
mod rto;
mod sender;
mod sys;
mod timer;

pub use chunk::{Chunk, PayloadProtocolIdentifier, ReliabilityType};
pub use refusal::Refusal;
pub use rto::RtoManager;
pub use sender::{Abandoned, DataChannelStats, Expired, ExpiredTail, Sacked, Sender};
pub use timer::{ACK_INTERVAL, Expiry, Timer, TimerTable};

/// Identifier of a stream.
pub type StreamId = u16;

/// The latest moment of the clock, in milliseconds.
pub const CLOCK_MAX: u64 = 1 << 40;
/// The longest message, in bytes.
pub const MESSAGE_MAX: u64 = 65_536;
/// The largest payload of a chunk, in bytes.
pub const PAYLOAD_MAX: u32 = 65_515;
/// How many streams can be open.
pub const STREAMS: usize = 64;
/// How many chunks can be pending in each of the two rings, one of ordered and one of unordered messages.
pub const RING_ROOM: usize = 256;
/// How many entries the flight has; the last is kept for a terminator. A list of this length is never too short for
/// [`Sender::expired_inflight`].
pub const FLIGHT_ROOM: usize = 256;
