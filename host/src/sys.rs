//! The C ABI of the archive, and all `unsafe` code of the crate.
//! Made from include/girdermoth.h by tools/bindings, and not edited by hand.
//!
//! A C `bool` in a struct is mirrored as a `u8`, which has its size and alignment (the header asserts the size) and the same class in the calling
//! convention. The archive only ever writes 0 or 1 there, but nothing here depends on that: every byte is a `u8`, and the wrappers ask `!= 0`. So
//! there is no struct here with a bit pattern that is not a value of it. Arguments that are a `bool` in C are a `bool` here, which Rust keeps at
//! 0 or 1.
#![allow(unsafe_code)]

use std::mem::{align_of, offset_of, size_of};

/// The sender's numbers and slots. Nothing in them is for the caller.
#[repr(C)]
#[derive(Clone, Copy, Debug, PartialEq)]
pub(crate) struct Head {
    pub(crate) unordered_start: u64,
    pub(crate) unordered_len: u64,
    pub(crate) ordered_start: u64,
    pub(crate) ordered_len: u64,
    pub(crate) pending_bytes: u64,
    pub(crate) selected: u8,
    pub(crate) unordered_is_selected: u8,
    pub(crate) flight_start: u64,
    pub(crate) flight_len: u64,
    pub(crate) oldest: u32,
    pub(crate) flight_bytes: u64,
    pub(crate) due: u64,
    pub(crate) next_message: u64,
    pub(crate) next_unstarted: u64,
    pub(crate) streams: u64,
}

#[repr(C)]
#[derive(Clone, PartialEq)]
pub(crate) struct Sender {
    pub(crate) head: Head,
    pub(crate) cells: [u64; 6656],
}

impl Sender {
    /// All zero: not yet one that means something; `girdermoth_init` makes it that.
    pub(crate) const ZERO: Sender = Sender {
        head: Head {
            unordered_start: 0,
            unordered_len: 0,
            ordered_start: 0,
            ordered_len: 0,
            pending_bytes: 0,
            selected: 0,
            unordered_is_selected: 0,
            flight_start: 0,
            flight_len: 0,
            oldest: 0,
            flight_bytes: 0,
            due: 0,
            next_message: 0,
            next_unstarted: 0,
            streams: 0,
        },
        cells: [0; 6656],
    };
}

/// A number, where `yes` tells that there is one; or a yes or no.
#[repr(C)]
#[derive(Clone, Copy, Debug, PartialEq)]
pub(crate) struct Reply {
    pub(crate) value: u64,
    pub(crate) refusal: u8,
    pub(crate) yes: u8,
}

/// What an expiry or an abandonment freed, where `some` is set; `bytes` is for girdermoth_on_buffer_released. `message_id` is the message's number
/// after girdermoth_expire_pending_tail, and else 0; `unordered` is told by girdermoth_expire_pending alone.
#[repr(C)]
#[derive(Clone, Copy, Debug, PartialEq)]
pub(crate) struct Freed {
    pub(crate) message_id: u64,
    pub(crate) bytes: u64,
    pub(crate) stream: u16,
    pub(crate) refusal: u8,
    pub(crate) some: u8,
    pub(crate) unordered: u8,
}

/// A chunk, where `some` is set. Its bytes are the host's, from `offset` on; `length` counts those that it still holds, and is 0 once it is acknowledged
/// or abandoned. `protocol` is the payload type, `kind` and `value` the reliability that the stream had at the write. `deadline` is when the message's
/// lifetime ends, `since` when girdermoth_send_next gave the chunk out; both are 0 where they are absent. `nsent` is 1 in flight, 0 before and for a
/// terminator: what the host sends again is not counted. `retransmit` stays set until the entry is acknowledged or abandoned.
#[repr(C)]
#[derive(Clone, Copy, Debug, PartialEq)]
pub(crate) struct Fragment {
    pub(crate) message_id: u64,
    pub(crate) offset: u64,
    pub(crate) deadline: u64,
    pub(crate) since: u64,
    pub(crate) tsn: u32,
    pub(crate) length: u32,
    pub(crate) protocol: u32,
    pub(crate) value: u32,
    pub(crate) nsent: u32,
    pub(crate) stream: u16,
    pub(crate) ssn: u16,
    pub(crate) kind: u8,
    pub(crate) refusal: u8,
    pub(crate) some: u8,
    pub(crate) has_deadline: u8,
    pub(crate) has_since: u8,
    pub(crate) unordered: u8,
    pub(crate) beginning: u8,
    pub(crate) ending: u8,
    pub(crate) acked: u8,
    pub(crate) abandoned: u8,
    pub(crate) retransmit: u8,
}

/// A stream's statistics.
#[repr(C)]
#[derive(Clone, Copy, Debug, PartialEq)]
pub(crate) struct Counts {
    pub(crate) messages: u64,
    pub(crate) bytes: u64,
    pub(crate) refusal: u8,
}

/// What a SACK released, unless it is stale. `low` is reserved, and 0.
#[repr(C)]
#[derive(Clone, Copy, Debug, PartialEq)]
pub(crate) struct Sacked {
    pub(crate) bytes: u64,
    pub(crate) low: u64,
    pub(crate) refusal: u8,
    pub(crate) stale: u8,
}

/// Any bytes are an estimator: but only girdermoth_rto_new makes one that means something. Updates are off where `no_update` is not 0.
#[repr(C)]
#[derive(Clone, Copy, Debug, PartialEq)]
pub(crate) struct Rto {
    pub(crate) rto_initial: u64,
    pub(crate) rto_min: u64,
    pub(crate) rto_max: u64,
    pub(crate) no_update: u64,
    pub(crate) srtt: u64,
    pub(crate) rttvar: f64,
    pub(crate) rto: u64,
}

impl Rto {
    /// All zero: not yet one that means something; `girdermoth_rto_new` makes it that.
    pub(crate) const ZERO: Rto = Rto { rto_initial: 0, rto_min: 0, rto_max: 0, no_update: 0, srtt: 0, rttvar: 0.0, rto: 0 };
}

/// A flag is any byte but 0. `deadline` and `maximum` are told by their flags; `unused` says nothing, and is there so that every byte has a name.
/// The calls read a timer as three words, so this is how it lies on a little-endian machine, as the kit's targets are.
#[repr(C)]
#[derive(Clone, Copy, Debug, PartialEq)]
pub(crate) struct Timer {
    pub(crate) deadline: u64,
    pub(crate) maximum: u64,
    pub(crate) retrans: u32,
    pub(crate) has_deadline: u8,
    pub(crate) has_maximum: u8,
    pub(crate) suppressed: u8,
    pub(crate) unused: u8,
}

/// Any bytes are timers: but only girdermoth_timers_new makes timers that mean something.
#[repr(C)]
#[derive(Clone, Copy, Debug, PartialEq)]
pub(crate) struct Timers {
    pub(crate) entries: [Timer; 6],
    pub(crate) rto_max: u32,
}

impl Timers {
    /// All zero: not yet one that means something; `girdermoth_timers_new` makes it that.
    pub(crate) const ZERO: Timers =
        Timers { entries: [Timer { deadline: 0, maximum: 0, retrans: 0, has_deadline: 0, has_maximum: 0, suppressed: 0, unused: 0 }; 6], rto_max: 0 };
}

/// What an expiry tells.
#[repr(C)]
#[derive(Clone, Copy, Debug, PartialEq)]
pub(crate) struct Expiry {
    pub(crate) count: u32,
    pub(crate) refusal: u8,
    pub(crate) expired: u8,
    pub(crate) failure: u8,
}

/// Size, alignment and the offset of each field are those of C.
macro_rules! layout {
    ($name:ident: $size:literal, $align:literal; $($field:ident $offset:literal),*) => {
        const _: () = {
            assert!(size_of::<$name>() == $size && align_of::<$name>() == $align);
            $(assert!(offset_of!($name, $field) == $offset);)*
        };
    };
}
layout!(Head: 112, 8; unordered_start 0, unordered_len 8, ordered_start 16, ordered_len 24, pending_bytes 32, selected 40, unordered_is_selected 41,
    flight_start 48, flight_len 56, oldest 64, flight_bytes 72, due 80, next_message 88, next_unstarted 96, streams 104);
layout!(Sender: 53360, 8; head 0, cells 112);
layout!(Reply: 16, 8; value 0, refusal 8, yes 9);
layout!(Freed: 24, 8; message_id 0, bytes 8, stream 16, refusal 18, some 19, unordered 20);
layout!(Fragment: 72, 8; message_id 0, offset 8, deadline 16, since 24, tsn 32, length 36, protocol 40, value 44, nsent 48, stream 52, ssn 54,
    kind 56, refusal 57, some 58, has_deadline 59, has_since 60, unordered 61, beginning 62, ending 63, acked 64, abandoned 65, retransmit 66);
layout!(Counts: 24, 8; messages 0, bytes 8, refusal 16);
layout!(Sacked: 24, 8; bytes 0, low 8, refusal 16, stale 17);
layout!(Rto: 56, 8; rto_initial 0, rto_min 8, rto_max 16, no_update 24, srtt 32, rttvar 40, rto 48);
layout!(Timer: 24, 8; deadline 0, maximum 8, retrans 16, has_deadline 20, has_maximum 21, suppressed 22, unused 23);
layout!(Timers: 152, 8; entries 0, rto_max 144);
layout!(Expiry: 8, 4; count 0, refusal 4, expired 5, failure 6);
const _: () = assert!(size_of::<bool>() == 1 && align_of::<bool>() == 1);
// the archive reads a timer as words
const _: () = assert!(cfg!(target_endian = "little"));

// SAFETY: the signatures are those of the header, which are those of the Rattle sources (tools/sources). Those marked `safe` are safe for every
// argument of these types: each is proved to return and to stay in the memory that is lent to it, whatever the bytes of the struct are (every
// bit pattern of a mirrored struct is a value of it, here and there), and none keeps a pointer or touches anything global. What is lent as `&mut`
// is lent to nobody else meanwhile, and a `&` is a `const` pointer of the header, through which the archive only reads.
unsafe extern "C" {
    // ---- a fresh sender, and its streams
    pub(crate) safe fn girdermoth_init(s: &mut Sender, tsn: u32, number: u64) -> Reply;
    pub(crate) safe fn girdermoth_open_stream(s: &mut Sender, identifier: u16, maximum: u32) -> Reply;
    pub(crate) safe fn girdermoth_set_reliability_params(s: &mut Sender, identifier: u16, unordered: bool, kind: u8, value: u32) -> Reply;
    pub(crate) safe fn girdermoth_set_buffered_amount_low_threshold(s: &mut Sender, identifier: u16, low: u64) -> Reply;
    pub(crate) safe fn girdermoth_set_buffered_amount_high_threshold(s: &mut Sender, identifier: u16, high: u64) -> Reply;
    pub(crate) safe fn girdermoth_on_buffer_released(s: &mut Sender, identifier: u16, released: i64) -> Reply;

    // ---- messages. The clock is in milliseconds, at most GIRDERMOTH_CLOCK_MAX, and may go back
    pub(crate) safe fn girdermoth_write(s: &mut Sender, identifier: u16, protocol: u32, offset: u64, length: u64) -> Reply;
    pub(crate) safe fn girdermoth_start_timed_messages(s: &mut Sender, clock: u64) -> Reply;
    pub(crate) safe fn girdermoth_send_next(s: &mut Sender, clock: u64) -> Fragment;
    pub(crate) safe fn girdermoth_expire_pending(s: &mut Sender, clock: u64) -> Freed;
    pub(crate) safe fn girdermoth_expire_pending_tail(s: &mut Sender, clock: u64) -> Freed;
    pub(crate) safe fn girdermoth_abandon(s: &mut Sender, tsn: u32) -> Freed;

    // ---- the flight
    unsafe fn girdermoth_handle_sack(s: &mut Sender, chunk: *const u8, length: usize) -> Sacked;
    pub(crate) safe fn girdermoth_mark_as_acked(s: &mut Sender, tsn: u32) -> Reply;
    pub(crate) safe fn girdermoth_pop(s: &mut Sender, tsn: u32) -> Fragment;
    pub(crate) safe fn girdermoth_mark_all_to_retransmit(s: &mut Sender) -> Reply;
    unsafe fn girdermoth_expired_inflight(s: &mut Sender, list: *mut u32, room: usize, clock: u64) -> Reply;

    // ---- chunks for the wire. Packets, with their common header and their checksum, are the host's
    unsafe fn girdermoth_data_chunk(s: &Sender, bytes: *const u8, length: usize, out: *mut u8, room: usize, tsn: u32) -> Reply;

    // ---- questions. None is refused but where it says so
    pub(crate) safe fn girdermoth_get(s: &Sender, tsn: u32) -> Fragment;
    pub(crate) safe fn girdermoth_is_abandoned(s: &Sender, tsn: u32) -> Reply;
    pub(crate) safe fn girdermoth_peek_pending(s: &Sender) -> Fragment;
    pub(crate) safe fn girdermoth_next_message_id(s: &Sender) -> Reply;
    pub(crate) safe fn girdermoth_next_tsn(s: &Sender) -> Reply;
    pub(crate) safe fn girdermoth_pending_len(s: &Sender) -> Reply;
    pub(crate) safe fn girdermoth_pending_bytes(s: &Sender) -> Reply;
    pub(crate) safe fn girdermoth_inflight_len(s: &Sender) -> Reply;
    pub(crate) safe fn girdermoth_inflight_bytes(s: &Sender) -> Reply;
    pub(crate) safe fn girdermoth_earliest_outstanding_tsn(s: &Sender) -> Reply;
    pub(crate) safe fn girdermoth_pending_contains_stream(s: &Sender, identifier: u16) -> Reply;
    pub(crate) safe fn girdermoth_contains_stream(s: &Sender, identifier: u16) -> Reply;
    pub(crate) safe fn girdermoth_buffered_amount(s: &Sender, identifier: u16) -> Reply;
    pub(crate) safe fn girdermoth_buffered_amount_low_threshold(s: &Sender, identifier: u16) -> Reply;
    pub(crate) safe fn girdermoth_buffered_amount_high_threshold(s: &Sender, identifier: u16) -> Reply;
    pub(crate) safe fn girdermoth_stats(s: &Sender, identifier: u16) -> Counts;
    pub(crate) safe fn girdermoth_oldest_tsn(s: &Sender) -> Reply;
    pub(crate) safe fn girdermoth_ring_room(s: &Sender, unordered: bool) -> Reply;
    pub(crate) safe fn girdermoth_next_deadline(s: &Sender) -> Reply;

    // ---- the round-trip estimator: one struct that the caller owns, and lends to each call as it does a sender
    pub(crate) safe fn girdermoth_rto_new(s: &mut Rto, initial: u64, low: u64, high: u64) -> u8;
    pub(crate) safe fn girdermoth_rto_set_new_rtt(s: &mut Rto, rtt: u64) -> Reply;
    pub(crate) safe fn girdermoth_rto_get_rto(s: &Rto) -> u64;
    pub(crate) safe fn girdermoth_rto_reset(s: &mut Rto) -> u8;
    pub(crate) safe fn girdermoth_rto_set_rto(s: &mut Rto, rto: u64, no_update: bool) -> u8;

    // ---- the six timers: one struct that the caller owns, and lends to each call as it does a sender
    pub(crate) safe fn girdermoth_timers_new(s: &mut Timers, has_init: bool, init: u64, has_data: bool, data: u64, rto_max: u64) -> u8;
    pub(crate) safe fn girdermoth_timers_next_timeout(s: &Timers) -> Reply;
    pub(crate) safe fn girdermoth_timer_get(s: &Timers, timer: usize) -> Reply;
    pub(crate) safe fn girdermoth_timer_set(s: &mut Timers, timer: usize, is: bool, time: u64) -> u8;
    pub(crate) safe fn girdermoth_timer_start(s: &mut Timers, timer: usize, clock: u64, interval: u64) -> u8;
    pub(crate) safe fn girdermoth_timer_restart_if_stale(s: &mut Timers, timer: usize, clock: u64, interval: u64) -> u8;
    pub(crate) safe fn girdermoth_timer_stop(s: &mut Timers, timer: usize) -> u8;
    pub(crate) safe fn girdermoth_timer_reset_retrans(s: &mut Timers, timer: usize) -> u8;
    pub(crate) safe fn girdermoth_timer_suppress_error_count(s: &mut Timers, timer: usize) -> u8;
    pub(crate) safe fn girdermoth_timer_is_expired(s: &mut Timers, timer: usize, clock: u64) -> Expiry;
}

/// With the chunk as a slice.
pub(crate) fn handle_sack(s: &mut Sender, chunk: &[u8]) -> Sacked {
    // SAFETY: pointer and length are those of one slice that is lent for this call, and what is lent as `&mut` overlaps nothing else; the call is
    // proved to read the first `length` bytes only, and keeps no pointer.
    unsafe { girdermoth_handle_sack(s, chunk.as_ptr(), chunk.len()) }
}

/// With the list as a slice.
pub(crate) fn expired_inflight(s: &mut Sender, list: &mut [u32], clock: u64) -> Reply {
    // SAFETY: pointer and room are those of one slice that is lent for this call, and what is lent as `&mut` overlaps nothing else; the call is
    // proved to write in the first `room` numbers only, and keeps no pointer.
    unsafe { girdermoth_expired_inflight(s, list.as_mut_ptr(), list.len(), clock) }
}

/// With bytes and out as slices.
pub(crate) fn data_chunk(s: &Sender, bytes: &[u8], out: &mut [u8], tsn: u32) -> Reply {
    // SAFETY: pointers and counts are those of slices that are lent for this call, and what is lent as `&mut` overlaps nothing else; the call is
    // proved to read the first `length` bytes and to write in the first `room` bytes only, and keeps no pointer.
    unsafe { girdermoth_data_chunk(s, bytes.as_ptr(), bytes.len(), out.as_mut_ptr(), out.len(), tsn) }
}
