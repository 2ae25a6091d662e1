//! The calls of include/girdermoth.h that the race makes, and the two that have them: the archive, and the anchor in C (anchor.c).
use crate::sys::{self, Expiry, Fragment, Freed, Reply, Rto, Sacked, Sender, Timers};

/// What a host links.
pub struct Archive;
/// The same calls by hand, which trust their state.
pub struct Anchor;

macro_rules! calls {
    ($($call:ident: $archive:ident, $anchor:ident($($argument:ident: $type:ty),*) -> $reply:ty;)*) => {
        pub trait Calls {
            $(fn $call($($argument: $type),*) -> $reply;)*
            /// With the list as a slice.
            fn expired_inflight(s: &mut Sender, list: &mut [u32], clock: u64) -> Reply;
            /// With the chunk as a slice.
            fn handle_sack(s: &mut Sender, chunk: &[u8]) -> Sacked;
            /// With bytes and output as slices.
            fn data_chunk(s: &Sender, bytes: &[u8], out: &mut [u8], tsn: u32) -> Reply;
        }

        impl Calls for Archive {
            $(fn $call($($argument: $type),*) -> $reply {
                sys::$archive($($argument),*)
            })*
            fn expired_inflight(s: &mut Sender, list: &mut [u32], clock: u64) -> Reply {
                sys::expired_inflight(s, list, clock)
            }
            fn handle_sack(s: &mut Sender, chunk: &[u8]) -> Sacked {
                sys::handle_sack(s, chunk)
            }
            fn data_chunk(s: &Sender, bytes: &[u8], out: &mut [u8], tsn: u32) -> Reply {
                sys::data_chunk(s, bytes, out, tsn)
            }
        }

        unsafe extern "C" {
            $(fn $anchor($($argument: $type),*) -> $reply;)*
            fn anchor_expired_inflight(s: &mut Sender, list: *mut u32, room: usize, clock: u64) -> Reply;
            fn anchor_handle_sack(s: &mut Sender, chunk: *const u8, length: usize) -> Sacked;
            fn anchor_data_chunk(s: &Sender, bytes: *const u8, length: usize, out: *mut u8, room: usize, tsn: u32) -> Reply;
        }

        // SAFETY: the signatures are those of anchor.c, and its structs are the header's, which `sys` mirrors. A call is made over a state that
        // the anchor's own calls have made, from `init` or `timers_new` on (lent.rs lends no other).
        impl Calls for Anchor {
            $(fn $call($($argument: $type),*) -> $reply {
                unsafe { $anchor($($argument),*) }
            })*
            fn expired_inflight(s: &mut Sender, list: &mut [u32], clock: u64) -> Reply {
                unsafe { anchor_expired_inflight(s, list.as_mut_ptr(), list.len(), clock) }
            }
            fn handle_sack(s: &mut Sender, chunk: &[u8]) -> Sacked {
                unsafe { anchor_handle_sack(s, chunk.as_ptr(), chunk.len()) }
            }
            fn data_chunk(s: &Sender, bytes: &[u8], out: &mut [u8], tsn: u32) -> Reply {
                unsafe { anchor_data_chunk(s, bytes.as_ptr(), bytes.len(), out.as_mut_ptr(), out.len(), tsn) }
            }
        }
    };
}

calls! {
    init: girdermoth_init, anchor_init(s: &mut Sender, tsn: u32, number: u64) -> Reply;
    open_stream: girdermoth_open_stream, anchor_open_stream(s: &mut Sender, identifier: u16, maximum: u32) -> Reply;
    set_reliability: girdermoth_set_reliability_params, anchor_set_reliability_params(
        s: &mut Sender, identifier: u16, unordered: bool, kind: u8, value: u32
    ) -> Reply;
    release: girdermoth_on_buffer_released, anchor_on_buffer_released(s: &mut Sender, identifier: u16, released: i64) -> Reply;
    write: girdermoth_write, anchor_write(
        s: &mut Sender, identifier: u16, protocol: u32, offset: u64, length: u64
    ) -> Reply;
    start_lifetimes: girdermoth_start_timed_messages, anchor_start_timed_messages(s: &mut Sender, clock: u64) -> Reply;
    send: girdermoth_send_next, anchor_send_next(s: &mut Sender, clock: u64) -> Fragment;
    expire_pending: girdermoth_expire_pending, anchor_expire_pending(s: &mut Sender, clock: u64) -> Freed;
    expire_pending_tail: girdermoth_expire_pending_tail, anchor_expire_pending_tail(
        s: &mut Sender, clock: u64
    ) -> Freed;
    abandon: girdermoth_abandon, anchor_abandon(s: &mut Sender, tsn: u32) -> Freed;
    acknowledge: girdermoth_mark_as_acked, anchor_mark_as_acked(s: &mut Sender, tsn: u32) -> Reply;
    pop: girdermoth_pop, anchor_pop(s: &mut Sender, tsn: u32) -> Fragment;
    mark_all: girdermoth_mark_all_to_retransmit, anchor_mark_all_to_retransmit(s: &mut Sender) -> Reply;
    get: girdermoth_get, anchor_get(s: &Sender, tsn: u32) -> Fragment;
    pending_length: girdermoth_pending_len, anchor_pending_len(s: &Sender) -> Reply;
    inflight_length: girdermoth_inflight_len, anchor_inflight_len(s: &Sender) -> Reply;
    pending_contains_stream: girdermoth_pending_contains_stream, anchor_pending_contains_stream(
        s: &Sender, identifier: u16
    ) -> Reply;
    contains_stream: girdermoth_contains_stream, anchor_contains_stream(s: &Sender, identifier: u16) -> Reply;
    earliest_outstanding: girdermoth_earliest_outstanding_tsn, anchor_earliest_outstanding_tsn(s: &Sender) -> Reply;
    timers_new: girdermoth_timers_new, anchor_timers_new(
        s: &mut Timers, has_init: bool, init: u64, has_data: bool, data: u64, rto_max: u64
    ) -> u8;
    timers_next_timeout: girdermoth_timers_next_timeout, anchor_timers_next_timeout(s: &Timers) -> Reply;
    timer_start: girdermoth_timer_start, anchor_timer_start(
        s: &mut Timers, timer: usize, clock: u64, interval: u64
    ) -> u8;
    timer_stop: girdermoth_timer_stop, anchor_timer_stop(s: &mut Timers, timer: usize) -> u8;
    timer_is_expired: girdermoth_timer_is_expired, anchor_timer_is_expired(
        s: &mut Timers, timer: usize, clock: u64
    ) -> Expiry;
    rto_new: girdermoth_rto_new, anchor_rto_new(s: &mut Rto, initial: u64, low: u64, high: u64) -> u8;
    rto_set_new_rtt: girdermoth_rto_set_new_rtt, anchor_rto_set_new_rtt(s: &mut Rto, rtt: u64) -> Reply;
}
