//! Every call of the header by its place there, for tests on any bytes at all.
//! Made from include/girdermoth.h by tools/bindings, and not edited by hand.

use crate::sys::*;

/// Every field as a number, in the order of the header, but the refusal first.
pub(crate) trait Told {
    fn tell(&self, told: &mut Vec<u64>);
    fn told(&self) -> Vec<u64> {
        let mut told = Vec::new();
        self.tell(&mut told);
        told
    }
}

/// A `bool` of the header.
fn flag(byte: u8) -> u64 {
    assert!(byte < 2, "the archive writes 0 or 1");
    byte.into()
}

impl Told for u64 {
    fn tell(&self, told: &mut Vec<u64>) {
        told.extend([0, *self]);
    }
}

impl Told for u8 {
    fn tell(&self, told: &mut Vec<u64>) {
        told.push((*self).into());
    }
}

impl Told for Reply {
    fn tell(&self, told: &mut Vec<u64>) {
        told.push(self.refusal.into());
        told.push(self.value);
        told.push(flag(self.yes));
    }
}

impl Told for Freed {
    fn tell(&self, told: &mut Vec<u64>) {
        told.push(self.refusal.into());
        told.push(self.message_id);
        told.push(self.bytes);
        told.push(self.stream.into());
        told.push(flag(self.some));
        told.push(flag(self.unordered));
    }
}

impl Told for Fragment {
    fn tell(&self, told: &mut Vec<u64>) {
        told.push(self.refusal.into());
        told.push(self.message_id);
        told.push(self.offset);
        told.push(self.deadline);
        told.push(self.since);
        told.push(self.tsn.into());
        told.push(self.length.into());
        told.push(self.protocol.into());
        told.push(self.value.into());
        told.push(self.nsent.into());
        told.push(self.stream.into());
        told.push(self.ssn.into());
        told.push(self.kind.into());
        told.push(flag(self.some));
        told.push(flag(self.has_deadline));
        told.push(flag(self.has_since));
        told.push(flag(self.unordered));
        told.push(flag(self.beginning));
        told.push(flag(self.ending));
        told.push(flag(self.acked));
        told.push(flag(self.abandoned));
        told.push(flag(self.retransmit));
    }
}

impl Told for Counts {
    fn tell(&self, told: &mut Vec<u64>) {
        told.push(self.refusal.into());
        told.push(self.messages);
        told.push(self.bytes);
    }
}

impl Told for Sacked {
    fn tell(&self, told: &mut Vec<u64>) {
        told.push(self.refusal.into());
        told.push(self.bytes);
        told.push(self.low);
        told.push(flag(self.stale));
    }
}

impl Told for Expiry {
    fn tell(&self, told: &mut Vec<u64>) {
        told.push(self.refusal.into());
        told.push(self.count.into());
        told.push(flag(self.expired));
        told.push(flag(self.failure));
    }
}

impl Head {
    /// Of any words.
    pub(crate) fn of(word: &mut impl FnMut() -> u64) -> Self {
        Self {
            unordered_start: word(),
            unordered_len: word(),
            ordered_start: word(),
            ordered_len: word(),
            pending_bytes: word(),
            selected: word() as u8,
            unordered_is_selected: word() as u8,
            flight_start: word(),
            flight_len: word(),
            oldest: word() as u32,
            flight_bytes: word(),
            due: word(),
            next_message: word(),
            next_unstarted: word(),
            streams: word(),
        }
    }
}

impl Sender {
    /// Of any words.
    pub(crate) fn of(word: &mut impl FnMut() -> u64) -> Self {
        Self { head: Head::of(word), cells: std::array::from_fn(|_| word()) }
    }
}

impl Rto {
    /// Of any words.
    pub(crate) fn of(word: &mut impl FnMut() -> u64) -> Self {
        Self { rto_initial: word(), rto_min: word(), rto_max: word(), no_update: word(), srtt: word(), rttvar: f64::from_bits(word()), rto: word() }
    }
}

impl Timer {
    /// Of any words.
    pub(crate) fn of(word: &mut impl FnMut() -> u64) -> Self {
        Self {
            deadline: word(),
            maximum: word(),
            retrans: word() as u32,
            has_deadline: word() as u8,
            has_maximum: word() as u8,
            suppressed: word() as u8,
            unused: word() as u8,
        }
    }
}

impl Timers {
    /// Of any words.
    pub(crate) fn of(word: &mut impl FnMut() -> u64) -> Self {
        Self { entries: std::array::from_fn(|_| Timer::of(word)), rto_max: word() as u32 }
    }
}

/// The calls on a sender: the name, and whether it only asks.
pub(crate) const CALLS: [(&str, bool); 37] = [
    ("girdermoth_init", false),
    ("girdermoth_open_stream", false),
    ("girdermoth_set_reliability_params", false),
    ("girdermoth_set_buffered_amount_low_threshold", false),
    ("girdermoth_set_buffered_amount_high_threshold", false),
    ("girdermoth_on_buffer_released", false),
    ("girdermoth_write", false),
    ("girdermoth_start_timed_messages", false),
    ("girdermoth_send_next", false),
    ("girdermoth_expire_pending", false),
    ("girdermoth_expire_pending_tail", false),
    ("girdermoth_abandon", false),
    ("girdermoth_handle_sack", false),
    ("girdermoth_mark_as_acked", false),
    ("girdermoth_pop", false),
    ("girdermoth_mark_all_to_retransmit", false),
    ("girdermoth_expired_inflight", false),
    ("girdermoth_data_chunk", true),
    ("girdermoth_get", true),
    ("girdermoth_is_abandoned", true),
    ("girdermoth_peek_pending", true),
    ("girdermoth_next_message_id", true),
    ("girdermoth_next_tsn", true),
    ("girdermoth_pending_len", true),
    ("girdermoth_pending_bytes", true),
    ("girdermoth_inflight_len", true),
    ("girdermoth_inflight_bytes", true),
    ("girdermoth_earliest_outstanding_tsn", true),
    ("girdermoth_pending_contains_stream", true),
    ("girdermoth_contains_stream", true),
    ("girdermoth_buffered_amount", true),
    ("girdermoth_buffered_amount_low_threshold", true),
    ("girdermoth_buffered_amount_high_threshold", true),
    ("girdermoth_stats", true),
    ("girdermoth_oldest_tsn", true),
    ("girdermoth_ring_room", true),
    ("girdermoth_next_deadline", true),
];

/// A call on a sender, with any numbers, and a list, bytes and an output that are lent.
pub(crate) fn call(which: usize, s: &mut Sender, list: &mut [u32], bytes: &[u8], out: &mut [u8], [a, b, c, d]: [u64; 4]) -> Vec<u64> {
    match which {
        0 => girdermoth_init(s, a as u32, b).told(),
        1 => girdermoth_open_stream(s, a as u16, b as u32).told(),
        2 => girdermoth_set_reliability_params(s, a as u16, b % 2 == 1, c as u8, d as u32).told(),
        3 => girdermoth_set_buffered_amount_low_threshold(s, a as u16, b).told(),
        4 => girdermoth_set_buffered_amount_high_threshold(s, a as u16, b).told(),
        5 => girdermoth_on_buffer_released(s, a as u16, b as i64).told(),
        6 => girdermoth_write(s, a as u16, b as u32, c, d).told(),
        7 => girdermoth_start_timed_messages(s, a).told(),
        8 => girdermoth_send_next(s, a).told(),
        9 => girdermoth_expire_pending(s, a).told(),
        10 => girdermoth_expire_pending_tail(s, a).told(),
        11 => girdermoth_abandon(s, a as u32).told(),
        12 => handle_sack(s, bytes).told(),
        13 => girdermoth_mark_as_acked(s, a as u32).told(),
        14 => girdermoth_pop(s, a as u32).told(),
        15 => girdermoth_mark_all_to_retransmit(s).told(),
        16 => expired_inflight(s, list, a).told(),
        17 => data_chunk(s, bytes, out, a as u32).told(),
        18 => girdermoth_get(s, a as u32).told(),
        19 => girdermoth_is_abandoned(s, a as u32).told(),
        20 => girdermoth_peek_pending(s).told(),
        21 => girdermoth_next_message_id(s).told(),
        22 => girdermoth_next_tsn(s).told(),
        23 => girdermoth_pending_len(s).told(),
        24 => girdermoth_pending_bytes(s).told(),
        25 => girdermoth_inflight_len(s).told(),
        26 => girdermoth_inflight_bytes(s).told(),
        27 => girdermoth_earliest_outstanding_tsn(s).told(),
        28 => girdermoth_pending_contains_stream(s, a as u16).told(),
        29 => girdermoth_contains_stream(s, a as u16).told(),
        30 => girdermoth_buffered_amount(s, a as u16).told(),
        31 => girdermoth_buffered_amount_low_threshold(s, a as u16).told(),
        32 => girdermoth_buffered_amount_high_threshold(s, a as u16).told(),
        33 => girdermoth_stats(s, a as u16).told(),
        34 => girdermoth_oldest_tsn(s).told(),
        35 => girdermoth_ring_room(s, a % 2 == 1).told(),
        36 => girdermoth_next_deadline(s).told(),
        _ => unreachable!("there are {} calls", CALLS.len()),
    }
}

/// The calls on timers: the name, and whether it only asks.
pub(crate) const TIMER_CALLS: [(&str, bool); 10] = [
    ("girdermoth_timers_new", false),
    ("girdermoth_timers_next_timeout", true),
    ("girdermoth_timer_get", true),
    ("girdermoth_timer_set", false),
    ("girdermoth_timer_start", false),
    ("girdermoth_timer_restart_if_stale", false),
    ("girdermoth_timer_stop", false),
    ("girdermoth_timer_reset_retrans", false),
    ("girdermoth_timer_suppress_error_count", false),
    ("girdermoth_timer_is_expired", false),
];

/// A call on timers, with any numbers.
pub(crate) fn timer_call(which: usize, s: &mut Timers, [a, b, c, d, e]: [u64; 5]) -> Vec<u64> {
    match which {
        0 => girdermoth_timers_new(s, a % 2 == 1, b, c % 2 == 1, d, e).told(),
        1 => girdermoth_timers_next_timeout(s).told(),
        2 => girdermoth_timer_get(s, (a % 8) as usize).told(),
        3 => girdermoth_timer_set(s, (a % 8) as usize, b % 2 == 1, c).told(),
        4 => girdermoth_timer_start(s, (a % 8) as usize, b, c).told(),
        5 => girdermoth_timer_restart_if_stale(s, (a % 8) as usize, b, c).told(),
        6 => girdermoth_timer_stop(s, (a % 8) as usize).told(),
        7 => girdermoth_timer_reset_retrans(s, (a % 8) as usize).told(),
        8 => girdermoth_timer_suppress_error_count(s, (a % 8) as usize).told(),
        9 => girdermoth_timer_is_expired(s, (a % 8) as usize, b).told(),
        _ => unreachable!("there are {} calls", TIMER_CALLS.len()),
    }
}

/// The calls on an estimator: the name, and whether it only asks.
pub(crate) const RTO_CALLS: [(&str, bool); 5] = [
    ("girdermoth_rto_new", false),
    ("girdermoth_rto_set_new_rtt", false),
    ("girdermoth_rto_get_rto", true),
    ("girdermoth_rto_reset", false),
    ("girdermoth_rto_set_rto", false),
];

/// A call on an estimator, with any numbers.
pub(crate) fn rto_call(which: usize, s: &mut Rto, [a, b, c]: [u64; 3]) -> Vec<u64> {
    match which {
        0 => girdermoth_rto_new(s, a, b, c).told(),
        1 => girdermoth_rto_set_new_rtt(s, a).told(),
        2 => girdermoth_rto_get_rto(s).told(),
        3 => girdermoth_rto_reset(s).told(),
        4 => girdermoth_rto_set_rto(s, a, b % 2 == 1).told(),
        _ => unreachable!("there are {} calls", RTO_CALLS.len()),
    }
}
