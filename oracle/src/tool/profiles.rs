//! The kinds of scripts: what each does most, and at which places it aims.

use crate::generator::{Action, CLOCK_MAX, Generator, NO_CROWD, Profile, U32_MAX, near};

/// Small payload maxima make many fragments of few bytes.
const SMALL: &[u64] = &[1, 2, 3, 7, 16, 100, 256];
/// With all four paddings.
pub const PADDED: &[u64] = &[1, 2, 3, 4, 5, 6, 7, 8, 13, 14, 15, 16, 31, 64, 100];
const MIXED: &[u64] = &[1, 5, 64, 255, 256, 1200, 65_514, 65_515];
const ANY_KIND: &[u8] = &[0, 1, 2, 2, 2, 3, 255];
const TIMED: &[u8] = &[2];
const EITHER: &[u8] = &[0, 1];
const CROWD: usize = 60;

const LIFETIMES: &[(u64, Action)] = &[
    (10, Generator::write),
    (4, Generator::send),
    (2, Generator::lifetimes),
    (10, Generator::expire),
    (2, Generator::expire_some),
    (4, Generator::tail),
    (2, Generator::popped_prefix),
    (4, Generator::list_expired),
    (2, Generator::acknowledge),
    (1, Generator::sack),
    (1, Generator::data),
    (2, Generator::pop_some),
    (1, Generator::abandon),
    (1, Generator::question),
];

pub const PROFILES: [&Profile; 15] = [
    &Profile {
        name: "mixed",
        actions: &[
            (12, Generator::write),
            (10, Generator::send),
            (3, Generator::send_some),
            (5, Generator::acknowledge),
            (4, Generator::sack),
            (4, Generator::data),
            (1, Generator::lend),
            (1, Generator::wire),
            (1, Generator::memory),
            (3, Generator::pop),
            (2, Generator::pop_some),
            (2, Generator::abandon),
            (2, Generator::expire),
            (2, Generator::tail),
            (2, Generator::list_expired),
            (2, Generator::lifetimes),
            (1, Generator::mark_all),
            (2, Generator::threshold),
            (3, Generator::release),
            (4, Generator::question),
            (1, Generator::open_any),
            (1, Generator::change_reliability),
            (2, Generator::timer),
            (2, Generator::estimate),
            (1, Generator::beyond_a_limit),
            (1, Generator::no_call),
        ],
        streams: 6,
        payloads: MIXED,
        kinds: ANY_KIND,
        unordered: EITHER,
        last_numbers: None,
        crowd: CROWD,
    },
    &Profile {
        name: "full-rings",
        actions: &[
            (6, Generator::write),
            (3, Generator::fill_ring),
            (3, Generator::send),
            (1, Generator::send_some),
            (2, Generator::expire_some),
            (1, Generator::tail),
            (2, Generator::lifetimes),
            (2, Generator::pop_some),
            (1, Generator::acknowledge),
            (1, Generator::abandon),
            (1, Generator::change_reliability),
            (2, Generator::question),
        ],
        streams: 5,
        payloads: SMALL,
        kinds: ANY_KIND,
        unordered: EITHER,
        last_numbers: None,
        crowd: NO_CROWD,
    },
    &Profile {
        name: "full-flight",
        actions: &[
            (4, Generator::write),
            (2, Generator::fill_ring),
            (3, Generator::send),
            (2, Generator::fill_flight),
            (2, Generator::cut_off),
            (3, Generator::pop),
            (1, Generator::pop_some),
            (3, Generator::acknowledge),
            (2, Generator::sack),
            (3, Generator::data),
            (2, Generator::abandon),
            (2, Generator::tail),
            (2, Generator::expire),
            (1, Generator::lifetimes),
            (2, Generator::list_expired),
            (1, Generator::mark_all),
            (2, Generator::question),
        ],
        streams: 4,
        payloads: SMALL,
        kinds: ANY_KIND,
        unordered: EITHER,
        last_numbers: None,
        crowd: NO_CROWD,
    },
    &Profile {
        name: "lifetimes",
        actions: LIFETIMES,
        streams: 5,
        payloads: &[1, 3, 10, 100],
        kinds: TIMED,
        unordered: EITHER,
        last_numbers: None,
        crowd: 40,
    },
    &Profile {
        name: "ordered-lifetimes",
        actions: LIFETIMES,
        streams: 3,
        payloads: &[1, 3, 10, 100],
        kinds: TIMED,
        unordered: &[0],
        last_numbers: None,
        crowd: 40,
    },
    &Profile {
        name: "abandoned",
        actions: &[
            (5, Generator::write),
            (5, Generator::send),
            (2, Generator::send_some),
            (3, Generator::half_sent),
            (2, Generator::popped_prefix),
            (1, Generator::cut_off),
            (4, Generator::abandon),
            (3, Generator::acknowledge),
            (2, Generator::sack),
            (4, Generator::data),
            (3, Generator::pop),
            (3, Generator::pop_some),
            (2, Generator::tail),
            (2, Generator::mark_all),
            (3, Generator::list_expired),
            (3, Generator::question),
        ],
        streams: 4,
        payloads: &[2, 10, 50],
        kinds: ANY_KIND,
        unordered: EITHER,
        last_numbers: None,
        crowd: CROWD,
    },
    &Profile {
        name: "streams",
        actions: &[
            (4, Generator::open_any),
            (1, Generator::open_many),
            (1, Generator::nearly_full_buffer),
            (3, Generator::change_reliability),
            (4, Generator::threshold),
            (6, Generator::write),
            (6, Generator::release),
            (2, Generator::send_some),
            (2, Generator::pop_some),
            (2, Generator::question),
        ],
        streams: 20,
        payloads: MIXED,
        kinds: ANY_KIND,
        unordered: EITHER,
        last_numbers: None,
        crowd: CROWD,
    },
    &Profile {
        name: "last-numbers",
        actions: &[
            (6, Generator::write),
            (4, Generator::send),
            (2, Generator::pop_some),
            (1, Generator::expire),
            (1, Generator::tail),
            (1, Generator::lifetimes),
            (1, Generator::abandon),
            (2, Generator::question),
            (1, Generator::fresh_near_the_end),
        ],
        streams: 3,
        payloads: &[1, 10, 1200],
        kinds: ANY_KIND,
        unordered: EITHER,
        last_numbers: Some(30),
        crowd: CROWD,
    },
    &Profile {
        name: "timers",
        actions: &[(8, Generator::timer), (2, Generator::back_off), (2, Generator::counted_expiry)],
        streams: 1,
        payloads: &[1200],
        kinds: &[0],
        unordered: EITHER,
        last_numbers: None,
        crowd: CROWD,
    },
    &Profile {
        name: "estimator",
        actions: &[
            (6, Generator::measure_some),
            (2, Generator::estimate),
            (1, Generator::make_estimator),
            (1, Generator::frozen_estimator),
        ],
        streams: 1,
        payloads: &[1200],
        kinds: &[0],
        unordered: EITHER,
        last_numbers: None,
        crowd: CROWD,
    },
    &Profile {
        name: "limits",
        actions: &[
            (12, Generator::beyond_a_limit),
            (1, Generator::nearly_full_buffer),
            (3, Generator::write),
            (2, Generator::fill_ring),
            (2, Generator::send_some),
            (1, Generator::fill_flight),
            (1, Generator::pop_some),
            (1, Generator::timer),
            (1, Generator::estimate),
        ],
        streams: 3,
        payloads: MIXED,
        kinds: ANY_KIND,
        unordered: EITHER,
        last_numbers: None,
        crowd: NO_CROWD,
    },
    &Profile {
        name: "steady",
        actions: &[
            (6, Generator::write),
            (6, Generator::send),
            (6, Generator::oldest_delivered),
            (2, Generator::sack),
            (2, Generator::data),
            (1, Generator::mark_all),
            (1, Generator::list_expired),
            (1, Generator::question),
            (1, Generator::timer),
            (1, Generator::estimate),
        ],
        streams: 8,
        payloads: &[1200],
        kinds: ANY_KIND,
        unordered: EITHER,
        last_numbers: None,
        crowd: CROWD,
    },
    &Profile {
        name: "sacks",
        actions: &[
            (5, Generator::write),
            (4, Generator::send_some),
            (2, Generator::half_sent),
            (1, Generator::fill_flight),
            (14, Generator::sack),
            (1, Generator::wire),
            (1, Generator::data),
            (2, Generator::acknowledge),
            (1, Generator::pop),
            (2, Generator::abandon),
            (1, Generator::cut_off),
            (1, Generator::tail),
            (1, Generator::mark_all),
            (1, Generator::list_expired),
            (1, Generator::question),
        ],
        streams: 4,
        payloads: SMALL,
        kinds: ANY_KIND,
        unordered: EITHER,
        last_numbers: None,
        crowd: CROWD,
    },
    &Profile {
        name: "data",
        actions: &[
            (1, Generator::fresh_sender),
            (4, Generator::write_lent),
            (2, Generator::send_some),
            (1, Generator::half_sent),
            (18, Generator::data_some),
            (2, Generator::data),
            (4, Generator::lend),
            (1, Generator::memory),
            (1, Generator::wire),
            (1, Generator::seldom_long_data),
            (2, Generator::acknowledge),
            (1, Generator::sack),
            (2, Generator::abandon),
            (1, Generator::cut_off),
            (1, Generator::tail),
            (1, Generator::pop),
            (1, Generator::pop_some),
            (1, Generator::mark_all),
            (1, Generator::question),
        ],
        streams: 5,
        payloads: PADDED,
        kinds: ANY_KIND,
        unordered: EITHER,
        last_numbers: None,
        crowd: CROWD,
    },
    &Profile {
        name: "no-calls",
        actions: &[(4, Generator::no_call), (1, Generator::write), (1, Generator::send), (1, Generator::timer)],
        streams: 3,
        payloads: MIXED,
        kinds: ANY_KIND,
        unordered: EITHER,
        last_numbers: None,
        crowd: CROWD,
    },
];

/// The kind of this name.
pub fn profile(name: &str) -> Option<&'static Profile> {
    PROFILES.into_iter().find(|profile| profile.name == name)
}

// ---- the sender

impl Generator {
    fn open_any(&mut self) {
        if self.random.one_in(3) {
            let sid = self.sid();
            let maximum = self.random.pick(&[0, 1, 65_515, 65_516, 65_535, 65_536, U32_MAX]);
            return self.say(format_args!("open {sid} {maximum}"));
        }
        self.open_stream(MIXED, ANY_KIND, EITHER);
    }

    /// Up to the last place of the table, and one more try of a stream that is open and of one that is not.
    fn open_many(&mut self) {
        for _ in 0..self.random.between(1, 64) {
            self.open_stream(MIXED, ANY_KIND, EITHER);
        }
        let sid = self.sid();
        self.say(format_args!("open {sid} 1200"));
        self.say(format_args!("open 300 1200"));
    }

    fn change_reliability(&mut self) {
        let sid = self.sid();
        self.set_reliability(sid, ANY_KIND, EITHER);
    }

    /// One message that takes all the room of its ring, or all but a little; then some that take the rest.
    fn fill_ring(&mut self) {
        let sid = self.sid();
        let Some((maximum, .., unordered)) = self.oracle.stream(sid) else { return };
        let rings = self.oracle.rings();
        let room = 256 - if unordered { rings.0 } else { rings.1 } as u64;
        let left = self.random.below(3).min(room);
        let length = (maximum * (room - left)).min(65_536);
        let typ = self.random.pick(&[51, 53, 57]);
        self.say(format_args!("write {sid} {typ} 0 {length}"));
        for _ in 0..self.random.below(5) {
            let length = self.random.pick(&[0, 1, maximum, maximum + 1, 2 * maximum]).min(65_536);
            let typ = self.random.pick(&[50, 51, 53]);
            self.say(format_args!("write {sid} {typ} 9 {length}"));
        }
    }

    /// An amount just below its limit, and a write that reaches it or passes it.
    fn nearly_full_buffer(&mut self) {
        let sid = self.sid();
        let rest = self.random.below(4);
        self.say(format_args!("setbuf {sid} {}", U32_MAX - rest));
        let (typ, length) = (self.payload_type(), self.random.pick(&[0, 1, rest, rest + 1, 1200]));
        self.say(format_args!("write {sid} {typ} 0 {length}"));
        if self.random.one_in(2) {
            self.release();
        }
        let bytes = self.random.below(3000);
        self.say(format_args!("setbuf {sid} {bytes}"));
    }

    fn send_times(&mut self, times: u64) {
        let now = self.clock();
        for _ in 0..times {
            self.say(format_args!("send {now}"));
            if self.was_idle() {
                break;
            }
        }
    }

    pub fn send_some(&mut self) {
        let times = self.random.between(2, 20);
        self.send_times(times);
    }

    fn fill_flight(&mut self) {
        self.send_times(256);
    }

    /// All that is pending, as far as the flight takes it.
    pub fn send_all(&mut self) {
        let now = self.now;
        let (unordered, ordered) = self.oracle.rings();
        for _ in 0..unordered + ordered {
            self.say(format_args!("send {now}"));
        }
    }

    /// A message of several fragments of which some are sent, and its prefix sometimes acknowledged and popped.
    fn half_sent(&mut self) {
        let sid = self.sid();
        let Some((maximum, ..)) = self.oracle.stream(sid) else { return };
        let fragments = self.random.between(2, 6);
        let typ = self.payload_type();
        self.say(format_args!("write {sid} {typ} 100 {}", maximum * fragments));
        let times = self.random.between(1, fragments);
        self.send_times(times);
        if self.random.one_in(3) {
            self.oldest_delivered();
        }
    }

    fn acknowledge(&mut self) {
        let tsn = self.tsn();
        for i in 0..self.random.pick(&[1, 1, 1, 2, 5]) {
            self.say(format_args!("ack {}", tsn.wrapping_add(i)));
        }
    }

    fn pop(&mut self) {
        let tsn = self.tsn();
        self.say(format_args!("pop {tsn}"));
    }

    pub fn pop_some(&mut self) {
        let most = self.random.pick(&[3, 10, 10, 40, 40, 256]);
        let times = self.random.between(1, most);
        self.pop_all(times);
    }

    /// From the oldest on, as many as there are, but at most so many.
    fn pop_all(&mut self, most: u64) {
        for _ in 0..most {
            let (Some(oldest), ..) = self.oracle.flight() else { return };
            self.say(format_args!("pop {oldest}"));
        }
    }

    /// What a host does with an acknowledged entry: acknowledge, pop, release.
    fn oldest_delivered(&mut self) {
        let (Some(oldest), ..) = self.oracle.flight() else { return };
        self.say(format_args!("ack {oldest}"));
        self.say(format_args!("pop {oldest}"));
        self.release();
    }

    fn abandon(&mut self) {
        let tsn = self.tsn();
        self.say(format_args!("abandon {tsn}"));
        if self.random.one_in(4) {
            self.say(format_args!("ack {tsn}"));
        }
    }

    fn lifetimes(&mut self) {
        let now = self.clock();
        self.say(format_args!("lifetimes {now}"));
    }

    /// Mostly where the head can expire: it is a first fragment and its lifetime has begun.
    fn expire(&mut self) {
        if !self.random.one_in(4) {
            self.finish_message();
        }
        if self.oracle.head().1.is_none() && self.random.one_in(2) {
            self.lifetimes();
        }
        let now = self.clock_at_the_head();
        self.say(format_args!("expire {now}"));
    }

    /// Sends what is left of the message under way, but not without end.
    fn finish_message(&mut self) {
        let now = self.now;
        for _ in 0..8 {
            if !self.oracle.head().0 || self.was_idle() {
                break;
            }
            self.say(format_args!("send {now}"));
        }
    }

    fn expire_some(&mut self) {
        self.finish_message();
        self.lifetimes();
        let now = self.clock_at_the_head();
        for _ in 0..self.random.between(2, 30) {
            self.say(format_args!("expire {now}"));
            if self.was_idle() {
                break;
            }
        }
    }

    fn tail(&mut self) {
        let now = self.clock_at_the_head();
        self.say(format_args!("tail {now}"));
    }

    /// A message under way of which nothing is in flight any more.
    fn popped_prefix(&mut self) {
        self.half_sent();
        self.pop_all(256);
        if self.random.one_in(2) {
            self.tail();
        }
    }

    /// The message of the newest entry is given up: often one that is under way, sometimes with 255 in flight.
    fn cut_off(&mut self) {
        if self.random.one_in(2) {
            self.fill_flight();
        }
        let (_, _, next) = self.oracle.flight();
        self.say(format_args!("abandon {}", next.wrapping_sub(1)));
        self.send();
    }

    /// The list, and the same with a room that just holds it, or just does not.
    fn list_expired(&mut self) {
        let now = self.clock();
        self.say(format_args!("expired {now}"));
        let digits = self.last_answer().trim_start_matches("n=").split_whitespace().next();
        let Some(length) = digits.and_then(|n| n.parse::<u64>().ok()) else { return };
        let room = match self.random.below(6) {
            0 => length.wrapping_sub(1),
            1 => length / 2,
            2 => length + 1,
            3 => self.random.pick(&[0, 256, u64::MAX]),
            _ => length,
        };
        self.say(format_args!("expired {now} {room}"));
    }

    fn mark_all(&mut self) {
        self.say(format_args!("markall"));
    }

    fn fresh_near_the_end(&mut self) {
        let (tsn, back) = (self.random.below(1 << 32), self.random.below(12));
        self.say(format_args!("sender {tsn} {}", u64::MAX - back));
        for _ in 0..3 {
            self.open_stream(&[1, 10, 1200], ANY_KIND, EITHER);
        }
    }
}

// ---- timers and the estimator

const INTERVALS: &[u64] = &[0, 1, 2, 500, 1000, 3000, 60_000, 1 << 31, U32_MAX - 1, U32_MAX];
const COUNTS: &[u64] = &[0, 1, 2, 5, 6, 7, 8, 9, 10, 11, 29, 30, 31, 32, 33, U32_MAX - 1, U32_MAX];
const MAXIMA: &[&str] = &["-", "0", "1", "2", "8", "10", "4294967294", "4294967295", "18446744073709551615"];
const ROUND_TRIPS: &[u64] = &[4, 100, 2000, 60_000, 1 << 20, U32_MAX];

impl Generator {
    fn timer_clock(&mut self, timer: u64) -> u64 {
        let deadline = self.oracle.timer_deadlines()[timer as usize];
        self.now = match self.random.below(12) {
            0..7 => near(&mut self.random, deadline.unwrap_or(self.now)),
            7 => self.now.saturating_sub(self.random.below(5000)),
            8 => self.random.pick(&[0, CLOCK_MAX, CLOCK_MAX - 1]),
            9 => return self.random.pick(&[CLOCK_MAX, CLOCK_MAX + 1, u64::MAX]),
            _ => self.now + self.random.below(2000),
        };
        self.now = self.now.min(CLOCK_MAX);
        self.now
    }

    fn timer(&mut self) {
        let timer = self.random.below(6);
        let now = self.timer_clock(timer);
        let interval = if self.random.one_in(30) { U32_MAX + 1 } else { self.random.pick(INTERVALS) };
        match self.random.below(40) {
            0 => {
                let (init, data) = (self.random.pick(MAXIMA), self.random.pick(MAXIMA));
                let rto_max = self.random.pick(&[0, 1, 1000, 60_000, 60_000, U32_MAX, U32_MAX + 1, u64::MAX]);
                self.say(format_args!("timers {init} {data} {rto_max}"));
            }
            1..4 => self.say(format_args!("tset {timer} {now}")),
            4 => self.say(format_args!("tset {timer} -")),
            5..11 => self.say(format_args!("tstart {timer} {now} {interval}")),
            11..17 => self.say(format_args!("trestart {timer} {now} {interval}")),
            17 => self.say(format_args!("tstop {timer}")),
            18 => self.say(format_args!("treset {timer}")),
            19..22 => self.say(format_args!("tsuppress {timer}")),
            22..24 => self.say(format_args!("tget {timer}")),
            24..27 => self.say(format_args!("tnext")),
            27..30 => {
                let count = self.random.pick(COUNTS);
                self.say(format_args!("setcount {timer} {count}"));
            }
            _ => self.say(format_args!("texpired {timer} {now}")),
        }
    }

    /// Counts around 31 with intervals that rto_max does not cap.
    fn back_off(&mut self) {
        let (timer, now) = (self.random.below(6), self.now);
        if self.random.one_in(3) {
            self.say(format_args!("timers 8 10 {U32_MAX}"));
        }
        let count = self.random.pick(&[0, 1, 5, 6, 28, 29, 30, 31, 32, 33]);
        let interval = self.random.pick(&[0, 0, 1, 2, 3, 1000, U32_MAX >> (count % 32)]);
        self.say(format_args!("setcount {timer} {count}"));
        self.say(format_args!("tstart {timer} {now} {interval}"));
        self.say(format_args!("tget {timer}"));
    }

    /// An expiry at a maximum or at the last count, sometimes suppressed.
    fn counted_expiry(&mut self) {
        let (timer, now) = (self.random.below(6), self.now);
        let count = self.random.pick(&[0, 1, 7, 8, 9, 10, U32_MAX - 1, U32_MAX]);
        self.say(format_args!("tset {timer} {now}"));
        self.say(format_args!("setcount {timer} {count}"));
        if self.random.one_in(3) {
            self.say(format_args!("tsuppress {timer}"));
        }
        for _ in 0..self.random.between(1, 3) {
            self.say(format_args!("texpired {timer} {now}"));
        }
    }

    fn estimate(&mut self) {
        match self.random.below(30) {
            0 => self.make_estimator(),
            1 => self.say(format_args!("rreset")),
            2 => {
                let rto = self.random.pick(&[0, 1, 1000, 60_000, U32_MAX, U32_MAX + 1, u64::MAX]);
                let no_update = self.random.pick(&[0, 0, 0, 1]);
                self.say(format_args!("setrto {rto} {no_update}"));
            }
            3 => {
                let rtt = self.random.pick(&[0, 1, U32_MAX, U32_MAX + 1, u64::MAX]);
                self.say(format_args!("measure {rtt}"));
            }
            _ => self.measure_some(),
        }
        self.say(format_args!("getrto"));
    }

    fn make_estimator(&mut self) {
        let limits = [0, 1, 100, 1000, 3000, 60_000, U32_MAX];
        let initial = self.random.pick(&limits);
        let (one, other) = (self.random.pick(&limits), self.random.pick(&limits));
        let (mut min, mut max) = (one.min(other), one.max(other));
        match self.random.below(8) {
            0 => (min, max) = (max, min),
            1 => max = U32_MAX + 1,
            2 => (min, max) = (U32_MAX + 1, 5),
            _ => {}
        }
        self.say(format_args!("rto {initial} {min} {max}"));
        if self.random.one_in(3) {
            self.say(format_args!("measure 1"));
            self.say(format_args!("rreset"));
            self.say(format_args!("getrto"));
        }
    }

    /// Nothing changes while `no_update` holds.
    fn frozen_estimator(&mut self) {
        let (rto, rtt) = (self.random.below(90_000), self.random.below(3000));
        self.say(format_args!("setrto {rto} 1"));
        for _ in 0..3 {
            match self.random.below(3) {
                0 => self.say(format_args!("measure {rtt}")),
                1 => self.say(format_args!("rreset")),
                _ => self.say(format_args!("getrto")),
            }
        }
        self.say(format_args!("getrto"));
        self.say(format_args!("setrto {} 0", rto / 2));
    }

    /// Measurements of one size, some of them equal to what is expected: then rttvar falls.
    fn measure_some(&mut self) {
        let size = self.random.pick(ROUND_TRIPS);
        let steady = self.random.one_in(4);
        for _ in 0..self.random.between(1, 25) {
            let rtt = match self.random.below(10) {
                _ if steady => self.oracle.estimate().0,
                0 => 0,
                1 => self.oracle.estimate().0,
                2 => self.oracle.estimate().0.saturating_sub(1),
                _ => self.random.between(0, size),
            };
            self.say(format_args!("measure {}", rtt.min(U32_MAX)));
            if self.random.one_in(2) {
                self.say(format_args!("getrto"));
            }
        }
    }
}

// ---- arguments at limits, and lines that are no calls

impl Generator {
    /// A number at a limit or just beyond it.
    fn at(&mut self, limit: u64) -> u64 {
        match self.random.below(5) {
            0..2 => limit,
            2..4 => limit + 1,
            _ => self.random.pick(&[limit - 1, u64::MAX]),
        }
    }

    fn beyond_a_limit(&mut self) {
        let sid = if self.random.one_in(4) { 9999 } else { self.sid() };
        let clock = self.at(CLOCK_MAX);
        let word = self.at(U32_MAX);
        let timer = self.random.below(6);
        match self.random.below(16) {
            0 => self.say(format_args!("lifetimes {clock}")),
            1 => self.say(format_args!("send {clock}")),
            2 => self.say(format_args!("expire {clock}")),
            3 => self.say(format_args!("tail {clock}")),
            4 => {
                let room = self.random.below(3);
                self.say(format_args!("expired {clock} {room}"));
            }
            5..8 => {
                let (offset, length) = (self.at(U32_MAX), self.at(65_536));
                let (offset, length) = self.random.pick(&[(offset, 1), (0, length), (offset, length)]);
                let typ = self.payload_type();
                self.say(format_args!("write {sid} {typ} {offset} {length}"));
            }
            8 => {
                let maximum = self.at(65_515).min(U32_MAX);
                self.say(format_args!("open {sid} {maximum}"));
            }
            9 => self.say(format_args!("tset {timer} {clock}")),
            10 => self.say(format_args!("tstart {timer} {clock} 5")),
            11 => {
                let now = self.now;
                self.say(format_args!("trestart {timer} {now} {word}"));
            }
            12 => self.say(format_args!("texpired {timer} {clock}")),
            13 => self.say(format_args!("timers - 3 {word}")),
            14 => {
                let (min, max) = (self.at(U32_MAX), self.at(U32_MAX));
                self.say(format_args!("rto {word} {min} {max}"));
            }
            _ => self.say(format_args!("measure {word}")),
        }
    }

    /// Lines that are no calls, or calls written in an unusual way.
    fn no_call(&mut self) {
        let sid = self.sid();
        let now = self.now;
        match self.random.below(41) {
            0 => self.say(format_args!("send")),
            1 => self.say(format_args!("send {now} 1")),
            2 => self.say(format_args!("send +{now}")),
            3 => self.say(format_args!("send -{now}")),
            4 => self.say(format_args!("Send {now}")),
            5 => self.say(format_args!("send {now}x")),
            6 => self.say(format_args!("send 0x{now}")),
            7 => self.say(format_args!("send 18446744073709551616")),
            8 => self.say(format_args!("send 99999999999999999999999")),
            9 => self.say(format_args!("open 65536 1200")),
            10 => self.say(format_args!("open {sid} 4294967296")),
            11 => self.say(format_args!("ack 4294967296")),
            12 => self.say(format_args!("released {sid} 9223372036854775808")),
            13 => self.say(format_args!("released {sid} -9223372036854775809")),
            14 => self.say(format_args!("released {sid} -")),
            15 => self.say(format_args!("released {sid} --1")),
            16 => self.say(format_args!("tget 6")),
            17 => self.say(format_args!("tset 1 --")),
            18 => self.say(format_args!("rel {sid} 256 0 0")),
            19 => self.say(format_args!("rel {sid} 0 256 0")),
            20 => self.say(format_args!("state x")),
            21 => self.say(format_args!("tstart 0 {} x", CLOCK_MAX + 1)),
            22 => self.say(format_args!("timers - - -")),
            23 => self.say(format_args!("\tsend  \t{now}  \r")),
            24 => self.say(format_args!("write {sid} 53 0 00000000000000000000000007#8")),
            25 => self.say(format_args!("released {sid} -0")),
            26 => self.say(format_args!("rel {sid} 255 2 1")),
            27 => self.say(format_args!("expired {now} 1 1")),
            28 => self.say(format_args!("# a comment")),
            29 => self.say(format_args!("put 0 0 {now}")),
            30 => self.say(format_args!("put 0 9 {now}")),
            31 => self.say(format_args!("put {now} 1")),
            32 => self.say(format_args!("wipe 256")),
            33 => self.say(format_args!("look {now}")),
            34 => self.say(format_args!("sack -")),
            35 => self.say(format_args!("data {now}")),
            36 => self.say(format_args!("data 4294967296 {now}")),
            37 => self.say(format_args!("fill 256")),
            38 => self.say(format_args!("lend -1")),
            39 => self.say(format_args!("read {now}")),
            _ => self.say(format_args!("")),
        }
    }
}
