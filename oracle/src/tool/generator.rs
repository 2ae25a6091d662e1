//! Scripts from a seed. The oracle itself runs beside the making, so that calls can be aimed:
//! at deadlines, at the ends of the flight, at a ring's or a threshold's last byte.

use sctp_proto::Endpoint as Oracle;
use std::fmt::{Arguments, Write};

use crate::random::Random;

pub const CLOCK_MAX: u64 = 1 << 40;
pub const U32_MAX: u64 = u32::MAX as u64;
const RING: u64 = 256;
/// More than rings and flight can hold.
pub const NO_CROWD: usize = 1000;
/// Lines of `state` that are written for nothing but the calls since the last.
const STATE_EVERY: usize = 30;

pub struct Script {
    pub name: &'static str,
    pub text: String,
}

/// What a script does, and how often.
pub struct Profile {
    pub name: &'static str,
    /// Each with its weight.
    pub actions: &'static [(u64, Action)],
    /// Streams opened at the start, at most.
    pub streams: u64,
    pub payloads: &'static [u64],
    /// Reliability kinds; 2 is Timed.
    pub kinds: &'static [u8],
    /// Whether streams are unordered: 0, 1, or either.
    pub unordered: &'static [u8],
    /// First message number, counted back from the last one; None for any.
    pub last_numbers: Option<u64>,
    /// Chunks pending and in flight above which some are sent and popped, so that things go on.
    pub crowd: usize,
}

pub type Action = fn(&mut Generator);

pub struct Generator {
    pub random: Random,
    pub oracle: Oracle,
    pub now: u64,
    /// Whether messages often take all the room of their ring.
    crowded: bool,
    text: String,
    calls: usize,
    since_state: usize,
    scratch: String,
}

/// Number `number` of the scripts that belong to a seed: about `calls` calls.
pub fn script(seed: u64, number: u64, profiles: &[&'static Profile], calls: usize) -> Script {
    let mut g = Generator::new(Random::new(seed, number));
    let profile = profiles[(number % profiles.len() as u64) as usize];
    g.begin(profile);
    g.go_on(profile, calls);
    Script { name: profile.name, text: g.finish() }
}

impl Generator {
    pub fn new(random: Random) -> Self {
        Generator {
            random,
            oracle: Oracle::new(),
            now: 0,
            crowded: false,
            text: String::new(),
            calls: 0,
            since_state: 0,
            scratch: String::new(),
        }
    }

    /// Everything fresh: a script depends on none before it.
    pub fn begin(&mut self, profile: &Profile) {
        self.now = self.random.pick(&[0, 1, 1000, 1 << 32, CLOCK_MAX - 300]);
        let (tsn, number) = (self.first_tsn(), self.first_number(profile.last_numbers));
        self.say(format_args!("sender {tsn} {number}"));
        self.say(format_args!("timers 8 10 60000"));
        self.say(format_args!("rto 3000 1000 60000"));
        self.fresh_bytes();
        for _ in 0..self.random.between(1, profile.streams.max(1)) {
            self.open_stream(profile.payloads, profile.kinds, profile.unordered);
        }
    }

    pub fn go_on(&mut self, profile: &Profile, calls: usize) {
        self.crowded = profile.crowd >= NO_CROWD;
        let weights: u64 = profile.actions.iter().map(|(weight, _)| weight).sum();
        while self.calls < calls {
            let mut left = self.random.below(weights);
            let chosen = profile.actions.iter().find(|(weight, _)| {
                let here = left < *weight;
                left = left.wrapping_sub(*weight);
                here
            });
            chosen.expect("the weights sum up").1(self);
            self.relieve(profile.crowd);
            self.state_if_due();
        }
    }

    fn relieve(&mut self, crowd: usize) {
        let (unordered, ordered) = self.oracle.rings();
        if unordered + ordered > crowd && self.random.one_in(2) {
            self.send_some();
        }
        if self.oracle.flight().1 > crowd && self.random.one_in(2) {
            self.pop_some();
        }
    }

    pub fn finish(mut self) -> String {
        self.say(format_args!("state"));
        self.text
    }

    /// Adds a line and runs it.
    pub fn say(&mut self, line: Arguments<'_>) {
        let start = self.text.len();
        writeln!(self.text, "{line}").expect("a String takes what is written");
        self.scratch.clear();
        let written = &self.text.as_bytes()[start..self.text.len() - 1];
        if !written.starts_with(b"state") {
            self.oracle.line(written, &mut self.scratch);
        }
        self.calls += 1;
        self.since_state += 1;
    }

    pub fn made(&self) -> usize {
        self.calls
    }

    pub fn last_answer(&self) -> &str {
        &self.scratch
    }

    /// Whether the last call was answered with nothing, or refused.
    pub fn was_idle(&self) -> bool {
        self.scratch == "none\n" || self.scratch.starts_with('R')
    }

    /// The whole state, as often as its length allows.
    fn state_if_due(&mut self) {
        let (unordered, ordered) = self.oracle.rings();
        let lines = unordered + ordered + self.oracle.flight().1 + self.oracle.open().len();
        if self.since_state >= STATE_EVERY + lines {
            let parts = self.random.pick(&["", "", " s", " t", " r", " st", " sr", " tr", " str"]);
            self.say(format_args!("state{parts}"));
            self.since_state = 0;
        }
    }

    // ---- arguments

    pub fn first_tsn(&mut self) -> u64 {
        match self.random.below(4) {
            0 => self.random.pick(&[0, 1, U32_MAX, U32_MAX - 1, 1 << 31, (1 << 31) - 1]),
            1 => U32_MAX - self.random.below(300),
            2 => (1 << 31) - self.random.below(300),
            _ => self.random.below(1 << 32),
        }
    }

    fn first_number(&mut self, last: Option<u64>) -> u64 {
        match last {
            Some(last) => u64::MAX - self.random.below(last + 1),
            None => self.random.pick(&[0, 0, 1, U32_MAX, 1 << 32, (1 << 63) - 1, 1 << 63, 7_000_000_000]),
        }
    }

    /// A clock, mostly one that may be used: near the last one, or exactly at a deadline.
    pub fn clock(&mut self) -> u64 {
        let (_, head) = self.oracle.head();
        self.now = match self.random.below(100) {
            0..55 => self.now + self.random.below(4),
            55..70 => near(&mut self.random, head.unwrap_or(self.now)),
            70..85 => {
                let deadlines = self.oracle.flight_deadlines();
                let aim = if deadlines.is_empty() { self.now } else { self.random.pick(&deadlines) };
                near(&mut self.random, aim)
            }
            85..92 => self.now.saturating_sub(self.random.below(60)),
            92..95 => self.now + self.random.below(100_000),
            95 => self.random.pick(&[0, CLOCK_MAX, CLOCK_MAX - 1]),
            96 => return self.random.pick(&[CLOCK_MAX + 1, u64::MAX, 1 << 63, CLOCK_MAX + 2]),
            _ => self.now,
        };
        self.now = self.now.min(CLOCK_MAX);
        self.now
    }

    /// A clock at the deadline of the chunk that is sent next, or beside it. The script's time stays: it goes back then.
    pub fn clock_at_the_head(&mut self) -> u64 {
        match self.oracle.head().1 {
            Some(deadline) if !self.random.one_in(4) => near(&mut self.random, deadline).min(CLOCK_MAX),
            _ => self.clock(),
        }
    }

    /// A TSN: in flight, at its ends, beside them, or any.
    pub fn tsn(&mut self) -> u32 {
        let (oldest, entries, next) = self.oracle.flight();
        let oldest = oldest.unwrap_or(next);
        match self.random.below(20) {
            0..6 => oldest,
            6..9 => next.wrapping_sub(1),
            9 => oldest.wrapping_sub(1),
            10 => next,
            11 => self.random.any() as u32,
            12 => self.random.pick(&[0, u32::MAX]),
            _ => oldest.wrapping_add(self.random.below(entries.max(1) as u64) as u32),
        }
    }

    /// A stream, mostly an open one.
    pub fn sid(&mut self) -> u16 {
        if self.oracle.open().is_empty() || self.random.one_in(40) {
            return self.random.pick(&[0, 1, 2, 3, 77, u16::MAX]);
        }
        self.random.pick(self.oracle.open())
    }

    pub fn payload_type(&mut self) -> u32 {
        match self.random.below(12) {
            0..2 => 50,
            2 => self.random.pick(&[56, 57]),
            3 => self.random.pick(&[0, 1, 49, 52, 54, 55, 58, 59, u32::MAX]),
            _ => self.random.pick(&[51, 53]),
        }
    }

    pub fn offset(&mut self) -> u64 {
        match self.random.below(60) {
            0 => self.random.pick(&[U32_MAX + 1, u64::MAX]),
            1..4 => self.random.pick(&[U32_MAX, U32_MAX - 1]),
            4..30 => self.random.below(1 << 32),
            _ => self.random.below(3000),
        }
    }

    /// A length for a message on this stream: by its fragments, by its ring's room, by its thresholds.
    pub fn length(&mut self, sid: u16, dcep: bool) -> u64 {
        let (maximum, buffered, low, high, unordered) = self.oracle.stream(sid).unwrap_or((1200, 0, 0, 0, false));
        let rings = self.oracle.rings();
        let used = if unordered && !dcep { rings.0 } else { rings.1 };
        let room = RING - used as u64;
        let fragments = self.random.between(1, 6);
        let length = match self.random.below(40) {
            14..18 if !self.crowded && !self.random.one_in(8) => maximum * fragments,
            0..2 => 0,
            2..5 => 1,
            5..8 => maximum * fragments,
            8..11 => maximum * fragments + 1,
            11..14 => maximum * fragments - 1,
            14 => maximum * room,
            15 => maximum * room + 1,
            16 => (maximum * room).saturating_sub(self.random.below(maximum)),
            17 => maximum * (room / 2),
            18..21 => high.saturating_sub(buffered),
            21 => high.saturating_sub(buffered).saturating_sub(1),
            22 => low.saturating_sub(buffered),
            23 => return self.random.pick(&[65_536, 65_537, 65_535, u64::MAX, 65_538, 1 << 32]),
            _ => self.random.below(maximum * fragments + 1),
        };
        // Long messages are rare: the Rust copies them.
        let bound = if self.random.one_in(30) { 65_536 } else { 6000.max(maximum.min(2000) * 3) };
        if length > bound { length % (bound + 1) } else { length }
    }

    // ---- actions on the sender

    pub fn open_stream(&mut self, payloads: &[u64], kinds: &[u8], unordered: &[u8]) {
        let sid = match self.random.below(8) {
            0 => self.random.pick(&[0, u16::MAX]),
            _ => self.random.below(200) as u16,
        };
        let maximum = self.random.pick(payloads);
        self.say(format_args!("open {sid} {maximum}"));
        self.set_reliability(sid, kinds, unordered);
    }

    pub fn set_reliability(&mut self, sid: u16, kinds: &[u8], unordered: &[u8]) {
        let (kind, unordered) = (self.random.pick(kinds), self.random.pick(unordered));
        let value = self.random.pick(&[0, 1, 2, 3, 5, 8, 20, 100, 1000, U32_MAX]);
        self.say(format_args!("rel {sid} {unordered} {kind} {value}"));
    }

    pub fn write(&mut self) {
        let sid = self.sid();
        let typ = self.payload_type();
        let (offset, length) = (self.offset(), self.length(sid, typ == 50));
        self.say(format_args!("write {sid} {typ} {offset} {length}"));
    }

    pub fn send(&mut self) {
        let now = self.clock();
        self.say(format_args!("send {now}"));
    }

    pub fn threshold(&mut self) {
        let sid = self.sid();
        let (maximum, buffered, ..) = self.oracle.stream(sid).unwrap_or_default();
        let amounts = [0, 1, buffered, buffered.saturating_sub(1), buffered + 1, buffered + maximum, buffered / 2];
        let value =
            if self.random.one_in(10) { self.random.pick(&[u64::MAX, 1 << 63]) } else { self.random.pick(&amounts) };
        let which = self.random.pick(&["low", "high", "high"]);
        self.say(format_args!("{which} {sid} {value}"));
    }

    pub fn release(&mut self) {
        let sid = self.sid();
        let (maximum, buffered, low, high, _) = self.oracle.stream(sid).unwrap_or_default();
        let amounts = [
            1,
            maximum,
            buffered,
            buffered + 1,
            buffered.saturating_sub(low),
            buffered.saturating_sub(low).saturating_sub(1),
            buffered.saturating_sub(low) + 1,
            buffered.saturating_sub(high) + 1,
            buffered / 2,
        ];
        match self.random.below(12) {
            0 => {
                let bytes = self.random.pick(&[0, -1, i64::MIN, i64::MAX, -1_000_000]);
                self.say(format_args!("released {sid} {bytes}"));
            }
            _ => {
                let bytes = self.random.pick(&amounts);
                self.say(format_args!("released {sid} {bytes}"));
            }
        }
    }

    pub fn question(&mut self) {
        let (tsn, sid) = (self.tsn(), self.sid());
        match self.random.below(12) {
            0..2 => self.say(format_args!("get {tsn}")),
            2 => self.say(format_args!("isab {tsn}")),
            3 => self.say(format_args!("peek")),
            4 => self.say(format_args!("haspend {sid}")),
            5 => self.say(format_args!("has {sid}")),
            6..8 => self.say(format_args!("counts")),
            8 => self.say(format_args!("nextmsg")),
            9 => self.say(format_args!("nexttsn")),
            10 => self.say(format_args!("earliest")),
            _ => self.say(format_args!("stream {sid}")),
        }
    }
}

/// A time at, just before or just after another.
pub fn near(random: &mut Random, time: u64) -> u64 {
    match random.below(4) {
        0 => time.saturating_sub(1),
        1 => time.saturating_add(1),
        _ => time,
    }
}
