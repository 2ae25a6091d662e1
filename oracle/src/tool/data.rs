//! DATA chunks as lines: entries are written with room enough, just enough and too little, and with the memory lent up to
//! their last byte, to the one before it, and not at all.

use crate::generator::{Generator, U32_MAX};
use crate::profiles::PADDED;

/// The bytes of the wire, and of the memory; and how many of these are usually lent.
const BYTES: u64 = 65_544;
const LENT: u64 = 65_536;
/// The longest fragment.
pub const LONGEST: u64 = 65_515;
/// The bytes before the payload.
const HEADER: u64 = 16;

impl Generator {
    /// The script's bytes anew: it depends on no script before it.
    pub fn fresh_bytes(&mut self) {
        let (byte, seed) = (self.random.between(1, 255), self.random.below(256));
        self.say(format_args!("wipe {byte}"));
        self.say(format_args!("fill {seed}"));
        self.say(format_args!("lend {LENT}"));
    }

    /// A message whose bytes the memory has, mostly; often its last ones are the message's.
    pub fn write_lent(&mut self) {
        let sid = self.sid();
        let typ = if self.random.one_in(12) { self.random.any() as u32 } else { self.payload_type() };
        let length = self.length(sid, typ == 50);
        let offset = match self.random.below(24) {
            0..3 => 0,
            3..6 => LENT.saturating_sub(length),
            6 => BYTES.saturating_sub(length),
            7 => (BYTES + 1).saturating_sub(length),
            // The last byte's place does not fit 32 bits, and would be small there.
            8 => U32_MAX - self.random.below(length.clamp(1, 40)),
            9 => self.offset(),
            _ => self.random.below(LENT.saturating_sub(length) + 1),
        };
        self.say(format_args!("write {sid} {typ} {offset} {length}"));
    }

    /// One entry or some beside each other, mostly from one on that has bytes.
    pub fn data(&mut self) {
        let tsn = if self.random.one_in(8) { self.tsn() } else { self.live_tsn() };
        if self.oracle.held(tsn).is_none() && !self.random.one_in(4) {
            return;
        }
        for i in 0..self.random.pick(&[1, 1, 1, 2, 4]) {
            self.data_of(tsn.wrapping_add(i));
        }
    }

    /// From an entry on, in the order of the flight; where none is found that has bytes, some are sent first.
    pub fn data_some(&mut self) {
        let mut tsn = self.live_tsn();
        if self.oracle.held(tsn).is_none() {
            self.write_lent();
            self.send_some();
            tsn = self.live_tsn();
        }
        let (_, _, next) = self.oracle.flight();
        for _ in 0..self.random.between(4, 80).min(next.wrapping_sub(tsn).into()) {
            if self.oracle.held(tsn).is_some() || self.random.one_in(8) {
                self.data_of(tsn);
            }
            tsn = tsn.wrapping_add(1);
        }
    }

    /// The memory is lent up to an entry's end, just not so far, or in another way; the entry is written, and others too.
    pub fn lend(&mut self) {
        let tsn = self.live_tsn();
        let end = self.oracle.held(tsn).map_or(LENT, |(offset, length)| offset + length);
        let lent = match self.random.below(12) {
            0..4 => end,
            4..7 => end - 1,
            7 => end + 1,
            8 => 0,
            9 => self.random.below(BYTES),
            _ => self.random.pick(&[LENT - 1, BYTES - 1, BYTES, BYTES + 1, 1 << 32, u64::MAX]),
        };
        self.say(format_args!("lend {lent}"));
        self.data_of(tsn);
        if self.random.one_in(2) {
            self.data();
        }
        if !self.random.one_in(12) {
            let lent = self.random.pick(&[LENT, LENT, LENT, LENT, BYTES, 1 << 32, u64::MAX]);
            self.say(format_args!("lend {lent}"));
        }
    }

    /// A fresh sender, which touches neither the wire nor the memory, nor how much of it is lent.
    pub fn fresh_sender(&mut self) {
        let (tsn, lent) = (self.first_tsn(), self.random.pick(&[1000, LENT - 1, BYTES, BYTES]));
        self.say(format_args!("lend {lent}"));
        self.say(format_args!("sender {tsn} 0"));
        for _ in 0..3 {
            self.open_stream(PADDED, &[0], &[0, 1]);
        }
        self.data_some();
        self.say(format_args!("look 0 48"));
        self.say(format_args!("lend {LENT}"));
    }

    /// The memory itself, at its ends and beyond them; and the wire, anew.
    pub fn memory(&mut self) {
        let at = match self.random.below(4) {
            0 => self.random.pick(&[0, LENT, BYTES - 1, BYTES, BYTES + 1, u64::MAX]),
            1 => BYTES - self.random.below(12),
            _ => self.random.below(BYTES),
        };
        match self.random.below(8) {
            0 => {
                let seed = self.random.below(256);
                self.say(format_args!("fill {seed}"));
            }
            1 => {
                let byte = self.random.below(256);
                self.say(format_args!("wipe {byte}"));
            }
            _ => {
                let bytes = if at > BYTES - 40 { self.random.pick(&[8, u64::MAX]) } else { self.random.below(24) };
                self.say(format_args!("read {at} {bytes}"));
            }
        }
    }

    /// Now and then, a fragment of the greatest length.
    pub fn seldom_long_data(&mut self) {
        if self.random.one_in(16) {
            self.send_all();
            self.say(format_args!("open 600 {LONGEST}"));
            self.long_data(600);
        }
    }

    /// A fragment of about the greatest length, alone or with a short one behind it. It is acknowledged at once: its bytes
    /// make long answers.
    pub fn long_data(&mut self, sid: u16) {
        let length = self.random.pick(&[LONGEST, LONGEST, LONGEST - 1, LONGEST - 2, LONGEST - 3, LONGEST + 1, 65_536]);
        let offset = self.random.pick(&[0, 1, LENT - length, BYTES - length]);
        let typ = self.payload_type();
        let (_, _, tsn) = self.oracle.flight();
        self.say(format_args!("write {sid} {typ} {offset} {length}"));
        self.send_all();
        let first = length.min(LONGEST);
        let whole = HEADER + first.next_multiple_of(4);
        let end = offset + first;
        self.say(format_args!("lend {}", end - 1));
        self.say(format_args!("data {tsn} {whole}"));
        self.say(format_args!("lend {end}"));
        self.say(format_args!("data {tsn} {}", whole - 1));
        self.say(format_args!("data {tsn} {whole}"));
        self.say(format_args!("lend {BYTES}"));
        self.data_of(tsn.wrapping_add(1));
        self.say(format_args!("ack {tsn}"));
        self.say(format_args!("data {tsn} {BYTES}"));
        self.say(format_args!("lend {LENT}"));
    }

    /// An entry that has bytes, where a few tries find one.
    fn live_tsn(&mut self) -> u32 {
        let mut tsn = self.tsn();
        for _ in 0..5 {
            if self.oracle.held(tsn).is_some() {
                break;
            }
            tsn = self.tsn();
        }
        tsn
    }

    /// A refusal leaves the wire: that is looked at.
    pub fn data_of(&mut self, tsn: u32) {
        let room = self.room_of(tsn);
        self.say(format_args!("data {tsn} {room}"));
        if self.was_idle() && self.random.one_in(4) {
            let bytes = self.random.below(48);
            self.say(format_args!("look 0 {bytes}"));
        }
    }

    fn room_of(&mut self, tsn: u32) -> u64 {
        let length = match self.oracle.held(tsn) {
            Some((_, length)) => length,
            None => self.random.below(20),
        };
        let whole = HEADER + length.next_multiple_of(4);
        match self.random.below(30) {
            0..12 => whole,
            12..20 => whole + self.random.between(1, 12),
            20..22 => BYTES,
            22..24 => self.random.pick(&[LENT, BYTES - 1, BYTES + 1, 1 << 32, u64::MAX]),
            24..26 => whole - 1,
            // Room for the payload, which is too little where padding stands behind it.
            26 => HEADER + length,
            27 => HEADER + length - 1,
            28 => self.random.below(whole),
            _ => self.random.pick(&[0, 1, 4, 12, 15, 16, 17, 20]),
        }
    }
}
