//! The script's language: a line of bytes is a call, or nothing, or bad. README.md has the rule.
//! The whole line is read before anything is done, so `bad` comes before every refusal.

use crate::association::timer::Timer;

/// What a line says.
pub(super) enum Line {
    Blank,
    Bad,
    Call(Call),
}

/// Which parts `state` shows.
#[derive(Clone, Copy)]
pub(super) struct Parts {
    pub(super) sender: bool,
    pub(super) timers: bool,
    pub(super) rto: bool,
}

#[derive(Clone, Copy)]
pub(super) enum Call {
    Sender {
        tsn: u32,
        msg: u64,
    },
    Open {
        sid: u16,
        maximum: u32,
    },
    Reliability {
        sid: u16,
        unordered: bool,
        kind: u8,
        value: u32,
    },
    Low {
        sid: u16,
        threshold: u64,
    },
    High {
        sid: u16,
        threshold: u64,
    },
    Write {
        sid: u16,
        typ: u32,
        off: u64,
        len: u64,
    },
    Released {
        sid: u16,
        bytes: i64,
    },
    Lifetimes {
        now: u64,
    },
    Send {
        now: u64,
    },
    Expire {
        now: u64,
    },
    Tail {
        now: u64,
    },
    Abandon {
        tsn: u32,
    },
    Expired {
        now: u64,
        room: Option<u64>,
    },
    MarkAll,
    Ack {
        tsn: u32,
    },
    Pop {
        tsn: u32,
    },
    Get {
        tsn: u32,
    },
    Peek,
    IsAbandoned {
        tsn: u32,
    },
    HasPending {
        sid: u16,
    },
    Has {
        sid: u16,
    },
    Counts,
    NextMessage,
    NextTsn,
    Earliest,
    /// A poke: refusal 7 would take 65,536 writes.
    SetBuffered {
        sid: u16,
        bytes: u32,
    },
    Stream {
        sid: u16,
    },
    Timers {
        init: Option<u64>,
        data: Option<u64>,
        rto_max: u64,
    },
    TimerSet {
        timer: Timer,
        deadline: Option<u64>,
    },
    TimerStart {
        timer: Timer,
        now: u64,
        interval: u64,
    },
    TimerRestart {
        timer: Timer,
        now: u64,
        interval: u64,
    },
    TimerStop {
        timer: Timer,
    },
    TimerReset {
        timer: Timer,
    },
    TimerSuppress {
        timer: Timer,
    },
    TimerGet {
        timer: Timer,
    },
    TimerNext,
    TimerExpired {
        timer: Timer,
        now: u64,
    },
    /// A poke: refusal 12 would take 2^32 calls.
    TimerCount {
        timer: Timer,
        count: u32,
    },
    Rto {
        initial: u64,
        min: u64,
        max: u64,
    },
    Measure {
        rtt: u64,
    },
    RtoReset,
    RtoSet {
        rto: u64,
        no_update: bool,
    },
    RtoGet,
    State {
        parts: Parts,
    },
    // The wire and the memory: bytes of the script, which it lends to the calls that read and write bytes.
    Wipe {
        byte: u8,
    },
    Put {
        at: u64,
        width: usize,
        value: u64,
    },
    Look {
        at: u64,
        bytes: u64,
    },
    Sack {
        bytes: u64,
    },
    Fill {
        seed: u8,
    },
    Lend {
        bytes: u64,
    },
    Read {
        at: u64,
        bytes: u64,
    },
    Data {
        tsn: u32,
        room: u64,
    },
    // The oracle's own: `replay` answers them with `bad`.
    Mode {
        guard: bool,
    },
    Capacity {
        ring: usize,
        flight: usize,
        message: u32,
    },
    Touch {
        tsn: u32,
        now: u64,
    },
    Wire {
        tsn: u32,
    },
    SetSsn {
        sid: u16,
        ssn: u16,
    },
    SetStatistics {
        sid: u16,
        messages: u64,
        bytes: u64,
    },
}

pub(super) fn read(line: &[u8]) -> Line {
    let code = line.split(|&b| b == b'#').next().unwrap_or(&[]);
    let mut words = Words { rest: code };
    let Some(name) = words.next() else {
        return Line::Blank;
    };
    match call(name, &mut words) {
        Some(call) if words.next().is_none() => Line::Call(call),
        _ => Line::Bad,
    }
}

/// None where the name is unknown, or an argument is missing or not of its type.
fn call(name: &[u8], w: &mut Words<'_>) -> Option<Call> {
    Some(match name {
        b"sender" => Call::Sender { tsn: w.number()?, msg: w.number()? },
        b"open" => Call::Open { sid: w.number()?, maximum: w.number()? },
        b"rel" => Call::Reliability { sid: w.number()?, unordered: w.flag()?, kind: w.number()?, value: w.number()? },
        b"low" => Call::Low { sid: w.number()?, threshold: w.number()? },
        b"high" => Call::High { sid: w.number()?, threshold: w.number()? },
        b"write" => Call::Write { sid: w.number()?, typ: w.number()?, off: w.number()?, len: w.number()? },
        b"released" => Call::Released { sid: w.number()?, bytes: w.signed()? },
        b"lifetimes" => Call::Lifetimes { now: w.number()? },
        b"send" => Call::Send { now: w.number()? },
        b"expire" => Call::Expire { now: w.number()? },
        b"tail" => Call::Tail { now: w.number()? },
        b"abandon" => Call::Abandon { tsn: w.number()? },
        b"expired" => Call::Expired { now: w.number()?, room: w.number_if_any()? },
        b"markall" => Call::MarkAll,
        b"ack" => Call::Ack { tsn: w.number()? },
        b"pop" => Call::Pop { tsn: w.number()? },
        b"get" => Call::Get { tsn: w.number()? },
        b"peek" => Call::Peek,
        b"isab" => Call::IsAbandoned { tsn: w.number()? },
        b"haspend" => Call::HasPending { sid: w.number()? },
        b"has" => Call::Has { sid: w.number()? },
        b"counts" => Call::Counts,
        b"nextmsg" => Call::NextMessage,
        b"nexttsn" => Call::NextTsn,
        b"earliest" => Call::Earliest,
        b"setbuf" => Call::SetBuffered { sid: w.number()?, bytes: w.number()? },
        b"stream" => Call::Stream { sid: w.number()? },
        b"timers" => Call::Timers { init: w.maybe()?, data: w.maybe()?, rto_max: w.number()? },
        b"tset" => Call::TimerSet { timer: w.timer()?, deadline: w.maybe()? },
        b"tstart" => Call::TimerStart { timer: w.timer()?, now: w.number()?, interval: w.number()? },
        b"trestart" => Call::TimerRestart { timer: w.timer()?, now: w.number()?, interval: w.number()? },
        b"tstop" => Call::TimerStop { timer: w.timer()? },
        b"treset" => Call::TimerReset { timer: w.timer()? },
        b"tsuppress" => Call::TimerSuppress { timer: w.timer()? },
        b"tget" => Call::TimerGet { timer: w.timer()? },
        b"tnext" => Call::TimerNext,
        b"texpired" => Call::TimerExpired { timer: w.timer()?, now: w.number()? },
        b"setcount" => Call::TimerCount { timer: w.timer()?, count: w.number()? },
        b"rto" => Call::Rto { initial: w.number()?, min: w.number()?, max: w.number()? },
        b"measure" => Call::Measure { rtt: w.number()? },
        b"rreset" => Call::RtoReset,
        b"setrto" => Call::RtoSet { rto: w.number()?, no_update: w.flag()? },
        b"getrto" => Call::RtoGet,
        b"state" => Call::State { parts: w.parts()? },
        b"wipe" => Call::Wipe { byte: w.number()? },
        b"put" => Call::Put { at: w.number()?, width: w.width()?, value: w.number()? },
        b"look" => Call::Look { at: w.number()?, bytes: w.number()? },
        b"sack" => Call::Sack { bytes: w.number()? },
        b"fill" => Call::Fill { seed: w.number()? },
        b"lend" => Call::Lend { bytes: w.number()? },
        b"read" => Call::Read { at: w.number()?, bytes: w.number()? },
        b"data" => Call::Data { tsn: w.number()?, room: w.number()? },
        b"mode" => Call::Mode { guard: w.guard()? },
        b"cap" => Call::Capacity { ring: w.number()?, flight: w.number()?, message: w.number()? },
        b"touch" => Call::Touch { tsn: w.number()?, now: w.number()? },
        b"wire" => Call::Wire { tsn: w.number()? },
        b"setssn" => Call::SetSsn { sid: w.number()?, ssn: w.number()? },
        b"setstats" => Call::SetStatistics { sid: w.number()?, messages: w.number()?, bytes: w.number()? },
        _ => return None,
    })
}

/// The words of a line that have not been read yet.
struct Words<'a> {
    rest: &'a [u8],
}

impl<'a> Words<'a> {
    fn next(&mut self) -> Option<&'a [u8]> {
        let blank = |b: &u8| matches!(b, b' ' | b'\t' | b'\r');
        let start = self.rest.iter().position(|b| !blank(b))?;
        let word = &self.rest[start..];
        let end = word.iter().position(blank).unwrap_or(word.len());
        self.rest = &word[end..];
        Some(&word[..end])
    }

    fn number<T: TryFrom<u64>>(&mut self) -> Option<T> {
        T::try_from(decimal(self.next()?)?).ok()
    }

    fn number_if_any(&mut self) -> Option<Option<u64>> {
        match self.next() {
            None => Some(None),
            Some(word) => decimal(word).map(Some),
        }
    }

    fn maybe(&mut self) -> Option<Option<u64>> {
        match self.next()? {
            b"-" => Some(None),
            word => decimal(word).map(Some),
        }
    }

    fn signed(&mut self) -> Option<i64> {
        match self.next()? {
            [b'-', digits @ ..] => 0i64.checked_sub_unsigned(decimal(digits)?),
            digits => decimal(digits)?.try_into().ok(),
        }
    }

    fn flag(&mut self) -> Option<bool> {
        self.number::<u8>().map(|n| n != 0)
    }

    /// How many bytes of a number are meant.
    fn width(&mut self) -> Option<usize> {
        self.number().filter(|width| (1..=8).contains(width))
    }

    fn timer(&mut self) -> Option<Timer> {
        Timer::VALUES.get(self.number::<u8>()? as usize).copied()
    }

    fn parts(&mut self) -> Option<Parts> {
        let Some(word) = self.next() else {
            return Some(Parts { sender: true, timers: true, rto: true });
        };
        let shown = matches!(word, b"s" | b"t" | b"r" | b"st" | b"sr" | b"tr" | b"str");
        shown.then(|| Parts { sender: word.contains(&b's'), timers: word.contains(&b't'), rto: word.contains(&b'r') })
    }

    fn guard(&mut self) -> Option<bool> {
        match self.next()? {
            b"guard" => Some(true),
            b"raw" => Some(false),
            _ => None,
        }
    }
}

/// One or more decimal digits whose value fits; leading zeros are allowed.
fn decimal(word: &[u8]) -> Option<u64> {
    if word.is_empty() {
        return None;
    }
    word.iter().try_fold(0u64, |value, byte| {
        let digit = byte.is_ascii_digit().then(|| u64::from(byte - b'0'))?;
        value.checked_mul(10)?.checked_add(digit)
    })
}

#[cfg(test)]
mod tests {
    use super::{Line, read};

    #[test]
    fn calls() {
        for line in [
            "send 0",
            "\t send\t007 \r",
            "send 18446744073709551615#x",
            "released 1 -9223372036854775808",
            "released 1 -0",
            "expired 1",
            "expired 1 2",
            "tset 5 -",
            "state",
            "state sr",
            "rel 65535 255 255 4294967295",
            "wipe 255",
            "put 18446744073709551615 1 256",
            "put 0 8 18446744073709551615",
            "sack 18446744073709551615",
            "fill 255",
            "lend 18446744073709551615",
            "read 18446744073709551615 0",
            "data 4294967295 18446744073709551615",
        ] {
            assert!(matches!(read(line.as_bytes()), Line::Call(_)), "{line}");
        }
    }

    #[test]
    fn no_calls() {
        for line in [
            "send",
            "send 1 2",
            "Send 1",
            "send +1",
            "send -1",
            "send 1_0",
            "send 18446744073709551616",
            "send 1\u{b}",
            "open 65536 1",
            "open 1 4294967296",
            "released 1 -",
            "released 1 9223372036854775808",
            "released 1 -9223372036854775809",
            "tset 6 -",
            "tset 0 --",
            "timers - - -",
            "state rs",
            "peek 1",
            "tstart 0 99999999999999 x",
            "wipe 256",
            "put 0 0 0",
            "put 0 9 0",
            "look 0",
            "sack -1",
            "fill 256",
            "lend",
            "read 0",
            "data 0",
            "data 4294967296 0",
            "data 0 0 0",
        ] {
            assert!(matches!(read(line.as_bytes()), Line::Bad), "{line}");
        }
    }

    #[test]
    fn blanks() {
        for line in ["", " \t\r", "# send 1", "  #"] {
            assert!(matches!(read(line.as_bytes()), Line::Blank), "{line}");
        }
    }
}
