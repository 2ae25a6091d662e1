//! What was called and what was answered, so that one sees that everything was hit.

use std::collections::HashMap;
use std::fmt;

use crate::script::{answered, words};

/// The calls of the language that both sides have.
pub const CALLS: [&str; 52] = [
    "sender",
    "open",
    "rel",
    "low",
    "high",
    "write",
    "released",
    "setbuf",
    "lifetimes",
    "send",
    "expire",
    "tail",
    "abandon",
    "expired",
    "markall",
    "sack",
    "data",
    "ack",
    "pop",
    "get",
    "peek",
    "isab",
    "haspend",
    "has",
    "counts",
    "nextmsg",
    "nexttsn",
    "earliest",
    "stream",
    "timers",
    "tset",
    "tstart",
    "trestart",
    "tstop",
    "treset",
    "tsuppress",
    "tget",
    "tnext",
    "texpired",
    "setcount",
    "rto",
    "measure",
    "rreset",
    "setrto",
    "getrto",
    "state",
    "wipe",
    "put",
    "look",
    "fill",
    "lend",
    "read",
];
/// 01's refusals are 1 to 12, a SACK's 13 and 14, a DATA chunk's 15 to 17.
pub const REFUSALS: usize = 17;

#[derive(Clone, Default)]
struct Counts {
    calls: u64,
    nothing: u64,
    refused: [u64; REFUSALS + 1],
}

impl Counts {
    /// Neither answered with nothing nor refused.
    fn done(&self) -> u64 {
        self.calls - self.nothing - self.refused.iter().sum::<u64>()
    }
}

pub struct Tally {
    places: HashMap<&'static [u8], usize>,
    /// In the order of `CALLS`.
    counts: Vec<Counts>,
    /// Lines that are no call.
    bad: u64,
    lines: u64,
    /// A call to which the Rust had no answer of the language: a panic, or an error of its own.
    odd: Option<String>,
}

impl Tally {
    pub fn new() -> Self {
        let places = CALLS.iter().enumerate().map(|(place, name)| (name.as_bytes(), place)).collect();
        Tally { places, counts: vec![Counts::default(); CALLS.len()], bad: 0, lines: 0, odd: None }
    }

    /// Counts a script's calls by the answers that were given.
    pub fn add(&mut self, script: &[u8], answers: &[u8]) {
        for (_, line, answer) in answered(script, answers) {
            self.add_answer(line, answer.unwrap_or_default());
        }
        self.lines += answers.iter().filter(|&&b| b == b'\n').count() as u64;
    }

    fn add_answer(&mut self, line: &[u8], answer: &[u8]) {
        if self.odd.is_none() && (answer.starts_with(b"panic") || answer.starts_with(b"err")) {
            self.odd = Some(format!("{}: {}", String::from_utf8_lossy(line), String::from_utf8_lossy(answer)));
        }
        let name = words(line).next().unwrap_or_default();
        match self.places.get(name) {
            Some(&place) if answer != b"bad\n" => {
                let counts = &mut self.counts[place];
                counts.calls += 1;
                counts.nothing += u64::from(matches!(answer, b"none\n" | b"stale\n"));
                if let Some(number) = refusal(answer) {
                    counts.refused[number] += 1;
                }
            }
            _ => self.bad += 1,
        }
    }

    pub fn calls(&self) -> u64 {
        self.bad + self.counts.iter().map(|counts| counts.calls).sum::<u64>()
    }

    pub fn refusals(&self, number: usize) -> u64 {
        self.counts.iter().map(|counts| counts.refused[number]).sum()
    }

    pub fn odd(&self) -> Option<&str> {
        self.odd.as_deref()
    }

    /// The calls that never stood, and the refusals that were never given.
    pub fn missing(&self) -> Vec<String> {
        let calls = CALLS.iter().zip(&self.counts).filter(|(_, counts)| counts.calls == 0);
        let refusals = (1..=REFUSALS).filter(|&number| self.refusals(number) == 0);
        calls.map(|(name, _)| name.to_string()).chain(refusals.map(|number| format!("R {number}"))).collect()
    }
}

/// The number of an answer `R n`.
fn refusal(answer: &[u8]) -> Option<usize> {
    let number = std::str::from_utf8(answer.strip_prefix(b"R ")?).ok()?.trim_end().parse().ok()?;
    (number <= REFUSALS).then_some(number)
}

impl fmt::Display for Tally {
    fn fmt(&self, f: &mut fmt::Formatter<'_>) -> fmt::Result {
        writeln!(f, "{:<10} {:>10} {:>10} {:>10}  refusals", "call", "times", "done", "nothing")?;
        for (name, counts) in CALLS.iter().zip(&self.counts) {
            write!(f, "{name:<10} {:>10} {:>10} {:>10} ", counts.calls, counts.done(), counts.nothing)?;
            for (number, times) in counts.refused.iter().enumerate().filter(|(_, times)| **times > 0) {
                write!(f, " R{number} {times}")?;
            }
            writeln!(f)?;
        }
        writeln!(f, "{:<10} {:>10}", "no call", self.bad)?;
        write!(f, "refusals:")?;
        for number in 1..=REFUSALS {
            write!(f, " {number}: {}", self.refusals(number))?;
        }
        write!(f, "\n{} calls, {} lines of answers", self.calls(), self.lines)
    }
}
