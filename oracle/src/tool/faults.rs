//! Checks the comparison itself: every planted fault of the oracle must be found.

use std::fs;
use std::io;
use std::path::Path;

use sctp_proto::Endpoint as Oracle;

use crate::generator::{Script, script};
use crate::long::LONG;
use crate::options::Options;
use crate::profiles::PROFILES;
use crate::script::{answered, calls, lines};
use crate::shrink::shrunk;
use crate::sides::{Answers, Side};

/// A script, and what the healthy oracle answers to it.
struct Answered {
    script: Script,
    answers: Answers,
    calls: u64,
}

/// The scripts so far: made when they are first needed, and answered by the healthy oracle once.
struct Scripts<'a> {
    options: &'a Options,
    healthy: &'a Side,
    made: Vec<Answered>,
}

struct Found {
    number: usize,
    calls: u64,
}

impl Scripts<'_> {
    /// None after the last.
    fn get(&mut self, number: usize) -> io::Result<Option<&Answered>> {
        if number == self.made.len() {
            let Some(script) = self.make(number) else { return Ok(None) };
            let answers = self.healthy.run(script.text.as_bytes())?;
            let calls = calls(script.text.as_bytes());
            self.made.push(Answered { script, answers, calls });
        }
        Ok(self.made.get(number))
    }

    /// The short ones, then the long.
    fn make(&self, number: usize) -> Option<Script> {
        let (seed, calls) = (self.options.seed, self.options.calls);
        match (number as u64).checked_sub(self.options.scripts) {
            None => Some(script(seed, number as u64, &PROFILES, calls)),
            Some(long) => LONG.get(long as usize).map(|make| make(seed, calls)),
        }
    }

    /// Script after script, until one is answered wrongly.
    fn find(&mut self, faulty: &Side) -> io::Result<Option<Found>> {
        let (mut number, mut before) = (0, 0);
        while let Some(answered) = self.get(number)? {
            let wrong = faulty.run(answered.script.text.as_bytes())?;
            if wrong != answered.answers {
                return Ok(Some(Found { number, calls: before + calls_until(answered, &wrong) }));
            }
            before += answered.calls;
            number += 1;
        }
        Ok(None)
    }
}

/// Calls up to the first wrong answer, that one included.
fn calls_until(right: &Answered, wrong: &Answers) -> u64 {
    let script = right.script.text.as_bytes();
    let pairs = answered(script, &right.answers.text).zip(answered(script, &wrong.text));
    1 + pairs.take_while(|((.., a), (.., b))| a == b).count() as u64
}

/// Whether every fault was found.
pub fn faults(options: &Options, program: &Path, sections: &Path) -> io::Result<bool> {
    let healthy = Side::new(program.to_path_buf(), &[]);
    let sample = fs::read(sections)?;
    let sample_answers = healthy.run(&sample)?;
    let mut scripts = Scripts { options, healthy: &healthy, made: Vec::new() };
    let (mut sown, mut found) = (0, 0);
    println!("seed {}, scripts of {} calls\n", options.seed, options.calls);
    println!(
        "| fault | found by script | after calls | shrunk to lines | shown by sample.txt |\n|---|---|---|---|---|"
    );
    for name in Oracle::fault_names() {
        sown += 1;
        let faulty = Side::new(program.to_path_buf(), &["--fault", name]);
        let Some(Found { number, calls }) = scripts.find(&faulty)? else {
            println!("| {name} | NOT FOUND | | | |");
            continue;
        };
        found += 1;
        let script = &scripts.made[number].script;
        // The long scripts would take long to shrink, and the short ones show that shrinking works.
        let length = if (number as u64) < options.scripts {
            lines(&shrunk(&healthy, &faulty, script.text.as_bytes())?).count().to_string()
        } else {
            "-".to_string()
        };
        let shown = if faulty.run(&sample)? == sample_answers { "no" } else { "yes" };
        println!("| {name} | {number} ({}) | {calls} | {length} | {shown} |", script.name);
    }
    println!("\n{found} of {sown} faults found");
    Ok(found == sown)
}
