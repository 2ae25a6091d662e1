//! Runs scripts through both sides and compares every line.

use std::fs;
use std::io;
use std::path::{Path, PathBuf};
use std::sync::mpsc::{Receiver, sync_channel};
use std::thread;
use std::time::Instant;

use crate::generator::{Profile, Script, script};
use crate::long::LONG;
use crate::options::Options;
use crate::profiles::{PROFILES, profile};
use crate::script::{calls, first_difference, lines, without};
use crate::shrink::{differs_at, shrunk};
use crate::sides::{Answers, Side, run_both};
use crate::tally::Tally;

/// Calls that go through one run of the two processes, at least.
const BATCH: u64 = 40_000;
/// Lines of a shrunk script that are shown.
const SHOWN: usize = 40;

/// Whether nothing differed.
pub fn compare(options: &Options, oracle: &Side, port: &Side, found: &Path) -> io::Result<bool> {
    let start = Instant::now();
    let mut tally = Tally::new();
    let mut number = 0;
    for batch in batches(options, kinds(options)?) {
        let text: String = batch.iter().map(|script| script.text.as_str()).collect();
        let (ours, theirs) = run_both(oracle, port, text.as_bytes())?;
        if ours != theirs {
            report(options, oracle, port, found, &batch, number)?;
            return Ok(false);
        }
        tally.add(text.as_bytes(), &ours.text);
        if let Some(odd) = tally.odd() {
            println!("BOTH ODD: {odd}");
            return Ok(false);
        }
        number += batch.len();
    }
    println!("{tally} compared in {number} scripts, seed {}: nothing differs", options.seed);
    println!("{:.1} s", start.elapsed().as_secs_f64());
    for missing in tally.missing() {
        println!("never seen: {missing}");
    }
    Ok(true)
}

/// The same for one script of a file, as it is.
pub fn compare_file(file: &Path, oracle: &Side, port: &Side) -> io::Result<bool> {
    let script = fs::read(file)?;
    let (ours, theirs) = run_both(oracle, port, &script)?;
    if ours != theirs {
        println!("DIFFERS:");
        show_difference(&script, &ours, &theirs);
        return Ok(false);
    }
    println!("{} calls of {} compared: nothing differs", calls(&script), file.display());
    Ok(true)
}

/// The kinds that the scripts have in turn: all, or the one that is asked for.
fn kinds(options: &Options) -> io::Result<Vec<&'static Profile>> {
    let Some(name) = &options.kind else { return Ok(PROFILES.to_vec()) };
    let unknown = || io::Error::other(format!("no kind of scripts is called {name}"));
    Ok(vec![profile(name).ok_or_else(unknown)?])
}

/// The scripts in batches; the next ones are made while the sides run.
fn batches(options: &Options, kinds: Vec<&'static Profile>) -> Receiver<Vec<Script>> {
    let (give, take) = sync_channel(1);
    let options = options.clone();
    thread::spawn(move || {
        let short = (0..options.scripts).map(|number| script(options.seed, number, &kinds, options.calls));
        let long = LONG.into_iter().filter(|_| options.long).map(|make| make(options.seed, options.calls));
        let mut batch = Vec::new();
        let mut made = 0;
        for mut script in short.chain(long) {
            if let Some(call) = &options.without {
                script.text = without(&script.text, call);
            }
            made += calls(script.text.as_bytes());
            batch.push(script);
            if made >= BATCH {
                made = 0;
                // Nobody listens once a difference is found.
                if give.send(std::mem::take(&mut batch)).is_err() {
                    return;
                }
            }
        }
        drop(give.send(batch));
    });
    take
}

/// Finds the script of a batch that differs, shrinks it, keeps it and shows it.
fn report(
    options: &Options,
    oracle: &Side,
    port: &Side,
    found: &Path,
    batch: &[Script],
    first_number: usize,
) -> io::Result<()> {
    for (place, script) in batch.iter().enumerate() {
        let Some(line) = differs_at(oracle, port, script.text.as_bytes())? else { continue };
        let number = first_number + place;
        println!("DIFFERS: script {number} ({}) of seed {}, line {}", script.name, options.seed, line + 1);
        let name = format!("seed-{}-calls-{}-script-{number}", options.seed, options.calls);
        return keep(oracle, port, found, &name, script.text.as_bytes());
    }
    println!("DIFFERS: only where several scripts go through one process; scripts from {first_number} on");
    let text: String = batch.iter().map(|script| script.text.as_str()).collect();
    keep(oracle, port, found, &format!("seed-{}-from-{first_number}", options.seed), text.as_bytes())
}

fn keep(oracle: &Side, port: &Side, found: &Path, name: &str, whole: &[u8]) -> io::Result<()> {
    let script = shrunk(oracle, port, whole)?;
    fs::create_dir_all(found)?;
    let path: PathBuf = found.join(format!("{name}.txt"));
    fs::write(found.join(format!("{name}-whole.txt")), whole)?;
    fs::write(&path, &script)?;
    let length = lines(&script).count();
    println!("shrunk from {} to {length} lines, kept in {}; its end:", lines(whole).count(), path.display());
    for line in lines(&script).skip(length.saturating_sub(SHOWN)) {
        println!("    {}", String::from_utf8_lossy(line));
    }
    let (ours, theirs) = run_both(oracle, port, &script)?;
    show_difference(&script, &ours, &theirs);
    Ok(())
}

fn show_difference(script: &[u8], ours: &Answers, theirs: &Answers) {
    if let Some(difference) = first_difference(script, &ours.text, &theirs.text) {
        println!("line {}: {}", difference.line + 1, String::from_utf8_lossy(&difference.call));
        let answers = [difference.one, difference.other].map(Option::unwrap_or_default);
        let [ours, theirs] = answers.each_ref().map(|answer| lines(answer).collect::<Vec<_>>());
        let same = ours.iter().zip(&theirs).take_while(|(a, b)| a == b).count();
        show("oracle", &ours, same);
        show("port", &theirs, same);
    }
    for (side, answers) in [("oracle", ours), ("port", theirs)] {
        if let Some(trouble) = &answers.trouble {
            println!("{side} ended badly: {trouble}");
        }
    }
}

/// The first lines of an answer that differ.
fn show(side: &str, answer: &[&[u8]], same: usize) {
    let rest = answer.iter().skip(same).take(3);
    let text: Vec<_> = rest.map(|line| String::from_utf8_lossy(line)).collect();
    println!("{side:>6}: {}", if text.is_empty() { "(nothing more)".into() } else { text.join("\n        ") });
}
