//! `tool ROOT compare|faults|sample [OPTIONS]`, ROOT being the project's: the shell scripts of those names call it.
//! README.md says what each does.

mod compare;
mod data;
mod faults;
mod generator;
mod long;
mod options;
mod profiles;
mod random;
mod sacks;
mod sample;
mod script;
mod shrink;
mod sides;
mod tally;

use std::env;
use std::path::PathBuf;
use std::process::ExitCode;

use options::Options;
use profiles::PROFILES;
use sides::Side;

fn main() -> ExitCode {
    match run() {
        Ok(true) => ExitCode::SUCCESS,
        Ok(false) => ExitCode::from(1),
        Err(message) => {
            eprintln!("{message}");
            ExitCode::from(2)
        }
    }
}

/// Whether all was as it should be.
fn run() -> Result<bool, String> {
    let mut words = env::args().skip(1);
    let mut word = || words.next().ok_or("usage: tool ROOT compare|faults|sample [OPTIONS]".to_string());
    let root = PathBuf::from(word()?);
    let command = word()?;
    let oracle_folder = root.join("oracle");
    let program = oracle_folder.join("target/release/oracle");
    let oracle = Side::new(program.clone(), &[]);
    let sections = oracle_folder.join("sample.txt");
    let options = |scripts, calls, seed| Options {
        scripts,
        calls,
        seed,
        port: root.join("tools/replay"),
        script: None,
        kind: None,
        long: true,
        without: None,
        folder: root.join("crates/replay"),
    };
    let done = match command.as_str() {
        "compare" => {
            let options = options(2500, 2000, 1).read(words)?;
            let port = Side::new(options.port.clone(), &[]);
            match &options.script {
                Some(file) => compare::compare_file(file, &oracle, &port),
                None => compare::compare(&options, &oracle, &port, &oracle_folder.join("found")),
            }
        }
        "faults" => faults::faults(&options(400, 500, 1).read(words)?, &program, &sections),
        "sample" => sample::sample(&options(PROFILES.len() as u64, 30, 7).read(words)?, &oracle, &sections),
        _ => return Err(format!("unknown command {command}")),
    };
    done.map_err(|error| error.to_string())
}
