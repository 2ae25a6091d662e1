//! Reads a script from standard input and writes the answers of the unchanged Rust.
//! `-e` puts each line in front of its answer; `--fault NAME` plants a fault; `--faults` lists their names.
use sctp_proto::Endpoint as Oracle;
use std::io::{BufRead, Write, stdin, stdout};
use std::process::ExitCode;

/// Answers are kept back up to this many bytes.
const BUFFER: usize = 1 << 16;

fn main() -> ExitCode {
    let arguments: Vec<String> = std::env::args().skip(1).collect();
    let arguments: Vec<&str> = arguments.iter().map(String::as_str).collect();
    let (oracle, echo) = match arguments[..] {
        [] => (Some(Oracle::new()), false),
        ["-e"] => (Some(Oracle::new()), true),
        ["--fault", name] => (Oracle::with_fault(name), false),
        ["--faults"] => {
            Oracle::fault_names().for_each(|name| println!("{name}"));
            return ExitCode::SUCCESS;
        }
        _ => (None, false),
    };
    let Some(oracle) = oracle else {
        eprintln!("usage: oracle [-e | --fault NAME | --faults] < SCRIPT");
        return ExitCode::from(2);
    };
    // A panic of the Rust is an answer (`panic ..`), not a message on standard error.
    std::panic::set_hook(Box::new(|_| {}));
    match answer_all(oracle, echo) {
        Ok(()) => ExitCode::SUCCESS,
        Err(error) => {
            eprintln!("oracle: {error}");
            ExitCode::FAILURE
        }
    }
}

fn answer_all(mut oracle: Oracle, echo: bool) -> std::io::Result<()> {
    let (mut input, mut output) = (stdin().lock(), stdout().lock());
    let (mut line, mut answers) = (Vec::new(), String::new());
    while input.read_until(b'\n', &mut line)? > 0 {
        let text = line.strip_suffix(b"\n").unwrap_or(&line);
        if echo {
            answers.push_str(&format!("> {}\n", String::from_utf8_lossy(text)));
        }
        oracle.line(text, &mut answers);
        line.clear();
        if answers.len() >= BUFFER {
            output.write_all(answers.as_bytes())?;
            answers.clear();
        }
    }
    output.write_all(answers.as_bytes())?;
    output.flush()
}
