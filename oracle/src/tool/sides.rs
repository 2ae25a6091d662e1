//! The two sides are child processes: a script goes in, its answers come out.

use std::io::{self, Read, Write};
use std::path::PathBuf;
use std::process::{Child, Command, Stdio};
use std::sync::{Mutex, mpsc};
use std::thread;
use std::time::Duration;

/// A side that has not ended by then is ended.
const PATIENCE: Duration = Duration::from_secs(60);

pub struct Side {
    program: PathBuf,
    arguments: Vec<String>,
}

/// What a side wrote, and how it ended where that was not well.
#[derive(PartialEq)]
pub struct Answers {
    pub text: Vec<u8>,
    pub trouble: Option<String>,
}

impl Side {
    pub fn new(program: PathBuf, arguments: &[&str]) -> Self {
        Side { program, arguments: arguments.iter().map(|a| a.to_string()).collect() }
    }

    pub fn run(&self, script: &[u8]) -> io::Result<Answers> {
        let mut child = Command::new(&self.program)
            .args(&self.arguments)
            .stdin(Stdio::piped())
            .stdout(Stdio::piped())
            .spawn()
            .map_err(|error| io::Error::new(error.kind(), format!("{}: {error}", self.program.display())))?;
        let mut input = child.stdin.take().expect("standard input is a pipe");
        let mut output = child.stdout.take().expect("standard output is a pipe");
        let child = Mutex::new(child);
        let (ended, end) = mpsc::channel::<()>();
        let mut text = Vec::new();
        let late = thread::scope(|scope| {
            // Written beside the reading: else both sides could wait for ever for the other's pipe to empty.
            // A side that stops reading shows in what it wrote.
            scope.spawn(move || drop(input.write_all(script)));
            let watch = scope.spawn(|| ended_late(&child, end));
            let read = output.read_to_end(&mut text);
            drop(ended);
            read.map(|_| watch.join().expect("the watch does not panic"))
        })?;
        let status = child.into_inner().expect("no thread panicked").wait()?;
        let trouble = if late { Some(format!("not done after {PATIENCE:?}")) } else { failure(status) };
        Ok(Answers { text, trouble })
    }
}

fn failure(status: std::process::ExitStatus) -> Option<String> {
    (!status.success()).then(|| status.to_string())
}

/// Ends a child that is not done in time; says whether it had to.
fn ended_late(child: &Mutex<Child>, end: mpsc::Receiver<()>) -> bool {
    if end.recv_timeout(PATIENCE) != Err(mpsc::RecvTimeoutError::Timeout) {
        return false;
    }
    child.lock().expect("no thread panicked").kill().is_ok()
}

/// Both at once.
pub fn run_both(one: &Side, other: &Side, script: &[u8]) -> io::Result<(Answers, Answers)> {
    thread::scope(|scope| {
        let beside = scope.spawn(|| other.run(script));
        let first = one.run(script)?;
        let second = beside.join().expect("a run does not panic")?;
        Ok((first, second))
    })
}
