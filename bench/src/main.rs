//! The race of the archive with the unchanged Rust and with the anchor in C, in one process. `bench/run` builds and starts it.
mod calls;
mod jobs;
mod lent;
mod race;
mod side;
mod stopwatch;
/// The archive's calls, as the host's crate declares them.
#[allow(dead_code)]
#[path = "../../host/src/sys.rs"]
mod sys;
mod table;
mod theirs;

use std::env;
use std::process::exit;

use jobs::Job;
use jobs::cycles::{Alone, Burst, Call, Cycle, CycleOnLast, CycleOnMany, Fragmented, Order};
use jobs::expiries::{
    AbandonHalfSent, AbandonSent, AllDue, ExpirePending, ExpirePendingTail, Expired, Flight, HostRound, NothingNew,
    StartLifetimes, Traffic,
};
use jobs::questions::{Ask, MarkAll, Question};
use jobs::data::{Copy, Data};
use jobs::sacks::{Sack, Told};
use jobs::timers::TimerJob;
use race::{Plan, Row};
use side::{Bytes, Output};

/// What is done with the jobs whose name has `only` in it.
struct Task {
    only: String,
    /// Nothing is timed.
    check: bool,
    plan: Plan,
    rows: Vec<Row>,
}

impl Task {
    fn take<J: Job>(&mut self, job: J) {
        if !job.name().contains(&self.only) {
            return;
        }
        if self.check {
            race::check(&job);
        } else {
            self.rows.push(race::race(&job, &self.plan));
        }
        eprintln!("{}{}", job.name(), job.size().map_or(String::new(), |size| format!(": {size}")));
    }
}

fn take_cycles(task: &mut Task) {
    for bytes in [Bytes::AsTheCallsAre, Bytes::BothCopy, Bytes::NeitherCopies] {
        [0, 10, 100, 250].into_iter().for_each(|flight| task.take(Cycle { bytes, flight }));
    }
    for bytes in [Bytes::AsTheCallsAre, Bytes::NeitherCopies] {
        [2, 8, 64].into_iter().for_each(|streams| task.take(CycleOnLast { bytes, streams }));
    }
    for bytes in [Bytes::AsTheCallsAre, Bytes::NeitherCopies] {
        task.take(CycleOnMany { bytes, senders: 1000 });
    }
    for bytes in [Bytes::AsTheCallsAre, Bytes::NeitherCopies] {
        [4, 43].into_iter().for_each(|fragments| task.take(Fragmented { bytes, fragments }));
    }
    for order in [Order::OldestFirst, Order::Mixed] {
        [10, 250].into_iter().for_each(|messages| task.take(Burst { messages, order }));
    }
    for call in Call::ALL {
        [0, 10, 100, 250].into_iter().for_each(|flight| task.take(Alone { call, flight }));
    }
}

fn take_sacks(task: &mut Task) {
    for told in [Told::All, Told::Gaps, Told::Overlaps] {
        [10, 250].into_iter().for_each(|flight| task.take(Sack { flight, told }));
    }
}

fn take_data(task: &mut Task) {
    for output in [Output::Anew, Output::Kept] {
        [10, 250].into_iter().for_each(|flight| task.take(Data { flight, output }));
    }
    task.take(Copy);
}

fn take_expiries(task: &mut Task) {
    for traffic in [Traffic::NothingToDo, Traffic::OneMessage] {
        [10, 250].into_iter().for_each(|flight| task.take(HostRound { flight, traffic }));
    }
    [20, 100, 200].into_iter().for_each(|fragments| task.take(AbandonHalfSent { fragments }));
    [10, 100, 250].into_iter().for_each(|flight| task.take(AbandonSent { flight }));
    [10, 250].into_iter().for_each(|flight| task.take(AllDue { flight }));
    for state in [Flight::NoneDue, Flight::NoneAcknowledged, Flight::AllAcknowledged] {
        [10, 100, 250].into_iter().for_each(|flight| task.take(Expired { flight, state }));
    }
    [10, 100, 250].into_iter().for_each(|messages| task.take(ExpirePending { messages }));
    [10, 100, 250].into_iter().for_each(|rest| task.take(ExpirePendingTail { rest }));
    [10, 100, 250].into_iter().for_each(|messages| task.take(StartLifetimes { messages }));
    task.take(NothingNew { messages: 250 });
}

fn take_questions(task: &mut Task) {
    [10, 250].into_iter().for_each(|flight| task.take(MarkAll { flight }));
    for question in Question::ALL {
        [10, 250].into_iter().for_each(|messages| task.take(Ask { question, messages }));
    }
}

fn take_timers(task: &mut Task) {
    for job in [
        TimerJob::Start,
        TimerJob::ExpiryAndBackOff,
        TimerJob::MostDoublings,
        TimerJob::NextTimeout,
        TimerJob::Measure,
    ] {
        task.take(job);
    }
}

fn usage() -> ! {
    eprintln!("race [--rounds N] [--millis M] [--only PART-OF-A-NAME] [--check]");
    exit(2)
}

fn read_arguments() -> Task {
    let plan = Plan { rounds: 15, milliseconds: 20 };
    let mut task = Task { only: String::new(), check: false, plan, rows: Vec::new() };
    let mut words = env::args().skip(1);
    while let Some(word) = words.next() {
        let mut next = || words.next().unwrap_or_else(|| usage());
        match word.as_str() {
            "--rounds" => task.plan.rounds = positive(&next()) as usize,
            "--millis" => task.plan.milliseconds = positive(&next()),
            "--only" => task.only = next(),
            "--check" => task.check = true,
            _ => usage(),
        }
    }
    task
}

fn positive(word: &str) -> u64 {
    word.parse().ok().filter(|number| *number > 0).unwrap_or_else(|| usage())
}

fn main() {
    let mut task = read_arguments();
    [take_cycles, take_sacks, take_data, take_expiries, take_questions, take_timers].iter().for_each(|take| take(&mut task));
    if task.check {
        println!("all sides answer the same");
        return;
    }
    let cost = stopwatch::reading_cost();
    println!("Median (and least) of {} rounds, the three sides in turn.", task.plan.rounds);
    println!("Reading the clock takes {cost:.1} ns, which is taken off every timed block.\n");
    table::costs(&task.rows);
    println!("\nHow many times the least cost grows from the first number to the last:\n");
    table::growth(&task.rows);
}
