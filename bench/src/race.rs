//! All sides in turn, several rounds.
use std::time::{Duration, Instant};

use crate::jobs::Job;
use crate::lent::{Anchored, Ours};
use crate::stopwatch::Timed;
use crate::theirs::Theirs;

/// How long a race is.
pub struct Plan {
    pub rounds: usize,
    pub milliseconds: u64,
}

/// The median of the rounds, and the least, which is what other work on the machine disturbs least. Of a ratio: the median of the rounds' ratios,
/// and the ratio of the two leasts.
#[derive(Clone, Copy)]
pub struct Figure {
    pub median: f64,
    pub least: f64,
}

pub struct Row {
    pub name: String,
    pub size: Option<usize>,
    pub ours: Figure,
    pub anchor: Figure,
    pub theirs: Figure,
    pub theirs_by_ours: Figure,
    pub ours_by_anchor: Figure,
}

const OURS: usize = 0;
const ANCHOR: usize = 1;
const THEIRS: usize = 2;
const SIDES: usize = 3;
/// One run of each side, in this order.
type Round = [Timed; SIDES];

fn median(mut values: Vec<f64>) -> f64 {
    values.sort_by(f64::total_cmp);
    let middle = values.len() / 2;
    if values.len() % 2 == 1 { values[middle] } else { (values[middle - 1] + values[middle]) / 2.0 }
}

fn figure(rounds: &[Round], side: usize) -> Figure {
    let nanos = || rounds.iter().map(|round| round[side].nanos);
    Figure { median: median(nanos().collect()), least: nanos().fold(f64::INFINITY, f64::min) }
}

fn ratio(rounds: &[Round], side: usize, by: usize) -> Figure {
    let median = median(rounds.iter().map(|round| round[side].nanos / round[by].nanos).collect());
    Figure { median, least: figure(rounds, side).least / figure(rounds, by).least }
}

/// One run of each side, from `first` on; all must answer the same.
fn round<J: Job>(job: &J, first: usize, repetitions: usize) -> Round {
    let mut round = Round::default();
    for side in (first..first + SIDES).map(|side| side % SIDES) {
        round[side] = match side {
            OURS => job.run::<Ours>(repetitions),
            ANCHOR => job.run::<Anchored>(repetitions),
            _ => job.run::<Theirs>(repetitions),
        };
    }
    for (side, name) in [(ANCHOR, "the anchor"), (THEIRS, "the Rust")] {
        let (ours, other) = (round[OURS].answers, round[side].answers);
        assert_eq!(ours, other, "{}, {:?}: ours and {name} answer differently", job.name(), job.size());
    }
    round
}

/// How many repetitions let a round of all sides take about so long, what prepares them counted in. A round may take long because other work has
/// interrupted it, so three must.
fn repetitions<J: Job>(job: &J, milliseconds: u64) -> usize {
    let enough = Duration::from_millis(milliseconds);
    let is_short = |count| {
        let start = Instant::now();
        round(job, OURS, count);
        start.elapsed() < enough
    };
    let mut count = 1;
    while count < 1 << 22 && (0..3).any(|_| is_short(count)) {
        count *= 2;
    }
    count
}

/// Only that all sides answer the same.
pub fn check<J: Job>(job: &J) {
    round(job, OURS, 300);
}

pub fn race<J: Job>(job: &J, plan: &Plan) -> Row {
    let repetitions = repetitions(job, plan.milliseconds);
    let rounds: Vec<Round> = (0..plan.rounds).map(|i| round(job, i, repetitions)).collect();
    Row {
        name: job.name(),
        size: job.size(),
        ours: figure(&rounds, OURS),
        anchor: figure(&rounds, ANCHOR),
        theirs: figure(&rounds, THEIRS),
        theirs_by_ours: ratio(&rounds, THEIRS, OURS),
        ours_by_anchor: ratio(&rounds, OURS, ANCHOR),
    }
}
