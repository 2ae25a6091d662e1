//! What is asked of a sender, and the one call that goes over the whole flight and frees nothing.

use super::{Job, filled, pending};
use crate::side::{Bytes, FIRST_TSN, Side};
use crate::stopwatch::{Answers, Stopwatch, Timed, anew};

#[derive(Clone, Copy, PartialEq, Eq)]
pub enum Question {
    Get,
    StreamOfTheFirst,
    StreamOfNone,
    StreamOfNonePending,
    EarliestIsFirst,
    EarliestIsLast,
}

impl Question {
    pub const ALL: [Question; 6] = [
        Question::Get,
        Question::StreamOfTheFirst,
        Question::StreamOfNone,
        Question::StreamOfNonePending,
        Question::EarliestIsFirst,
        Question::EarliestIsLast,
    ];

    fn ask<S: Side>(self, side: &S, tsn: u32, answers: &mut Answers) {
        match self {
            Question::Get => answers.chunk(side.get(tsn)),
            Question::StreamOfTheFirst => answers.flag(side.contains_stream(1)),
            Question::StreamOfNone => answers.flag(side.contains_stream(2)),
            Question::StreamOfNonePending => answers.flag(side.pending_contains_stream(2)),
            Question::EarliestIsFirst | Question::EarliestIsLast => {
                answers.number(side.earliest_outstanding().expect("one is outstanding").into());
            }
        }
    }
}

/// A question about messages of one chunk on stream 1.
pub struct Ask {
    pub question: Question,
    pub messages: usize,
}

impl Ask {
    fn prepare<S: Side>(&self, answers: &mut Answers) -> S {
        if self.question == Question::StreamOfNonePending {
            return pending(self.messages);
        }
        let mut side: S = filled(0, self.messages, Bytes::AsTheCallsAre, answers);
        if self.question == Question::EarliestIsLast {
            for i in 0..self.messages as u32 - 1 {
                answers.number(side.acknowledge(FIRST_TSN.wrapping_add(i)));
            }
        }
        side
    }
}

impl Job for Ask {
    fn name(&self) -> String {
        match self.question {
            Question::Get => "get, TSNs in turn".into(),
            Question::StreamOfTheFirst => "contains_stream, the first entry is of it".into(),
            Question::StreamOfNone => "contains_stream, no entry is".into(),
            Question::StreamOfNonePending => "pending_contains_stream, none is (number: pending)".into(),
            Question::EarliestIsFirst => "earliest_outstanding, the first entry is".into(),
            Question::EarliestIsLast => "earliest_outstanding, only the last entry is".into(),
        }
    }
    fn size(&self) -> Option<usize> {
        Some(self.messages)
    }
    fn run<S: Side>(&self, repetitions: usize) -> Timed {
        let mut watch = Stopwatch::default();
        let mut side: S = self.prepare(&mut watch.answers);
        let last = FIRST_TSN.wrapping_add(self.messages as u32 - 1);
        watch.time(repetitions, |answers| {
            let mut tsn = FIRST_TSN;
            for _ in 0..repetitions {
                self.question.ask(anew(&mut side), tsn, answers);
                tsn = if tsn == last { FIRST_TSN } else { tsn.wrapping_add(1) };
            }
        });
        watch.finish()
    }
}

/// All in flight are to be retransmitted, as when T3-RTX fires.
pub struct MarkAll {
    pub flight: usize,
}

impl Job for MarkAll {
    fn name(&self) -> String {
        "mark_all".into()
    }
    fn size(&self) -> Option<usize> {
        Some(self.flight)
    }
    fn run<S: Side>(&self, repetitions: usize) -> Timed {
        let mut watch = Stopwatch::default();
        let mut side: S = filled(0, self.flight, Bytes::AsTheCallsAre, &mut watch.answers);
        watch.time(repetitions, |_| (0..repetitions).for_each(|_| anew(&mut side).mark_all()));
        (0..self.flight as u32).for_each(|i| watch.answers.flag(side.is_marked(FIRST_TSN.wrapping_add(i))));
        watch.finish()
    }
}
