//! What a script has met of prepared runs.

use crate::desk::layout::{has, Sizes};
use crate::desk::{in_form, Answer, JOINED, NO_RIGHT, OVER_ALLOWANCE};
use crate::prepared::disturbs;
use crate::text::{self, Call};

/// Steps of prepared runs (of joined ones, beside another prepared one), a right that was missing,
/// and what would have come of a step if the card had only what was read.
#[derive(Default)]
pub struct Met {
    runs: u32,
    steps: u64,
    joined: u64,
    beside: u64,
    rights: u64,
    spared_12: u64,
    spared_breaks: u64,
}

impl Met {
    pub fn names(&self) -> [(String, u64); 6] {
        [
            ("prepared-steps".into(), self.steps),
            ("prepared-joined".into(), self.joined),
            ("prepared-beside".into(), self.beside),
            ("prepared-refused-13".into(), self.rights),
            ("prepared-spared-12".into(), self.spared_12),
            ("prepared-spared-breaks".into(), self.spared_breaks),
        ]
    }

    /// Takes in a call on a desk, and its answer.
    pub fn enter(&mut self, before: &[u32], call: &Call, answer: &Answer) {
        if let (Call::Step(run, ..), Some(s)) = (call, in_form(before)) {
            if *run < 32 && has(self.runs, *run as usize) {
                self.enter_step(before, s, call, answer);
            }
        }
        if matches!(answer, Answer::Ok(_)) {
            let ended = (0..32).filter(|run| disturbs(call, *run));
            self.runs &= !ended.fold(0, |mask, run| mask | 1 << run);
            if let Call::Prepare(run) = call {
                self.runs |= 1 << run;
            }
        }
    }

    fn enter_step(&mut self, before: &[u32], s: Sizes, call: &Call, answer: &Answer) {
        let run = call.run().unwrap_or(0) as usize;
        self.rights += u64::from(*answer == Answer::Refused(NO_RIGHT));
        if !matches!(answer, Answer::Ok(_)) {
            return;
        }
        self.steps += 1;
        self.joined += u64::from(before[s.mark_at(run)] == JOINED);
        self.beside += u64::from(self.runs.count_ones() > 1);
        match unprepared(before, s, run, call) {
            Answer::Refused(OVER_ALLOWANCE) => self.spared_12 += 1,
            Answer::Broken(_) => self.spared_breaks += 1,
            _ => {}
        }
    }
}

/// What the step would be answered if the card had no sheet that isn't read.
fn unprepared(before: &[u32], s: Sizes, run: usize, step: &Call) -> Answer {
    let mut words = before.to_vec();
    for k in (0..s.k).filter(|k| !has(before[s.read_at(run, 0)], *k)) {
        words[s.card_at(run, k)..s.card_at(run, k) + s.version()].fill(0);
    }
    text::run(&mut words, step)
}
