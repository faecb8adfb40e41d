//! Runs with two lines: what a script has met of them, and runs that fork by words.

use crate::desk::layout::{Sizes, STATE};
use crate::desk::version::held;
use crate::desk::{in_form, Answer, FORKED, FREE, NEVER_FORKED};
use crate::random::Random;
use crate::text::{self, Call};

/// Forks (of runs that have read), joins (of lines with a sheet in two versions), broken ones;
/// steps, breaks and paths on line 1, and breaks on one line where the other would go through.
#[derive(Default)]
pub struct Met {
    forks: u64,
    forks_read: u64,
    joins: u64,
    joins_apart: u64,
    joins_broken: u64,
    steps: u64,
    breaks: u64,
    breaks_alone: u64,
    paths: u64,
}

impl Met {
    pub fn names(&self) -> [(String, u64); 9] {
        [
            ("forks".into(), self.forks),
            ("forks-read".into(), self.forks_read),
            ("joins".into(), self.joins),
            ("joins-apart".into(), self.joins_apart),
            ("joins-broken".into(), self.joins_broken),
            ("steps-on-1".into(), self.steps),
            ("breaks-on-1".into(), self.breaks),
            ("breaks-on-one-alone".into(), self.breaks_alone),
            ("paths-on-1".into(), self.paths),
        ]
    }

    /// Takes in a call on a desk, and its answer.
    pub fn enter(&mut self, before: &[u32], call: &Call, answer: &Answer) {
        let Some(s) = in_form(before) else {
            return;
        };
        match (call, answer) {
            (Call::Fork(run), Answer::Ok(_)) => {
                self.forks += 1;
                self.forks_read += u64::from(before[s.read_at(*run as usize, 0)] != 0);
            }
            (Call::Join(run), Answer::Ok(_)) => {
                self.joins += 1;
                self.joins_apart += u64::from(apart(before, s, *run as usize));
            }
            (Call::Join(_), Answer::Broken(_)) => self.joins_broken += 1,
            (Call::Step(_, _, 1), Answer::Ok(_)) => self.steps += 1,
            (Call::Step(run, job, line), Answer::Broken(_)) => {
                self.breaks += u64::from(*line == 1);
                let other = Call::Explain(*run, *job, 1 - line);
                let clear = text::run(&mut before.to_vec(), &other) == Answer::Clear;
                self.breaks_alone += u64::from(clear);
            }
            (Call::Explain(_, _, 1), Answer::Path(_)) => self.paths += 1,
            _ => {}
        }
    }
}

/// Have the two lines a sheet in two versions?
fn apart(words: &[u32], s: Sizes, run: usize) -> bool {
    (0..s.k).any(|k| {
        let [one, other] = [0, 1].map(|line| s.words(words, s.line_card_at(run, line, k)));
        held(one) && held(other) && one != other
    })
}

/// Some runs become forked ones whose two lines are the same; what is bent then sets them apart.
pub fn fork_some(random: &mut Random, words: &mut [u32], s: Sizes) {
    for run in 0..s.p {
        let fresh = words[s.mark_at(run)] == NEVER_FORKED && words[s.run_at(run) + STATE] != FREE;
        if fresh && random.chance(50) {
            let card = s.line_card_at(run, 0, 0);
            words.copy_within(card..card + s.card(), s.line_card_at(run, 1, 0));
            words[s.read_at(run, 1)] = words[s.read_at(run, 0)];
            words[s.mark_at(run)] = FORKED;
        }
    }
}
