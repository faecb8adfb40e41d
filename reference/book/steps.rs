//! Step on copies, on a line of its run.

use super::runs::{Finished, Job, Line};
use super::saves::Saves;
use super::{has, Book};

/// What a step finds: its reads that the card lacks, T of its fetch, C, and the shelf after the
/// fetch.
pub struct StepFound {
    pub off_card: u32,
    pub fetched: u32,
    pub set: u32,
    pub shelf: Vec<Saves>,
}

impl Book {
    /// T and C on copies; nothing is changed.
    pub fn find_step(&self, run: usize, job: usize, line: usize) -> StepFound {
        let (run, job) = (&self.runs[run], &self.runs[run].jobs[job]);
        let card = &run.lines[line].card;
        let off_card = self.lacking(card, job.reads);
        let mut shelf = self.shelves[job.office].clone();
        let missing = self.lacking(&shelf, off_card);
        let fetched = self.fetch_to(&mut shelf, missing);
        let set = self.least(off_card, |c, d| self.leads(run.plan(), card, &shelf, c, d));
        StepFound { off_card, fetched, set, shelf }
    }

    /// C's rule on copies: "d is a plan's sheet needed by the shelf's c, the card doesn't meet
    /// that need and the shelf holds d".
    pub fn leads(&self, plan: u32, card: &[Saves], shelf: &[Saves], c: usize, d: usize) -> bool {
        let need = self.ledger.need(&shelf[c], d);
        has(plan, d) && !need.is_empty() && !card[d].includes(&need) && !shelf[d].is_empty()
    }

    /// A step that was answered `ok`.
    pub fn step(&mut self, run: usize, job: usize, line: usize) -> Vec<u32> {
        let found = self.find_step(run, job, line);
        let Job { office, reads } = self.runs[run].jobs[job].clone();
        let Line { read: mask, card } = &mut self.runs[run].lines[line];
        for k in (0..self.k).filter(|k| has(found.set, *k)) {
            card[k].join(&found.shelf[k]);
        }
        let sheets = (0..self.k).filter(|k| has(reads, *k));
        let read = sheets.map(|k| (k, card[k].clone())).collect();
        *mask |= reads;
        let on = [line == 0, line == 1];
        self.runs[run].finished.push(Finished { job, read, on });
        self.shelves[office] = found.shelf;
        let (set, fetched) = (found.set, found.fetched);
        vec![reads & !set, reads & set & !fetched, reads & set & fetched]
    }
}
