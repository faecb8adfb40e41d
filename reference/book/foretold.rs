//! Forecast on copies: the steps of the jobs not done, made in a copy of the book.

use super::{has, Book};
use crate::desk::layout::DONE;
use crate::desk::{Answer, Sizes, NOT_ON_MASTER, NO_RIGHT, OVER_ALLOWANCE};
use crate::text::Call;

impl Book {
    /// A forecast that isn't refused; the desk says which jobs are done.
    pub fn check_forecast(
        &self,
        run: usize,
        answer: &Answer,
        desk: &[u32],
        s: Sizes,
    ) -> Result<(), String> {
        let done = desk[s.run_at(run) + DONE];
        let due = self.clone().foretell(run, done);
        if *answer != due {
            return Err(format!("forecast answered {answer:?}, the book foretells {due:?}"));
        }
        Ok(())
    }

    /// "Stepping the jobs not done, lowest first, nothing in between". An upstream job is lower,
    /// so none waits.
    fn foretell(&mut self, run: usize, done: u32) -> Answer {
        for job in (0..self.runs[run].jobs.len()).filter(|job| !has(done, *job)) {
            let (step, number) = (Call::Step(run as u32, job as u32, 0), job as u32);
            let found = self.find_step(run, job, 0);
            let lacks = self.lacking(&found.shelf, found.off_card) != 0;
            let broken = found.set & self.runs[run].lines[0].read;
            match () {
                _ if self.lacks_right(&step) => return Answer::Turned(number, NO_RIGHT),
                _ if lacks => return Answer::Turned(number, NOT_ON_MASTER),
                _ if self.would_exceed(&step) => return Answer::Turned(number, OVER_ALLOWANCE),
                _ if broken != 0 => return Answer::Breaks(number, broken),
                _ => self.step(run, job, 0),
            };
        }
        Answer::Through
    }
}
