//! One call after the other: what each was answered, and the desk that it left, held against the
//! book.

use super::lines::broken_mask;
use super::{Book, Run};
use crate::desk::{admit, in_form, Answer};
use crate::text::Call;

/// How much a list of calls gave to test.
#[derive(Default)]
pub struct Seen {
    pub calls: usize,
    pub snapshots: usize,
    pub tried: usize,
    pub broken: usize,
    pub paths: usize,
    pub joins: usize,
    pub joins_broken: usize,
    pub forecasts: usize,
    /// Audits that were readable; records of the book's own history.
    pub audits: usize,
    pub records: usize,
}

impl Book {
    /// A call with its answer, and the desk's words behind it: every claim.
    pub fn follow(
        &mut self,
        call: &Call,
        answer: &Answer,
        words: &[u32],
        seen: &mut Seen,
    ) -> Result<(), String> {
        seen.calls += 1;
        let refused = matches!(answer, Answer::Refused(_));
        self.check_line(call, answer)?;
        self.check_right(call, answer)?;
        self.check_over(call, answer)?;
        match call {
            _ if refused => {}
            Call::Step(run, job, line) => self.check_step([*run, *job, *line], answer, seen)?,
            Call::Explain(run, job, line) => self.check_path([*run, *job, *line], answer, seen)?,
            Call::Join(run) => self.check_joined(*run as usize, answer, words, seen)?,
            Call::Forecast(run) => {
                let s = in_form(words).ok_or("the desk is not in form")?;
                self.check_forecast(*run as usize, answer, words, s)?;
                seen.forecasts += 1;
            }
            _ => {}
        }
        if let (Call::Pick, Some(s), false) = (call, in_form(words), refused) {
            self.check_pick(answer, words, s)?;
        }
        self.check_answer(call, answer)?;
        self.check_claims(words)?;
        seen.snapshots += self.runs.iter().map(pairs).sum::<usize>();
        Ok(())
    }

    /// The claims on desk and book as any call must leave them.
    fn check_claims(&self, words: &[u32]) -> Result<(), String> {
        let s = in_form(words).ok_or("the desk is not in form")?;
        self.check_cuts(words, s)?;
        self.check_versions(words, s)?;
        self.check_none_ahead(words, s)?;
        self.check_named()?;
        self.check_marks(words, s)?;
        self.check_within(words, s)?;
        self.check_unbarred(words, s)?;
        self.check_round(words, s)?;
        self.check_reads(words, s)?;
        self.check_cards()?;
        self.check_lists()?;
        if admit(words) != Answer::Ok(vec![0]) {
            return Err("admit doesn't take the desk back".into());
        }
        self.check_snapshots()
    }

    /// 3d: a step breaks exactly if no choice stands; the broken sheets are those of C.
    fn check_step(
        &self,
        step: [u32; 3],
        answer: &Answer,
        seen: &mut Seen,
    ) -> Result<(), String> {
        let [run, job, line] = step.map(|number| number as usize);
        let due = self.find_step(run, job, line).set & self.runs[run].lines[line].read;
        let given = broken_mask(answer);
        if given != due {
            return Err(format!("the step broke with {given}, the book has {due}"));
        }
        seen.broken += usize::from(given != 0);
        if let Some(goes) = self.goes_through(run, job, line) {
            seen.tried += 1;
            if goes != (given == 0) {
                return Err(format!("3d: broken with {given}, some choice stands: {goes}"));
            }
        }
        Ok(())
    }

    /// The path is the one on copies, and there is one exactly if no choice of 3d stands.
    fn check_path(
        &self,
        step: [u32; 3],
        answer: &Answer,
        seen: &mut Seen,
    ) -> Result<(), String> {
        let [run, job, line] = step.map(|number| number as usize);
        let due = self.find_path(run, job, line).map_or(Answer::Clear, Answer::Path);
        if *answer != due {
            return Err(format!("explain answered {answer:?}, the book has {due:?}"));
        }
        seen.paths += usize::from(due != Answer::Clear);
        match self.goes_through(run, job, line) {
            Some(goes) if goes != (due == Answer::Clear) => {
                Err(format!("explain answered {answer:?}, some choice stands: {goes}"))
            }
            _ => Ok(()),
        }
    }

    /// A join that isn't refused.
    fn check_joined(
        &self,
        run: usize,
        answer: &Answer,
        words: &[u32],
        seen: &mut Seen,
    ) -> Result<(), String> {
        let s = in_form(words).ok_or("the desk is not in form")?;
        seen.joins += usize::from(broken_mask(answer) == 0);
        seen.joins_broken += usize::from(broken_mask(answer) != 0);
        self.check_join(run, answer, words, s)
    }

    /// Feeds the book and compares what the rules on copies answer. `Clear`, `Path`, `Nothing` and
    /// what a forecast answers are not `ok`: nothing changes. Of leading writers a book that began
    /// at an admission knows nothing.
    fn check_answer(&mut self, call: &Call, answer: &Answer) -> Result<(), String> {
        let Answer::Ok(numbers) = answer else {
            self.feed(call, false);
            return Ok(());
        };
        let mut due = self.feed(call, true);
        if let (Call::Look(..), false) = (call, self.from_new) {
            due[1] = numbers[1];
        }
        // An audit is no call on a desk.
        let known = !matches!(call, Call::New(_) | Call::Pick | Call::Audit(_));
        if known && due != *numbers {
            return Err(format!("the desk answered {numbers:?}, the book {due:?}"));
        }
        Ok(())
    }
}

/// The pairs of a run's finished jobs that share a snapshot.
fn pairs(run: &Run) -> usize {
    let entries = run.finished.iter().enumerate();
    let shared = entries.map(|(place, one)| {
        run.finished[..place].iter().filter(|other| one.shares_line(other)).count()
    });
    shared.sum()
}
