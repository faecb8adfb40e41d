//! Fork and join on copies, and what is tested of a run's lines.

use super::saves::Saves;
use super::{has, Book, Line, Run};
use crate::desk::layout::LEADERS;
use crate::desk::{Answer, Sizes, FORKED, JOINED, NEVER_FORKED, WRONG_LINE};
use crate::text::Call;

/// The refusals that are tested before 14.
const BEFORE: [u32; 3] = [1, 3, 4];

/// "Merge is union", sheet by sheet.
fn united(run: &Run) -> Vec<Saves> {
    let [one, other] = &run.lines;
    let both = |(mine, theirs): (&Saves, &Saves)| {
        let mut copy = mine.clone();
        copy.join(theirs);
        copy
    };
    one.card.iter().zip(&other.card).map(both).collect()
}

impl Book {
    /// Copies and reads of line 0 become line 1's too; all that was read before stands on both.
    pub fn fork(&mut self, run: usize) -> Vec<u32> {
        let run = &mut self.runs[run];
        run.lines[1] = run.lines[0].clone();
        run.mark = FORKED;
        run.finished.iter_mut().for_each(|entry| entry.on = [true, true]);
        vec![0]
    }

    /// Copies and reads of both lines become line 0's, and line 1 is empty; all that was read
    /// stands on line 0.
    pub fn join(&mut self, run: usize) -> Vec<u32> {
        let k = self.k;
        let run = &mut self.runs[run];
        let read = run.lines[0].read | run.lines[1].read;
        run.lines = [Line { read, card: united(run) }, Line::fresh(k)];
        run.mark = JOINED;
        run.finished.iter_mut().for_each(|entry| entry.on = [true, false]);
        vec![0]
    }

    /// Are these copies one version? On a desk from new that is one set of saves. On an admitted
    /// one a later count may hide a listed one: there they are compared as counted.
    pub fn one_version(&self, one: &Saves, other: &Saves) -> bool {
        if self.from_new {
            return one.alike(other);
        }
        let counted = |copy: &Saves| self.ledger.counted(copy, self.k, self.w);
        one.same(other) && counted(one) == counted(other)
    }

    /// The sheets that were read on a line and whose union isn't the version that was read.
    fn moved(&self, run: usize) -> u32 {
        let run = &self.runs[run];
        let both = united(run);
        let moves = |line: &Line, k: usize| {
            has(line.read, k) && !self.one_version(&both[k], &line.card[k])
        };
        let moved = (0..self.k).filter(|k| run.lines.iter().any(|line| moves(line, *k)));
        moved.fold(0, |mask, k| mask | 1 << k)
    }

    /// A join that isn't refused breaks with just the sheets that move. On an admitted desk one may
    /// also move by its leading writers alone, of which this book knows nothing: then the two
    /// lines, which a break leaves as they were, name unequal ones.
    pub fn check_join(
        &self,
        run: usize,
        answer: &Answer,
        desk: &[u32],
        s: Sizes,
    ) -> Result<(), String> {
        let (given, due) = (broken_mask(answer), self.moved(run));
        let leaders = |line: usize, k: usize| desk[s.line_card_at(run, line, k) + LEADERS];
        let unlike = |k: usize| !self.from_new && leaders(0, k) != leaders(1, k);
        let more = (0..s.k).filter(|k| has(given & !due, *k));
        if due & !given != 0 || !more.into_iter().all(unlike) {
            return Err(format!("the join broke with {given}, the book has {due}"));
        }
        Ok(())
    }

    /// 14 exactly for "a second fork, a join when not forked, prepare or issue when forked, line 1
    /// on a run not forked, or a line above 1", and a forecast of "a forked run", unless something
    /// is tested before it.
    pub fn check_line(&self, call: &Call, answer: &Answer) -> Result<(), String> {
        let given = match answer {
            Answer::Refused(number) if BEFORE.contains(number) => return Ok(()),
            Answer::Refused(number) => *number == WRONG_LINE,
            _ => false,
        };
        let mark = |run: &u32| self.runs[*run as usize].mark;
        let due = match call {
            Call::Fork(run) => mark(run) != NEVER_FORKED,
            Call::Join(run) => mark(run) != FORKED,
            Call::Prepare(run) | Call::Issue(run, ..) => mark(run) == FORKED,
            Call::Forecast(run) => mark(run) == FORKED,
            Call::Step(run, _, line) | Call::Explain(run, _, line) => match line {
                0 => false,
                1 => mark(run) != FORKED,
                _ => true,
            },
            _ => false,
        };
        if given != due {
            return Err(format!("there is no such line: {due}; answered {answer:?}"));
        }
        Ok(())
    }

    /// The desk has the marks and read masks that the calls have left.
    pub fn check_reads(&self, desk: &[u32], s: Sizes) -> Result<(), String> {
        for (number, run) in self.runs.iter().enumerate() {
            let given = [0, 1].map(|line| desk[s.read_at(number, line)]);
            let (mark, due) = (desk[s.mark_at(number)], [run.lines[0].read, run.lines[1].read]);
            if mark != run.mark || given != due {
                let book = (run.mark, due);
                return Err(format!("run {number} has mark {mark}, reads {given:?}; {book:?}"));
            }
        }
        Ok(())
    }

    /// Each line's card is a cut of the plan's sheets: no other is held, and a need among them is
    /// met.
    pub fn check_cards(&self) -> Result<(), String> {
        for (number, run) in self.runs.iter().enumerate() {
            for (line, Line { card, .. }) in run.lines.iter().enumerate() {
                let plan = (0..self.k).filter(|k| has(run.plan(), *k)).collect::<Vec<usize>>();
                let only = (0..self.k).all(|k| plan.contains(&k) || card[k].is_empty());
                let met = |k: usize, d: usize| {
                    k == d || card[d].includes(&self.ledger.need(&card[k], d))
                };
                if !only || !plan.iter().all(|k| plan.iter().all(|d| met(*k, *d))) {
                    return Err(format!("run {number}: line {line} is no cut of the plan"));
                }
            }
        }
        Ok(())
    }
}

/// The mask of a break, 0 if the answer is none.
pub fn broken_mask(answer: &Answer) -> u32 {
    match answer {
        Answer::Broken(mask) => *mask,
        _ => 0,
    }
}
