//! Who may hold and who may save, by the book.

use super::saves::Saves;
use super::{has, Book};
use crate::desk::{Answer, Sizes, NO_RIGHT};
use crate::text::Call;

/// The refusals that are tested before 13; behind all others a right was there.
const BEFORE: [u32; 5] = [1, 3, 4, 14, 6];

/// The sheets whose copy isn't empty.
fn held(shelf: &[Saves]) -> u32 {
    let holds = shelf.iter().enumerate().filter(|(_, copy)| !copy.is_empty());
    holds.fold(0, |mask, (k, _)| mask | 1 << k)
}

impl Book {
    /// "Taking a sheet from an office evicts it there by the evict rule", which starts with the
    /// copies that aren't empty and not in the mask.
    pub fn set_may_hold(&mut self, office: usize, mask: u32) -> Vec<u32> {
        let taken = held(&self.shelves[office]) & !mask;
        self.let_go(office, taken);
        self.may_hold[office] = mask;
        vec![0]
    }

    /// No copy changes.
    pub fn set_may_save(&mut self, writer: usize, mask: u32) -> Vec<u32> {
        self.may_save[writer] = mask;
        vec![0]
    }

    /// "No shelf ever holds a sheet barred to its office", and the desk has the rights that calls
    /// have set.
    pub fn check_unbarred(&self, desk: &[u32], s: Sizes) -> Result<(), String> {
        for office in 0..s.n {
            let (given, due) = (desk[s.mayhold_at(office)], self.may_hold[office]);
            let on_desk = (0..s.k).any(|k| desk[s.shelf_at(office, k)] != 0 && !has(given, k));
            if given != due || on_desk || held(&self.shelves[office]) & !due != 0 {
                return Err(format!("shelf {office} may hold {given}, by the book {due}"));
            }
        }
        for writer in 0..s.w {
            let (given, due) = (desk[s.maysave_at(writer)], self.may_save[writer]);
            if given != due {
                return Err(format!("writer {writer} may save {given}, by the book {due}"));
            }
        }
        Ok(())
    }

    /// 13 exactly "where a right is missing", unless something is tested before it.
    pub fn check_right(&self, call: &Call, answer: &Answer) -> Result<(), String> {
        let given = match answer {
            Answer::Refused(number) if BEFORE.contains(number) => return Ok(()),
            Answer::Refused(number) => *number == NO_RIGHT,
            _ => false,
        };
        if given != self.lacks_right(call) {
            return Err(format!("a right is missing: {}; answered {answer:?}", !given));
        }
        Ok(())
    }

    /// Does the call need a sheet that its office may not hold, or its writer not save? Each sheet
    /// of T is asked for, or the shelf would hold it afterwards.
    pub fn lacks_right(&self, call: &Call) -> bool {
        let barred = |office: usize, sheets: u32| sheets & !self.may_hold[office] != 0;
        match call {
            Call::Fetch(office, sheet) => {
                let office = *office as usize;
                let mut shelf = self.shelves[office].clone();
                self.fetch_to(&mut shelf, 1 << sheet);
                barred(office, 1 << sheet | held(&shelf))
            }
            Call::Step(run, job, line) | Call::Explain(run, job, line) => {
                let asked = &self.runs[*run as usize].jobs[*job as usize];
                let [run, job, line] = [*run, *job, *line].map(|number| number as usize);
                let shelf = self.find_step(run, job, line).shelf;
                barred(asked.office, asked.reads | held(&shelf))
            }
            Call::Prepare(run) => {
                let shelves = self.prepared_shelves(*run as usize);
                let mut asked = self.runs[*run as usize].jobs.iter();
                asked.any(|job| barred(job.office, job.reads | held(&shelves[job.office])))
            }
            Call::Issue(_, writer, mask) => mask & !self.may_save[*writer as usize] != 0,
            _ => false,
        }
    }
}
