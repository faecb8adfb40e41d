//! What each shelf may hold, by the book.

use super::saves::Saves;
use super::Book;
use crate::desk::{Answer, Sizes, OVER_ALLOWANCE};
use crate::text::Call;

fn held(shelf: &[Saves]) -> u32 {
    shelf.iter().filter(|copy| !copy.is_empty()).count() as u32
}

impl Book {
    /// "No shelf ever holds more", and the desk has the allowances that calls have set.
    pub fn check_within(&self, desk: &[u32], s: Sizes) -> Result<(), String> {
        for (office, allowance) in self.allowances.iter().enumerate() {
            let (given, holds) = (desk[s.allowance_at(office)], held(&self.shelves[office]));
            if given != *allowance || holds > *allowance {
                return Err(format!(
                    "shelf {office} holds {holds}, allowed {given}, by the book {allowance}"
                ));
            }
        }
        Ok(())
    }

    /// 12 exactly if the call "would leave any shelf above its allowance". It comes behind all
    /// other refusals of these calls, so the others say nothing here.
    pub fn check_over(&self, call: &Call, answer: &Answer) -> Result<(), String> {
        let given = match answer {
            Answer::Refused(OVER_ALLOWANCE) => true,
            Answer::Refused(_) => return Ok(()),
            _ => false,
        };
        if given != self.would_exceed(call) {
            return Err(format!("an allowance is exceeded: {}; answered {answer:?}", !given));
        }
        Ok(())
    }

    /// Would the call leave a shelf above its allowance, or set one that is too small?
    pub fn would_exceed(&self, call: &Call) -> bool {
        let over = |office: usize, shelf: &[Saves]| held(shelf) > self.allowances[office];
        match call {
            Call::Fetch(office, sheet) => {
                let mut shelf = self.shelves[*office as usize].clone();
                self.fetch_to(&mut shelf, 1 << sheet);
                over(*office as usize, &shelf)
            }
            Call::Step(run, job, line) | Call::Explain(run, job, line) => {
                let office = self.runs[*run as usize].jobs[*job as usize].office;
                let [run, job, line] = [*run, *job, *line].map(|number| number as usize);
                over(office, &self.find_step(run, job, line).shelf)
            }
            Call::Prepare(run) => {
                let shelves = self.prepared_shelves(*run as usize);
                shelves.iter().enumerate().any(|(office, shelf)| over(office, shelf))
            }
            Call::Allow(office, number) => held(&self.shelves[*office as usize]) > *number,
            _ => false,
        }
    }
}
