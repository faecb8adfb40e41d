//! Runs with two lines: what a fork and a join did, and a join that breaks its run.

use super::breaks::{self, Broken};
use super::remedy;
use super::story::{Row, State};
use super::told::{Had, Told};
use super::versions::{held, sheets};
use super::words::{sheet_list, version_list};
use crate::text::Call;

impl Told {
    /// The second line begins as the first.
    pub fn fork(&mut self, row: &mut Row, call: &Call, run: usize) {
        self.book.feed(call, true);
        self.had[run][1] = self.had[run][0].clone();
        row.words = format!("Run {run} forks: line 1 begins with what line 0 has.");
    }

    /// The first line gets what the second has.
    pub fn join(&mut self, row: &mut Row, call: &Call, run: usize) {
        self.book.feed(call, true);
        let second = std::mem::take(&mut self.had[run][1]);
        self.had[run][0].unite(second);
        let card = &self.book.runs[run].branches[0].card;
        row.versions = self.versions(card, held(card));
        row.words = match row.versions.as_slice() {
            [] => format!("Run {run} joins its lines: its card has nothing."),
            carried => format!("Run {run} joins its lines: its card has {}.", version_list(carried)),
        };
    }

    /// A join over sheets of which the lines have two versions.
    pub fn unjoined(&mut self, row: &mut Row, call: &Call, run: usize, mask: u32) {
        row.chains = sheets(mask).filter_map(|k| breaks::parted(self, run, k)).collect();
        self.runs[run] = State::Broken;
        self.book.feed(call, false);
        let remedy = remedy::remedy(&self.book, run, mask);
        row.broken = Some(Broken { run, step: None, remedy });
        row.words = format!(
            "Run {run} can't join its lines: {} would change, which a line has read. Run {run} is \
             broken.",
            sheet_list(mask)
        );
    }
}

impl Had {
    /// What both lines have, in the order of the calls.
    fn unite(&mut self, other: Had) {
        self.reads.extend(other.reads);
        self.reads.sort_by_key(|read| read.1);
        for brought in other.brought {
            if !self.brought.contains(&brought) {
                self.brought.push(brought);
            }
        }
        self.brought.sort_by_key(|brought| brought.line);
    }
}
