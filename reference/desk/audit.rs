//! Audit: "Checking what older clients issued", on sets of saves.
//!
//! It takes time as the third power of the number of issues; `walked.rs` is for long records.

use super::record::{counted, saves, Issue, Read, Record};
use super::{Answer, UNREADABLE};

/// "It answers 0 if it accepts, otherwise the number, from 1, of the first issue whose reads are
/// no snapshot. An unreadable record is 15, tested first in this call." It needs no desk.
pub fn audit(words: &[u32]) -> Answer {
    let Some(record) = Record::read(words) else {
        return Answer::Refused(UNREADABLE);
    };
    let history = History::of(&record);
    let first = (0..record.issues.len()).find(|issue| !history.is_snapshot(*issue));
    Answer::Ok(vec![first.map_or(0, |issue| issue as u32 + 1)])
}

/// A set of saves: "a save is a sheet in an issue", so for each issue a mask of sheets.
#[derive(Clone, PartialEq, Eq, Debug)]
struct Set(Vec<u32>);

impl Set {
    fn join(&mut self, other: &Set) {
        for (mine, more) in self.0.iter_mut().zip(&other.0) {
            *mine |= more;
        }
    }

    fn includes(&self, other: &Set) -> bool {
        self.0.iter().zip(&other.0).all(|(mine, asked)| asked & !mine == 0)
    }

    fn of_sheet(&self, sheet: usize) -> Set {
        Set(self.0.iter().map(|mask| mask & 1 << sheet).collect())
    }
}

/// "The record's own history."
struct History<'a> {
    issues: &'a [Issue],
    /// For each issue the saves that stand behind its saves by one of document 01's second and
    /// third causes: its writer's earlier issues, and what it had read.
    before: Vec<Set>,
}

impl<'a> History<'a> {
    fn of(record: &'a Record) -> History<'a> {
        let issues = record.issues.as_slice();
        let mut history = History { issues, before: Vec::new() };
        for (at, issue) in issues.iter().enumerate() {
            let own = |other: &Issue| if other.writer == issue.writer { other.saved } else { 0 };
            let mut before = Set(issues[..at].iter().map(own).collect());
            before.0.resize(issues.len(), 0);
            issue.reads.iter().for_each(|read| before.join(&history.read_set(read)));
            history.before.push(before);
        }
        history
    }

    /// A read's counts "stand for its saves by each writer up to the issue of that writer so
    /// counted".
    fn read_set(&self, read: &Read) -> Set {
        let mut set = Set(vec![0; self.issues.len()]);
        for (writer, count) in read.counts.iter().enumerate() {
            let Some(last) = counted(self.issues, writer, *count) else {
                continue;
            };
            for (at, issue) in self.issues[..=last].iter().enumerate() {
                if issue.writer == writer && saves(issue, read.sheet) {
                    set.0[at] |= 1 << read.sheet;
                }
            }
        }
        set
    }

    /// All that stands behind a save of the set: "save s stands behind save t if both are of one
    /// issue and differ in sheet; if s is of an earlier issue by t's writer; if the run that
    /// issued t had read a version that includes s; or through a chain of these".
    fn behind(&self, set: &Set) -> Set {
        let mut found = Set(vec![0; self.issues.len()]);
        loop {
            let known = found.clone();
            for at in (0..self.issues.len()).rev() {
                let here = set.0[at] | found.0[at];
                if here != 0 {
                    found.join(&self.before[at]);
                    found.0[at] |= others(self.issues[at].saved, here);
                }
            }
            if found == known {
                return found;
            }
        }
    }

    /// "Each save of a read sheet that stands behind a save in any of these reads is in that
    /// sheet's read", and no sheet is "read twice by an issue with unequal counts".
    fn is_snapshot(&self, issue: usize) -> bool {
        let reads = &self.issues[issue].reads;
        let mut any = Set(vec![0; self.issues.len()]);
        reads.iter().for_each(|read| any.join(&self.read_set(read)));
        let behind = self.behind(&any);
        reads.iter().all(|read| {
            let mut twice = reads.iter().filter(|other| other.sheet == read.sheet);
            twice.all(|other| other.counts == read.counts)
                && self.read_set(read).includes(&behind.of_sheet(read.sheet))
        })
    }
}

/// The sheets of an issue that differ from one of these.
fn others(saved: u32, sheets: u32) -> u32 {
    if sheets.count_ones() == 1 {
        saved & !sheets
    } else {
        saved
    }
}
