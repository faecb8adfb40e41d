//! Records: of the book's own history, and those that an audit is asked about, by the ledger.

use super::ledger::Ledger;
use super::{has, Book};
use crate::desk::record::Record;
use crate::desk::version::row;
use crate::desk::{audit, in_form, Answer, UNREADABLE};

/// What may stand behind a record: "the buffer may go on past it".
const BEHIND: [u32; 3] = [7, 0, u32::MAX];

impl Book {
    /// The record of the book's history, which began with new.
    pub fn record(&self) -> Record {
        Record { k: self.k, w: self.w, issues: self.ledger.recorded(self.w) }
    }

    /// "It accepts the record, if it fits the header, of any history our own desk made from new",
    /// with more words behind it too, and not if its last word is cut off.
    pub fn check_record(&self) -> Result<(), String> {
        let record = self.record();
        let Some(mut words) = record.words() else {
            return Ok(());
        };
        let (total, accepted) = (words.len(), Answer::Ok(vec![0]));
        words.extend(BEHIND);
        let given = [audit(&words[..total]), audit(&words)];
        if given != [accepted.clone(), accepted] {
            return Err(format!("the desk's own record {words:?} is answered {given:?}"));
        }
        let cut = audit(&words[..total - 1]);
        let again = Record::read(&words);
        if cut != Answer::Refused(UNREADABLE) || again.is_none_or(|again| again != record) {
            return Err(format!("the desk's own record {words:?} is read otherwise"));
        }
        Ok(())
    }

    /// An issue of a run, just entered, is what a client can write down: the sheets that the run
    /// had read, rising, each with the own row of its version on the card before the issue; and
    /// each of these rows stands for the copy that was read.
    pub fn check_recorded(&self, before: &[u32], run: u32) -> Result<(), String> {
        let s = in_form(before).ok_or("the desk is not in form")?;
        let record = self.record();
        let reads = record.issues.last().map_or(&[][..], |issue| &issue.reads);
        let run = run as usize;
        let mask = before[s.read_at(run, 0)];
        let sheets = (0..s.k).filter(|k| has(mask, *k)).collect::<Vec<usize>>();
        if !reads.iter().map(|read| read.sheet).eq(sheets.iter().copied()) {
            return Err(format!("the issue's reads {reads:?}, the run had read {sheets:?}"));
        }
        for (read, copy) in reads.iter().zip(self.ledger.last_read()) {
            let card = row(s.words(before, s.card_at(run, read.sheet)), s.w, read.sheet);
            if read.counts != card {
                return Err(format!("the record has {read:?}, the card's own row is {card:?}"));
            }
            if !self.ledger.copy_of(read).same(copy) {
                return Err(format!("{read:?} does not stand for what was read: {copy:?}"));
            }
        }
        Ok(())
    }
}

/// The answer to a readable record by a ledger of its own, into which its issues are entered: 0,
/// or the first whose reads lack a save, by document 01's needs of copies.
pub fn by_ledger(record: &Record) -> u32 {
    let mut ledger = Ledger::default();
    let mut first = 0;
    for (at, issue) in record.issues.iter().enumerate() {
        let copies = issue.reads.iter().map(|read| ledger.copy_of(read)).collect::<Vec<_>>();
        let sheets = issue.reads.iter().map(|read| read.sheet).zip(&copies);
        let snapshot = sheets.clone().all(|(sheet, copy)| {
            sheets.clone().all(|(other, read)| {
                copy.includes(&ledger.need(read, sheet)) && (sheet != other || copy.same(read))
            })
        });
        if first == 0 && !snapshot {
            first = at as u32 + 1;
        }
        ledger.enter(issue.writer, issue.saved, &copies);
    }
    first
}

/// An audit's answer against the one by the ledger; of unreadable records there is none. Answers
/// whether it was readable.
pub fn check_audit(words: &[u32], answer: &Answer) -> Result<bool, String> {
    let due = match Record::read(words) {
        Some(record) => Answer::Ok(vec![by_ledger(&record)]),
        None => Answer::Refused(UNREADABLE),
    };
    if *answer != due {
        return Err(format!("audit answered {answer:?}, by the ledger it is {due:?}"));
    }
    Ok(due != Answer::Refused(UNREADABLE))
}
