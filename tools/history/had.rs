//! A script or a log that was read, with the answers had again, and what is wrong with it.

use super::log::{self, Entry, Log};
use super::replay::{printed, Replay};
use super::{names, shrink, words};
use std::process::exit;

/// So many lost lines of a log are told.
const LOST: usize = 5;

pub fn fail(message: &str) -> ! {
    eprintln!("sheetdesk: {message}");
    exit(2);
}

/// What was read, with the answers had again.
pub struct History {
    pub name: String,
    pub log: Log,
    pub answers: Vec<String>,
}

impl History {
    pub fn of(name: &str, bytes: &[u8]) -> History {
        let mut log = log::read(bytes);
        names::set(std::mem::take(&mut log.names));
        let mut replay = Replay::fresh();
        let answers = log.entries.iter().map(|entry| printed(&replay.make(entry))).collect();
        History { name: name.to_string(), log, answers }
    }

    /// Why the file isn't taken for what it should be, if its line ends are the cause.
    pub fn line_ends(&self) -> &'static str {
        match self.log.entries.first() {
            Some(entry) if entry.text.ends_with(b"\r") => {
                "; its lines end with a carriage return, see LINE ENDS in --man"
            }
            _ => "",
        }
    }

    /// The first answer that isn't the log's, in words.
    pub fn differs(&self) -> Option<String> {
        let mut pairs = self.log.entries.iter().zip(&self.answers);
        pairs.find_map(|(entry, answer)| {
            let recorded = entry.recorded.as_ref().filter(|recorded| *recorded != answer)?;
            let call = entry.shown();
            Some(format!("line {}: {call} -> {answer}, the log has {recorded}", entry.line))
        })
    }

    /// Tells what the log has lost: the first lines, and how many more. Whether it has lost any.
    pub fn told_lost(&self) -> bool {
        let lost = self.log.lost(&self.answers);
        for said in lost.iter().take(LOST) {
            eprintln!("sheetdesk: {said}; see DIAGNOSTICS in --man");
        }
        if lost.len() > LOST {
            eprintln!("sheetdesk: and {} more lines like these", lost.len() - LOST);
        }
        !lost.is_empty()
    }

    /// Tells what the log has lost, the first line that is no call, and the first answer that
    /// isn't the log's. Gives the exit status.
    pub fn told_faults(&self) -> i32 {
        let lost = self.told_lost();
        let unread = self.log.entries.iter().find(|entry| entry.call.is_none() && !lost);
        if let Some(entry) = unread {
            let (line, text) = (entry.line, entry.shown());
            eprintln!("sheetdesk: line {line}: {text} -> unread: {}", words::unread(&entry.text));
        }
        let differs = self.differs();
        if let Some(said) = &differs {
            eprintln!("sheetdesk: {said}; see DIAGNOSTICS in --man");
        }
        if lost || unread.is_some() || differs.is_some() {
            2
        } else {
            0
        }
    }

    /// The place of the entry in question: on the line, or the last that is broken; if none is,
    /// the last that is refused.
    pub fn in_question(&self, line: Option<usize>) -> usize {
        let entries = &self.log.entries;
        let Some(line) = line else {
            let last = |word| self.answers.iter().rposition(|answer| answer.starts_with(word));
            return last("broken").or(last("refused")).unwrap_or_else(|| {
                let (name, ends) = (&self.name, self.line_ends());
                fail(&format!("no answer in {name} is broken or refused: name a line{ends}"))
            });
        };
        if line > self.log.lines {
            fail(&format!("{} has {} lines: there is no line {line}", self.name, self.log.lines));
        }
        match self.log.at_line(line) {
            Some(place) if entries[place].call.is_some() => place,
            _ => fail(&format!("line {line} is no call: it is unread whatever stands before it")),
        }
    }

    /// The calls that are left for the one in question, and what they are.
    pub fn shrunk(&self, line: Option<usize>) -> (Vec<Entry>, String) {
        let last = self.in_question(line);
        let entries = &self.log.entries[..=last];
        let left = shrink::shrink(entries);
        let mut replay = Replay::fresh();
        let answer = left.iter().fold(None, |_, place| replay.make(&entries[*place]));
        if printed(&answer) != self.answers[last] {
            fail("the shorter list has another answer: that is a fault of this program");
        }
        let said = format!(
            "{} of {} calls are left; line {} is still answered \"{}\", and leaving out any one of \
             them changes that. It is a history that suffices, not necessarily the one meant.",
            left.len(),
            self.log.entries.len(),
            entries[last].line,
            self.answers[last]
        );
        (left.into_iter().map(|place| entries[place].clone()).collect(), said)
    }
}
