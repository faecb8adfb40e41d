//! What the texts of calls met.

use crate::desk::Answer;
use crate::text::Call;

/// All twenty kinds.
const KINDS: [&str; 20] = [
    "new", "open", "fetch", "evict", "prepare", "step", "issue", "drop", "look", "explain",
    "stale", "admit", "allow", "pick", "mayhold", "maysave", "fork", "join", "forecast", "audit",
];

#[derive(Default)]
pub struct Texts {
    /// Calls that weren't refused, by kind.
    made: [u64; 20],
    refused: [u64; 16],
    broken: u64,
    unread: u64,
    empty: u64,
    /// Lines of 399 to 402 bytes.
    around_400: [u64; 4],
    long_opens: u64,
    long_audits: u64,
    /// A new that was accepted behind another line.
    new_behind: u64,
    /// A new that made a desk in form larger.
    pub grown: u64,
    pub in_form: u64,
    pub not_in_form: u64,
    /// Desks of more words than the program lends.
    pub large: u64,
    pub unended: u64,
    /// Texts handed over, and those of which a whole line was left for want of room.
    pub handed: u64,
    pub stopped: u64,
    pub cuts: u64,
    pub rooms: u64,
    /// Counts of fewer than two words, and of more.
    pub short_counts: u64,
    pub long_counts: u64,
    /// Texts by their scratch: none, a word too short, just as long as the desk, longer.
    pub scratches: [u64; 4],
    pub by_reference: u64,
}

impl Texts {
    /// Takes in a line; `behind` says that it isn't the text's first.
    pub fn enter(
        &mut self,
        line: &[u8],
        call: &Option<Call>,
        answer: &Option<Answer>,
        behind: bool,
    ) {
        self.empty += u64::from(line.is_empty());
        if (399..=402).contains(&line.len()) {
            self.around_400[line.len() - 399] += 1;
        }
        let (Some(call), Some(answer)) = (call, answer) else {
            self.unread += 1;
            return;
        };
        match (call, answer) {
            (_, Answer::Refused(number)) => self.refused[*number as usize] += 1,
            _ => {
                let kind = KINDS.iter().position(|name| *name == call.name());
                kind.into_iter().for_each(|kind| self.made[kind] += 1);
            }
        }
        match (call, answer) {
            (Call::New(_), Answer::Ok(_)) => self.new_behind += u64::from(behind),
            (Call::Open(..), Answer::Ok(_)) => self.long_opens += u64::from(line.len() > 150),
            (Call::Audit(_), Answer::Ok(_)) => self.long_audits += u64::from(line.len() > 150),
            (_, Answer::Broken(_)) => self.broken += 1,
            _ => {}
        }
    }

    /// Each count with the least that 1000 stories must give.
    pub fn table(&self) -> Vec<(String, u64, u64)> {
        let mut table = vec![
            ("texts handed over".into(), self.handed, 50_000),
            ("texts cut in two".into(), self.cuts, 25_000),
            ("texts with room of each size".into(), self.rooms, 50_000),
            ("texts stopped for want of room".into(), self.stopped, 10_000),
            ("texts by the reference".into(), self.by_reference, 10_000),
            ("texts on desks in form".into(), self.in_form, 50),
            ("texts on buffers not in form".into(), self.not_in_form, 25),
            ("texts on desks over 16,384 words".into(), self.large, 4),
            ("texts without their last line feed".into(), self.unended, 25),
            ("texts with counts of 0 or 1 word".into(), self.short_counts, 100),
            ("texts with counts of 5 words".into(), self.long_counts, 10_000),
            ("text: unread".into(), self.unread, 200),
            ("text: an empty line".into(), self.empty, 50),
            ("text: an open over 150 bytes".into(), self.long_opens, 10),
            ("text: an audit over 150 bytes".into(), self.long_audits, 10),
            ("text: a new behind another line".into(), self.new_behind, 50),
            ("text: a new that makes a desk larger".into(), self.grown, 5),
            ("text: broken".into(), self.broken, 10),
        ];
        let scratches = ["none", "a word too short", "just long enough", "longer"];
        for (name, count) in scratches.iter().zip(self.scratches) {
            table.push((format!("texts with a scratch: {name}"), count, 25));
        }
        for (more, count) in self.around_400.iter().enumerate() {
            table.push((format!("text: a line of {} bytes", 399 + more), *count, 6));
        }
        for (name, count) in KINDS.iter().zip(self.made) {
            table.push((format!("text: {name}"), count, 25));
        }
        for (number, count) in self.refused.iter().enumerate().skip(1) {
            // Bad counts are drawn seldom; 9 to 11 need desks that no calls lead to.
            let least = if matches!(number, 2 | 9 | 10 | 11) { 2 } else { 10 };
            table.push((format!("text: refused {number}"), *count, least));
        }
        table
    }
}
