//! What the calls met, and how much of it there must be.

use crate::audited::Audited;
use crate::book::follow::Seen;
use crate::counted::Texts;
use crate::desk::version::NOBODY;
use crate::desk::Answer;
use crate::text::Call;
use std::sync::atomic::Ordering;

/// Where a desk came from.
#[derive(Clone, Copy)]
pub enum Source {
    Story,
    Reached,
    Damaged,
    Short,
    Bent,
    Admitted,
    Built,
    Noise,
}

const SOURCES: [&str; 8] =
    ["story", "reached", "damaged", "short", "bent", "admitted", "built", "noise"];
/// The calls that are answered `ok`: explain and forecast never are.
const CALLS: [&str; 17] = [
    "new", "open", "fetch", "evict", "prepare", "step", "issue", "drop", "look", "stale", "admit",
    "allow", "pick", "mayhold", "maysave", "fork", "join",
];
/// The calls that a missing right turns down.
const BARRED: [&str; 5] = ["fetch", "prepare", "step", "explain", "issue"];
/// The calls that a line or a mark turns down.
const MARKED: [&str; 7] = ["prepare", "step", "explain", "issue", "fork", "join", "forecast"];
/// What a forecast answers: goes through, breaks, or the number by which a job is turned down.
const FORETOLD: [&str; 5] = ["through", "breaks", "turned 7", "turned 12", "turned 13"];

#[derive(Default)]
pub struct Met {
    pub calls: u64,
    pub rivals: u64,
    pub largest: usize,
    /// Desks in form, by source.
    pub in_form: [u64; 8],
    /// Answers of covers: 0, 1 and 2.
    pub covers: [u64; 3],
    /// Answers of compare: 0 to 4.
    pub compared: [u64; 5],
    /// Looks by the standing that they answer.
    standings: [u64; 4],
    /// Looks at a version with several leading writers.
    several_leaders: u64,
    /// Stales answered with a mask that isn't 0.
    marks: u64,
    /// Calls answered ok, by source.
    by_source: [u64; 8],
    /// Answered ok, by call.
    ok: [u64; 17],
    refused: [u64; 15],
    /// Audits, which are counted by themselves: they are answered without a desk.
    pub audited: Audited,
    /// Texts of calls, which are counted by themselves too.
    pub texts: Texts,
    /// Refused for a missing right, by call.
    barred: [u64; 5],
    /// Refused for a line or a mark, by call.
    marked: [u64; 7],
    /// Forecasts by their answer; those whose scratch was too short.
    foretold: [u64; 5],
    pub short_scratches: u64,
    /// Steps answered ok, broken and explained by a path, on line 1.
    on_line_1: [u64; 3],
    joins_broken: u64,
    breaks: u64,
    clear: u64,
    nothing: u64,
    paths: u64,
    long_paths: u64,
    evicts_of_more: u64,
    fetches_of_more: u64,
    no_room: u64,
    /// By the books that began at an admission.
    pub by_books: Seen,
}

impl Met {
    pub fn enter(&mut self, source: Source, call: &Call, answer: &Option<Answer>) {
        self.calls += 1;
        if let (Call::Audit(_), Some(answer)) = (call, answer) {
            return self.audited.enter(answer);
        }
        self.enter_line(call, answer);
        match answer {
            None => self.no_room += 1,
            Some(Answer::Broken(_)) => match call {
                Call::Join(_) => self.joins_broken += 1,
                _ => self.breaks += 1,
            },
            Some(Answer::Clear) => self.clear += 1,
            Some(Answer::Nothing) => self.nothing += 1,
            Some(Answer::Through) => self.foretold[0] += 1,
            Some(Answer::Breaks(..)) => self.foretold[1] += 1,
            Some(Answer::Turned(_, number)) => {
                let place = FORETOLD.iter().position(|name| *name == format!("turned {number}"));
                place.into_iter().for_each(|place| self.foretold[place] += 1);
            }
            Some(Answer::Path(sheets)) => {
                self.paths += 1;
                self.long_paths += u64::from(sheets.len() > 2);
            }
            Some(Answer::Refused(number)) => {
                self.refused[*number as usize] += 1;
                let place = BARRED.iter().position(|name| *number == 13 && *name == call.name());
                place.into_iter().for_each(|place| self.barred[place] += 1);
                let place = MARKED.iter().position(|name| *number == 14 && *name == call.name());
                place.into_iter().for_each(|place| self.marked[place] += 1);
            }
            Some(Answer::Ok(numbers)) => {
                self.by_source[source as usize] += 1;
                let place = CALLS.iter().position(|name| *name == call.name());
                place.into_iter().for_each(|place| self.ok[place] += 1);
                let several = u64::from(numbers[0].count_ones() > 1);
                match call {
                    Call::Fetch(..) => self.fetches_of_more += several,
                    Call::Evict(..) => self.evicts_of_more += several,
                    Call::Look(..) => {
                        self.standings[numbers[numbers.len() - 1] as usize] += 1;
                        self.several_leaders += u64::from(numbers[1].count_ones() > 1);
                    }
                    Call::Stale(..) => self.marks += u64::from(numbers[0] != 0),
                    _ => {}
                }
            }
        }
    }

    /// Takes in a step or explain on line 1.
    fn enter_line(&mut self, call: &Call, answer: &Option<Answer>) {
        match (call, answer) {
            (Call::Step(_, _, 1), Some(Answer::Ok(_))) => self.on_line_1[0] += 1,
            (Call::Step(_, _, 1), Some(Answer::Broken(_))) => self.on_line_1[1] += 1,
            (Call::Explain(_, _, 1), Some(Answer::Path(_))) => self.on_line_1[2] += 1,
            _ => {}
        }
    }

    /// Each count with the least that 1000 stories must give.
    fn table(&self) -> Vec<(String, u64, u64)> {
        let mut table = vec![
            ("merges of rivals".into(), self.rivals, 4000),
            ("merges that name no leader".into(), NOBODY.load(Ordering::Relaxed), 100),
            ("looks at several leaders".into(), self.several_leaders, 1000),
            ("marks that aren't 0".into(), self.marks, 1000),
            ("breaks".into(), self.breaks, 1000),
            ("broken joins".into(), self.joins_broken, 250),
            ("steps on line 1".into(), self.on_line_1[0], 750),
            ("breaks on line 1".into(), self.on_line_1[1], 100),
            ("paths on line 1".into(), self.on_line_1[2], 50),
            ("explained as clear".into(), self.clear, 1000),
            ("nothing to pick".into(), self.nothing, 500),
            ("paths".into(), self.paths, 500),
            ("paths of three sheets or more".into(), self.long_paths, 100),
            ("fetches of several sheets".into(), self.fetches_of_more, 1000),
            ("evictions of several sheets".into(), self.evicts_of_more, 1000),
            ("answers without room".into(), self.no_room, 500),
            ("damaged desks in form".into(), self.in_form[Source::Damaged as usize], 1000),
            ("built desks in form".into(), self.in_form[Source::Built as usize], 1000),
            ("calls by a book".into(), self.by_books.calls as u64, 10_000),
            ("steps by a book against all choices".into(), self.by_books.tried as u64, 1000),
            ("breaks by a book".into(), self.by_books.broken as u64, 50),
            ("pairs of finished jobs by a book".into(), self.by_books.snapshots as u64, 1000),
            ("joins by a book".into(), self.by_books.joins as u64, 50),
            ("broken joins by a book".into(), self.by_books.joins_broken as u64, 10),
            ("forecasts by a book".into(), self.by_books.forecasts as u64, 100),
            ("forecasts with too short a scratch".into(), self.short_scratches, 100),
        ];
        table.extend(self.audited.table());
        table.extend(self.texts.table());
        for (answer, count) in FORETOLD.iter().zip(self.foretold) {
            table.push((format!("forecast {answer}"), count, 50));
        }
        for (name, count) in CALLS.iter().zip(self.ok) {
            table.push((format!("{name} ok"), count, 600));
        }
        for (number, count) in self.refused.iter().enumerate().skip(1) {
            let least = if matches!(number, 9 | 10) { 20 } else { 500 };
            table.push((format!("refused {number}"), *count, least));
        }
        for (name, count) in BARRED.iter().zip(self.barred) {
            table.push((format!("{name} refused 13"), count, 50));
        }
        for (name, count) in MARKED.iter().zip(self.marked) {
            table.push((format!("{name} refused 14"), count, 50));
        }
        // Short buffers are all refused.
        let kinds = SOURCES.iter().zip(self.by_source).filter(|(name, _)| **name != "short");
        for (name, count) in kinds {
            table.push((format!("ok on {name}"), count, if *name == "noise" { 10 } else { 500 }));
        }
        for (answer, count) in self.covers.iter().enumerate() {
            table.push((format!("covers {answer}"), *count, 500));
        }
        for (answer, count) in self.compared.iter().enumerate() {
            table.push((format!("compare {answer}"), *count, 500));
        }
        for (standing, count) in self.standings.iter().enumerate() {
            table.push((format!("looks of standing {standing}"), *count, 100));
        }
        table
    }

    pub fn print(&self) -> String {
        let lines = self.table().into_iter().map(|(name, count, _)| format!("{name} {count}"));
        let lines = lines.collect::<Vec<String>>().join(", ");
        format!("{lines}; largest desk {} words", self.largest)
    }

    /// What was met too seldom. Under 500 stories chance has too large a part.
    pub fn too_few(&self, stories: u64) -> Vec<String> {
        if stories < 500 {
            return Vec::new();
        }
        let mut few = Vec::new();
        for (name, count, least) in self.table() {
            let least = least * stories / 1000;
            if count < least {
                few.push(format!("{name}: {count} of {least}"));
            }
        }
        if self.largest < 419_699 {
            few.push(format!("the largest desk: {} words", self.largest));
        }
        few
    }
}
