//! What the calls that were done have moved: arrows, versions, plain words.

use super::copies::Saves;
use super::story::{Arrow, Kind, Lane, Row, State};
use super::told::{Brought, Stepped, Told};
use super::versions::{held, mask, sheets};
use super::words::{self, sheet_list, version_list};
use crate::text::Call;

impl Told {
    pub fn fetch(&self, row: &mut Row, office: usize, sheet: u32, set: u32) {
        row.arrows.push(Arrow::fetch(office, set));
        row.versions = self.versions(&self.book.master, set);
        row.words = format!(
            "Office {office} fetches {}.",
            self.with_others(&self.book.master, 1 << sheet, set, "it what it needs")
        );
    }

    pub fn evict(&self, row: &mut Row, office: usize, sheet: u32, set: u32) {
        let (from, to) = (Lane::Office(office), Lane::Office(office));
        row.arrows.push(Arrow { kind: Kind::Evict, from, to, sheets: set });
        row.versions = self.versions(&self.book.shelves[office], set);
        row.words = format!(
            "Office {office} evicts {}.",
            self.with_others(&self.book.shelves[office], 1 << sheet, set, "it what needs it")
        );
    }

    /// An office's right: what it holds and may hold no more leaves its shelf, by the evict rule.
    pub fn mayhold(&mut self, row: &mut Row, call: &Call, office: usize, right: u32) {
        let before = self.book.shelves[office].clone();
        self.book.feed(call, true);
        row.words = format!("Office {office} may hold {}.", words::right(right, self.book.k));
        let (barred, left) = (held(&before) & !right, held(&self.book.shelves[office]));
        let gone = held(&before) & !left;
        if gone == 0 {
            return;
        }
        let (from, to) = (Lane::Office(office), Lane::Office(office));
        row.arrows.push(Arrow { kind: Kind::Evict, from, to, sheets: gone });
        row.versions = self.versions(&before, gone);
        let others = match barred.count_ones() {
            1 => "it what needs it",
            _ => "them what needs them",
        };
        let evicted = self.with_others(&before, barred, gone, others);
        row.words.push_str(&format!(" It evicts {evicted}."));
    }

    /// The sheets that it is about, and the others of the set.
    fn with_others(&self, copies: &[Saves], about: u32, set: u32, others: &str) -> String {
        let asked = version_list(&self.versions(copies, about));
        let more = self.versions(copies, set & !about);
        match more.len() {
            0 => asked,
            _ => format!("{asked}, and with {others}: {}", version_list(&more)),
        }
    }

    pub fn prepare(&mut self, row: &mut Row, call: &Call, run: usize) {
        let before = self.book.shelves.clone();
        self.book.feed(call, true);
        let (mut fetched, mut taken_at) = (Vec::new(), Vec::new());
        for (office, shelf) in self.book.shelves.iter().enumerate() {
            let taken = mask(self.book.k, |k| !shelf[k].same(&before[office][k]));
            taken_at.push(taken);
            if taken != 0 {
                row.arrows.push(Arrow::fetch(office, taken));
                let versions = self.versions(shelf, taken);
                fetched.push(format!("office {office} fetches {}", version_list(&versions)));
            }
        }
        let (jobs, plan) = (&self.book.runs[run].jobs, self.book.runs[run].plan());
        self.had[run][0].brought.clear();
        for (office, shelf) in self.book.shelves.iter().enumerate() {
            let sheets = held(shelf) & plan;
            if jobs.iter().any(|job| job.office == office) && sheets != 0 {
                row.arrows.push(Arrow::read(office, run, sheets));
                let brought = Brought::of(sheets, office, row.line, taken_at[office]);
                self.had[run][0].brought.extend(brought);
            }
        }
        let card = &self.book.runs[run].branches[0].card;
        row.versions = self.versions(card, held(card));
        row.words = match row.versions.as_slice() {
            [] => format!("Run {run} is prepared: its jobs read nothing"),
            carried => format!("Run {run} is prepared: its card has {}", version_list(carried)),
        };
        if !fetched.is_empty() {
            row.words.push_str(&format!("; for it {}", words::listed(&fetched)));
        }
        row.words.push('.');
    }

    pub fn step(&mut self, row: &mut Row, call: &Call, run: usize, step: Stepped, from: &[u32]) {
        let (office, branch) = (step.office, step.branch);
        let found = self.book.find_step(run, step.job, branch);
        self.book.feed(call, true);
        let reads = from.iter().fold(0, |all, sheets| all | sheets);
        let had = &mut self.had[run][branch];
        for k in sheets(reads) {
            if had.read_at(k).is_none() {
                had.reads.push((k, row.line));
            }
        }
        had.brought.extend(Brought::of(found.set, office, row.line, found.fetched));
        if found.fetched != 0 {
            row.arrows.push(Arrow::fetch(office, found.fetched));
        }
        if found.set != 0 {
            row.arrows.push(Arrow::read(office, run, found.set));
        }
        if from[0] != 0 {
            let (lane, sheets) = (Lane::Run(run), from[0]);
            row.arrows.push(Arrow { kind: Kind::Card, from: lane, to: lane, sheets });
        }
        let card = &self.book.runs[run].branches[branch].card;
        row.versions = self.versions(card, reads);
        let job = self.job(run, step);
        row.words = match reads {
            0 => format!("{job} reads nothing."),
            _ => format!("{job} reads {}.", self.sources(card, office, from)),
        };
        let more = self.versions(card, found.set & !reads);
        if !more.is_empty() {
            let are = if more.len() == 1 { "is" } else { "are" };
            let more = words::version_series(&more);
            row.words.push_str(&format!(" The card also takes {more}, which {are} needed."));
        }
    }

    /// Where a job's sheets came from.
    fn sources(&self, card: &[Saves], office: usize, from: &[u32]) -> String {
        let places = [
            String::from("from the card"),
            format!("from the shelf of office {office}"),
            format!("from the master, over the shelf of office {office}"),
        ];
        let mut clauses = Vec::new();
        for (sheets, place) in from.iter().zip(places).filter(|(sheets, _)| **sheets != 0) {
            let versions = version_list(&self.versions(card, *sheets));
            clauses.push(format!("{versions} {place}"));
        }
        clauses.join("; ")
    }

    pub fn issue(&mut self, row: &mut Row, call: &Call, run: usize, writer: usize, mask: u32) {
        let read = &self.book.runs[run].branches[0];
        let reads = self.versions(&read.card, read.read);
        self.book.feed(call, true);
        self.set_run(run, State::Free);
        if mask == 0 {
            row.words = format!("Run {run} ends; nothing is saved.");
            return;
        }
        self.issues.enter(&self.book, row.line, writer, mask, reads);
        let number = self.issues.count();
        let (from, to) = (Lane::Run(run), Lane::Master);
        row.arrows.push(Arrow { kind: Kind::Issue, from, to, sheets: mask });
        row.issue = Some(number);
        row.versions = self.versions(&self.book.master, mask);
        let saved = sheet_list(mask);
        row.words = format!("Writer {writer} saves {saved} as issue {number}; run {run} ends.");
    }

    pub fn look(&self, row: &mut Row, place: u32, number: usize, sheet: u32, numbers: &[u32]) {
        let (name, copies) = match place {
            0 => (String::from("The master"), &self.book.master),
            1 => (format!("The shelf of office {number}"), &self.book.shelves[number]),
            _ => {
                let card = format!("The card of {}", self.who(number, 0));
                (card, &self.book.runs[number].branches[0].card)
            }
        };
        row.versions = self.versions(copies, 1 << sheet);
        let standing = match (place, numbers.last()) {
            (0, _) => "",
            (_, Some(0)) => ", as the master has it",
            _ => ", older than the master's",
        };
        row.words = format!("{name} has {}{standing}.", version_list(&row.versions));
    }
}

impl Brought {
    fn of(set: u32, office: usize, line: usize, fetched: u32) -> impl Iterator<Item = Brought> {
        sheets(set).map(move |sheet| {
            let fetched = fetched >> sheet & 1 == 1;
            Brought { sheet, office, line, fetched }
        })
    }
}

impl Arrow {
    fn fetch(office: usize, sheets: u32) -> Arrow {
        Arrow { kind: Kind::Fetch, from: Lane::Master, to: Lane::Office(office), sheets }
    }

    fn read(office: usize, run: usize, sheets: u32) -> Arrow {
        Arrow { kind: Kind::Read, from: Lane::Office(office), to: Lane::Run(run), sheets }
    }
}
