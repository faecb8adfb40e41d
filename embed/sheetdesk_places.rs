//! Where things lie on a desk, for who looks at its words: `sheetdesk_why.rs` does. Outside of what
//! is proved. Of the layout it knows the header, that a version ends with its rows and a writer
//! with its past, and where a run has jobs, mark and lines; the rest comes from header and `words`.
//! Add this file beside `sheetdesk.rs`, as `mod sheetdesk; mod sheetdesk_places;`.
#![allow(dead_code)]

use super::sheetdesk::words as words_of;

const TOTAL: usize = 9;
const HEADER: usize = 10;
/// Where the first line's card begins in a run. The mark and the second read mask stand behind it,
/// then the second card.
const CARD_AT: usize = 28;
pub const LINES: usize = 2;

/// Where things lie on a desk, by its header and by how many words a further run takes.
pub struct Places<'a> {
    desk: &'a [u32],
    pub sheets: usize,
    pub writers: usize,
    pub offices: usize,
    pub runs: usize,
    version: usize,
    shelf: usize,
    writer: usize,
    run: usize,
    card: usize,
}

/// What holds versions: the card is that of a run's line.
#[derive(Clone, Copy, PartialEq, Eq, Debug)]
pub enum Place {
    Master,
    Shelf(usize),
    Card(usize, usize),
}

impl std::fmt::Display for Place {
    fn fmt(&self, out: &mut std::fmt::Formatter) -> std::fmt::Result {
        match self {
            Place::Master => out.write_str("the master"),
            Place::Shelf(office) => write!(out, "the shelf of office {office}"),
            Place::Card(run, line) => write!(out, "the card of line {line} of run {run}"),
        }
    }
}

impl<'a> Places<'a> {
    /// Of a desk whose header and total fit its counts.
    pub fn of(desk: &'a [u32]) -> Option<Places<'a>> {
        let head = desk.get(..HEADER)?;
        let total = words_of(head[0], head[1], head[2], head[3]);
        let at = |place: usize| head[place] as usize;
        let rises = (5..TOTAL).all(|place| head[place] < head[place + 1]);
        if total == 0 || at(TOTAL) != total || desk.len() < total || at(5) != HEADER || !rises {
            return None;
        }
        let (sheets, writers, offices, runs) = (at(0), at(1), at(2), at(3));
        let version = (at(6) - at(5)) / sheets;
        let (shelf, writer) = ((at(7) - at(6)) / offices, (at(8) - at(7)) / writers);
        let run = words_of(head[0], head[1], head[2], 2) - words_of(head[0], head[1], head[2], 1);
        let card = sheets * version;
        let fits = version >= 2 + sheets * writers
            && shelf >= card
            && writer > sheets * writers
            && at(8) + runs * run <= total
            && run == CARD_AT + 2 + LINES * card;
        let places = Places {
            desk, sheets, writers, offices, runs, version, shelf, writer, run, card,
        };
        fits.then_some(places)
    }

    /// The master, the shelves, then the cards of each run's lines.
    pub fn all(&self) -> Vec<Place> {
        let shelves = (0..self.offices).map(Place::Shelf);
        let cards_of = |run| (0..LINES).map(move |line| Place::Card(run, line));
        let cards = (0..self.runs).flat_map(cards_of);
        [Place::Master].into_iter().chain(shelves).chain(cards).collect()
    }

    /// The last issue number.
    pub fn last(&self) -> u32 {
        self.desk[4]
    }

    /// The words of a run.
    pub fn run(&self, run: usize) -> &'a [u32] {
        &self.desk[self.desk[8] as usize + run * self.run..][..self.run]
    }

    /// A sheet's version there: issue number, leading writers, then the rows.
    pub fn version(&self, place: Place, k: usize) -> &'a [u32] {
        let at = match place {
            Place::Master => self.desk[5] as usize,
            Place::Shelf(office) => self.desk[6] as usize + office * self.shelf,
            Place::Card(run, line) => {
                let first = self.desk[8] as usize + run * self.run + CARD_AT;
                first + line * (self.card + 2)
            }
        };
        &self.desk[at + k * self.version..][..self.version]
    }

    pub fn holds(&self, place: Place, k: usize) -> bool {
        self.version(place, k)[0] != 0
    }

    pub fn row(&self, place: Place, k: usize, d: usize) -> &'a [u32] {
        let version = self.version(place, k);
        &version[self.version - (self.sheets - d) * self.writers..][..self.writers]
    }

    /// The count of a writer, and the row of a sheet in its past.
    pub fn count(&self, writer: usize) -> u32 {
        self.desk[self.desk[7] as usize + writer * self.writer]
    }

    pub fn past(&self, writer: usize, d: usize) -> &'a [u32] {
        let end = self.desk[7] as usize + (writer + 1) * self.writer;
        &self.desk[end - (self.sheets - d) * self.writers..][..self.writers]
    }

    /// The sheets that the run's jobs read.
    pub fn plan(&self, run: usize) -> u32 {
        let jobs = self.run(run)[4..CARD_AT].chunks(3);
        jobs.fold(0, |plan, job| plan | job[1])
    }

    /// 0 never forked, 1 forked, 2 joined.
    pub fn mark(&self, run: usize) -> u32 {
        self.run(run)[CARD_AT + self.card]
    }

    /// The second line's words: what was read on it, then its card.
    pub fn second(&self, run: usize) -> &'a [u32] {
        &self.run(run)[CARD_AT + self.card + 1..]
    }

    /// The sheets that were read on a line.
    pub fn read(&self, run: usize, line: usize) -> u32 {
        if line == 0 { self.run(run)[3] } else { self.second(run)[0] }
    }
}
