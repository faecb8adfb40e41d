//! Versions by issue numbers: which one a copy is, and which issues stand behind one.

use super::copies::{Book, Saves};

/// A sheet's version, by the issues of its leading saves: two or more are rivals.
#[derive(Clone, PartialEq, Eq, Debug)]
pub struct Version {
    pub sheet: usize,
    pub issues: Vec<u32>,
}

/// An issue and what stands behind it.
pub struct Issue {
    pub number: u32,
    /// The line of the call.
    pub line: usize,
    pub writer: usize,
    /// How many issues its writer has by then.
    pub count: u32,
    pub sheets: u32,
    /// The writer's own issue before it.
    pub own: Option<u32>,
    /// What its run had read.
    pub reads: Vec<Version>,
    /// For each sheet and writer the last save behind it, its own too, by the writer's count.
    past: Vec<u32>,
}

/// The issues since the last new.
#[derive(Default)]
pub struct Issues {
    all: Vec<Issue>,
    /// The issues of each writer.
    of: Vec<Vec<u32>>,
}

impl Issues {
    /// Enters an issue that the desk has just taken; `reads` is what its run had read.
    pub fn enter(
        &mut self,
        book: &Book,
        line: usize,
        writer: usize,
        sheets: u32,
        reads: Vec<Version>,
    ) {
        let number = self.all.len() as u32 + 1;
        self.of.resize(book.w, Vec::new());
        let own = self.of[writer].last().copied();
        self.of[writer].push(number);
        let (count, past) = (self.of[writer].len() as u32, book.past(writer).to_vec());
        self.all.push(Issue { number, line, writer, count, sheets, own, reads, past });
    }

    pub fn count(&self) -> u32 {
        self.all.len() as u32
    }

    pub fn get(&self, number: u32) -> Option<&Issue> {
        self.all.get((number as usize).checked_sub(1)?)
    }

    /// The saves of sheet d behind an issue, its own too: for each writer the last, by its count.
    pub fn row(&self, number: u32, d: usize) -> &[u32] {
        let writers = self.of.len();
        &self.all[number as usize - 1].past[d * writers..][..writers]
    }

    /// Whether the earlier issue stands behind the later one.
    pub fn is_behind(&self, earlier: u32, later: u32) -> bool {
        let issue = &self.all[earlier as usize - 1];
        let reaches = |d: usize| self.row(later, d)[issue.writer] >= issue.count;
        earlier < later && sheets(issue.sheets).any(reaches)
    }

    /// All issues that stand behind one, in order.
    pub fn behind(&self, number: u32) -> Vec<u32> {
        (1..number).filter(|earlier| self.is_behind(*earlier, number)).collect()
    }

    /// The issues of the leading saves among those of a sheet that a row counts: of each writer
    /// the last, unless it stands behind another's.
    pub fn leading(&self, sheet: usize, row: &[u32]) -> Vec<u32> {
        let last = row.iter().enumerate().filter(|(_, count)| **count != 0);
        let last = last.map(|(writer, count)| self.of[writer][*count as usize - 1]);
        let last = last.collect::<Vec<u32>>();
        let leads = |one: &u32| {
            let issue = &self.all[*one as usize - 1];
            let covers = |other: &u32| self.row(*other, sheet)[issue.writer] >= issue.count;
            !last.iter().any(|other| other != one && covers(other))
        };
        let mut leading = last.iter().copied().filter(leads).collect::<Vec<u32>>();
        leading.sort_unstable();
        leading
    }

    /// The version that a copy is.
    pub fn version(&self, sheet: usize, copy: &Saves) -> Version {
        self.version_of(sheet, copy.row(sheet))
    }

    /// The version whose saves a row counts.
    pub fn version_of(&self, sheet: usize, row: &[u32]) -> Version {
        Version { sheet, issues: self.leading(sheet, row) }
    }
}

/// The sheets that a shelf or a card holds.
pub fn held(copies: &[Saves]) -> u32 {
    mask(copies.len(), |k| !copies[k].is_empty())
}

/// The sheets below k for which the test holds.
pub fn mask(k: usize, test: impl Fn(usize) -> bool) -> u32 {
    (0..k).filter(|k| test(*k)).fold(0, |mask, k| mask | 1 << k)
}

/// The sheets, jobs or writers of a mask.
pub fn sheets(mask: u32) -> impl Iterator<Item = usize> {
    (0..32).filter(move |k| mask >> k & 1 == 1)
}
