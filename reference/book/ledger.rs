//! The ledger of issues, which says what stands behind a save.

use super::rows::Rows;
use super::saves::Saves;
use crate::desk::record::{self, Read};

/// "A save is a sheet in an issue."
#[derive(Clone)]
struct Save {
    issue: u32,
    sheet: usize,
}

#[derive(Clone)]
struct Issue {
    writer: usize,
    /// The saves of the issue itself.
    own: Saves,
    /// All that stands behind its saves by the writer's earlier issues and by the reads, admitted
    /// saves too.
    earlier: Saves,
    /// The copies that its run had read.
    read: Vec<Saves>,
}

/// What the desk had when the book began: nothing, if it began with new.
#[derive(Clone, Default)]
pub struct Base {
    /// The last issue number.
    pub last: u32,
    /// Each writer's count.
    pub counts: Vec<u32>,
    /// Each writer's past.
    pub pasts: Vec<Rows>,
}

/// The issues since the book began, numbered from 1, and their saves.
#[derive(Clone, Default)]
pub struct Ledger {
    base: Base,
    issues: Vec<Issue>,
    saves: Vec<Save>,
}

impl Ledger {
    pub fn on(base: Base) -> Ledger {
        Ledger { base, ..Ledger::default() }
    }

    /// The number that the desk gives to an issue of the ledger.
    pub fn number_of(&self, issue: u32) -> u32 {
        self.base.last + issue
    }

    fn issue_of(&self, save: usize) -> &Issue {
        &self.issues[self.saves[save].issue as usize - 1]
    }

    /// What stands behind a save. The saves of one issue stand behind each other, so a chain
    /// can lead from a save to itself: the set has the save if its issue has another sheet.
    pub fn behind(&self, save: usize) -> Saves {
        let issue = self.issue_of(save);
        let mut set = issue.earlier.clone();
        for other in issue.own.members() {
            if other != save {
                set.add(other);
                set.add(save);
            }
        }
        set
    }

    /// The set and all that stands behind a save in it.
    pub fn with_behind(&self, copy: &Saves) -> Saves {
        let mut set = copy.clone();
        for save in copy.members() {
            set.join(&self.issue_of(save).earlier);
            set.join(&self.issue_of(save).own);
        }
        set
    }

    /// The saves of sheet d that stand behind any of the copy: behind its admitted saves "stand
    /// just those in its own list".
    pub fn need(&self, copy: &Saves, d: usize) -> Saves {
        let mut need = Saves::default();
        need.admitted = copy.listed.parted(d).0;
        for save in copy.members() {
            let behind = self.behind(save);
            for other in behind.members().filter(|other| self.saves[*other].sheet == d) {
                need.add(other);
            }
            need.admitted.join(&behind.rows().parted(d).0);
        }
        need
    }

    /// Enters an issue and answers its number. Behind its saves stand the writer's earlier
    /// issues, what the run had read, and all that stands behind those; "behind a writer's next
    /// issue also" the admitted saves "in that writer's past". Lists "pass on by reading": they
    /// are joined with the copies.
    pub fn enter(&mut self, writer: usize, mask: u32, read: &[Saves]) -> u32 {
        let mut first = Saves::default();
        if let Some(past) = self.base.pasts.get(writer) {
            first.listed = past.clone();
        }
        for issue in self.issues.iter().filter(|issue| issue.writer == writer) {
            first.join(&issue.own);
        }
        for copy in read {
            first.join(copy);
        }
        let earlier = self.with_behind(&first);
        let number = self.issues.len() as u32 + 1;
        let mut own = Saves::default();
        for sheet in (0..32).filter(|sheet| (mask >> sheet) & 1 == 1) {
            own.add(self.saves.len());
            self.saves.push(Save { issue: number, sheet });
        }
        self.issues.push(Issue { writer, own, earlier, read: read.to_vec() });
        number
    }

    /// "A new version includes its own save and all saves of its sheet behind it." Lists "pass on
    /// by issue": the other admitted saves behind it are its list.
    pub fn new_version(&self, number: u32, sheet: usize) -> Saves {
        let issue = &self.issues[number as usize - 1];
        let mut set = Saves::default();
        for save in issue.own.members().chain(issue.earlier.members()) {
            if self.saves[save].sheet == sheet {
                set.add(save);
            }
        }
        set.join(&Saves::admitted(sheet, &issue.earlier.rows(), 0));
        set
    }

    /// A copy counted: "the largest issue number in it; in row d, for each writer, how many
    /// issues by that writer the book has up to that writer's last save of d in the copy or
    /// behind a save in it; 0 wherever there is none". Issues are counted on from those of the
    /// admitted desk, and an admitted save stands where it was counted. The number, then the rows.
    pub fn counted(&self, copy: &Saves, k: usize, w: usize) -> (u32, Vec<u32>) {
        let issues = copy.members().map(|save| self.number_of(self.saves[save].issue));
        let number = issues.max().unwrap_or(0).max(copy.number);
        let mut past = vec![0; k * w];
        let all = self.with_behind(copy);
        for (sheet, writer, count) in all.rows().counts() {
            past[sheet * w + writer] = count;
        }
        for save in all.members() {
            let writer = self.issue_of(save).writer;
            let place = self.saves[save].sheet * w + writer;
            past[place] = past[place].max(self.by_writer_up_to(save));
        }
        (number, past)
    }

    /// The mask of "the writers whose last included save stands behind no other included save", in
    /// a book that began with new.
    pub fn leading(&self, copy: &Saves, w: usize) -> u32 {
        let mut mask = 0;
        for writer in 0..w {
            let own = copy.members().filter(|save| self.issue_of(*save).writer == writer);
            let last = own.max_by_key(|save| self.saves[*save].issue);
            let leads = last.is_some_and(|last| {
                let mut others = copy.members().filter(|other| *other != last);
                !others.any(|other| self.stands_behind(last, other))
            });
            mask |= u32::from(leads) << writer;
        }
        mask
    }

    /// Does the save stand behind another one?
    fn stands_behind(&self, save: usize, other: usize) -> bool {
        let issue = self.issue_of(other);
        issue.earlier.has(save) || issue.own.has(save)
    }

    /// The copies that the last issue had read.
    pub fn last_read(&self) -> &[Saves] {
        self.issues.last().map_or(&[], |issue| &issue.read)
    }

    /// The issues as a record has them, oldest first; of each the copies that it had read, in
    /// their order, but for empty ones.
    pub fn recorded(&self, w: usize) -> Vec<record::Issue> {
        let mask = |own: &Saves| own.members().fold(0, |mask, n| mask | 1 << self.saves[n].sheet);
        let recorded = |issue: &Issue| record::Issue {
            writer: issue.writer,
            saved: mask(&issue.own),
            reads: issue.read.iter().filter_map(|copy| self.own_row(copy, w)).collect(),
        };
        self.issues.iter().map(recorded).collect()
    }

    /// A copy's sheet and, for each writer, how many issues the ledger has up to its last save in
    /// the copy; nothing if that is empty.
    fn own_row(&self, copy: &Saves, w: usize) -> Option<Read> {
        let sheet = self.saves[copy.members().next()?].sheet;
        let mut counts = vec![0; w];
        for save in copy.members() {
            let count = &mut counts[self.issue_of(save).writer];
            *count = (*count).max(self.by_writer_up_to(save));
        }
        Some(Read { sheet, counts })
    }

    /// What a read of a record stands for: the sheet's "saves by each writer up to the issue of
    /// that writer so counted".
    pub fn copy_of(&self, read: &Read) -> Saves {
        let mut copy = Saves::default();
        for save in (0..self.saves.len()).filter(|save| self.saves[*save].sheet == read.sheet) {
            if self.by_writer_up_to(save) <= read.counts[self.issue_of(save).writer] {
                copy.add(save);
            }
        }
        copy
    }

    /// How many issues its writer has up to this save.
    fn by_writer_up_to(&self, save: usize) -> u32 {
        let writer = self.issue_of(save).writer;
        let up_to = self.saves[save].issue as usize;
        let since = self.issues[..up_to].iter().filter(|issue| issue.writer == writer).count();
        self.base.counts.get(writer).unwrap_or(&0) + since as u32
    }
}
