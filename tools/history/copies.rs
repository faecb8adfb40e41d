//! The desk's copies of the sheets, by the words that the library keeps: master, shelves and cards.

use super::replay::call_on;
use super::versions::{mask, sheets};
use crate::desk::layout::{Sizes, JOBS, JOB_LIST, PAST};
use crate::desk::version::{all_zero, covers, held};
use crate::desk::{Answer, FORKED};
use crate::embed::words;
use crate::text::Call;

/// The saves that a copy of a sheet includes, as the words of its version count them.
#[derive(Clone, PartialEq, Eq)]
pub struct Saves {
    words: Vec<u32>,
    writers: usize,
}

impl Saves {
    pub fn is_empty(&self) -> bool {
        !held(&self.words)
    }

    pub fn same(&self, other: &Saves) -> bool {
        self == other
    }

    /// Each writer's last save of sheet d that it includes or needs, by the writer's count.
    pub fn row(&self, d: usize) -> &[u32] {
        &self.words[PAST + d * self.writers..][..self.writers]
    }

    /// Whether it is held and has all saves of sheet d that the row counts.
    pub fn meets(&self, d: usize, need: &[u32]) -> bool {
        !self.is_empty() && covers(self.row(d), need)
    }
}

#[derive(Clone, Default)]
pub struct Job {
    pub office: usize,
    pub reads: u32,
}

/// A run's line: the sheets that its finished jobs read, and its card.
#[derive(Clone, Default)]
pub struct Branch {
    pub read: u32,
    pub card: Vec<Saves>,
}

#[derive(Clone, Default)]
pub struct Run {
    pub jobs: Vec<Job>,
    /// Its lines; the second is empty unless it is forked.
    pub branches: [Branch; 2],
    pub is_forked: bool,
}

impl Run {
    /// All its jobs' reads.
    pub fn plan(&self) -> u32 {
        self.jobs.iter().fold(0, |mask, job| mask | job.reads)
    }
}

/// What a step finds: its reads that the card lacks, what it fetches, the sheets that it puts on
/// the card, and the shelf after the fetch.
pub struct StepFound {
    pub off_card: u32,
    pub fetched: u32,
    pub set: u32,
    pub shelf: Vec<Saves>,
}

/// A desk from its new on.
pub struct Book {
    pub k: usize,
    pub w: usize,
    pub master: Vec<Saves>,
    pub shelves: Vec<Vec<Saves>>,
    pub runs: Vec<Run>,
    pub desk: Vec<u32>,
    sizes: Sizes,
}

impl Book {
    /// The counts are those of a new that was answered ok.
    pub fn new(counts: [u32; 4]) -> Book {
        let [k, w, n, p] = counts;
        let sizes = Sizes::of(k, w, n, p).expect("a new that was ok");
        let none = Saves { words: vec![0; sizes.version()], writers: sizes.w };
        let empty = vec![none; sizes.k];
        let blank = Branch { read: 0, card: empty.clone() };
        let mut book = Book {
            k: sizes.k,
            w: sizes.w,
            master: empty.clone(),
            shelves: vec![empty; sizes.n],
            runs: vec![Run { branches: [blank.clone(), blank], ..Run::default() }; sizes.p],
            desk: vec![0; words(k, w, n, p)],
            sizes,
        };
        call_on(&mut book.desk, &Call::New(counts));
        book
    }

    /// Makes a call and takes over what it changed. It was answered ok, or not: here too.
    pub fn feed(&mut self, call: &Call, ok: bool) {
        let answer = call_on(&mut self.desk, call);
        assert_eq!(matches!(answer, Answer::Ok(_)), ok, "{} is answered otherwise", call.line());
        if call.only_answers() {
            return;
        }
        let (s, desk) = (self.sizes, &self.desk);
        take(desk, s, &mut self.master, s.master());
        for (office, shelf) in self.shelves.iter_mut().enumerate() {
            take(desk, s, shelf, s.shelf_at(office, 0));
        }
        for (number, run) in self.runs.iter_mut().enumerate() {
            let words = &desk[s.run_at(number)..];
            let jobs = words[JOB_LIST..].chunks(3).take(words[JOBS] as usize);
            run.jobs = jobs.map(|job| Job { office: job[0] as usize, reads: job[1] }).collect();
            run.is_forked = desk[s.mark_at(number)] == FORKED;
            for (at, branch) in run.branches.iter_mut().enumerate() {
                branch.read = desk[s.read_at(number, at)];
                take(desk, s, &mut branch.card, s.line_card_at(number, at, 0));
            }
        }
    }

    /// A run's jobs, as its open had them.
    pub fn list(&self, run: usize) -> Vec<u32> {
        let words = &self.desk[self.sizes.run_at(run)..];
        words[JOB_LIST..][..3 * words[JOBS] as usize].to_vec()
    }

    /// The sheets that an office may hold.
    pub fn may_hold(&self, office: u32) -> u32 {
        self.desk[self.sizes.mayhold_at(office as usize)]
    }

    /// What stands behind the writer's last issue, and that issue: a row for each sheet.
    pub fn past(&self, writer: usize) -> &[u32] {
        self.sizes.writer_past(&self.desk, writer)
    }

    /// Goes over the sheets until none joins; `joins(t, d)` says that t brings d in.
    fn least(&self, start: u32, joins: impl Fn(usize, usize) -> bool) -> u32 {
        let (mut set, mut new) = (start, start);
        while new != 0 {
            let brings = |d: usize| sheets(new).any(|t| t != d && joins(t, d));
            new = mask(self.k, |d| set >> d & 1 == 0 && brings(d));
            set |= new;
        }
        set
    }

    /// What a step of the job on a line would find; nothing is changed.
    pub fn find_step(&self, run: usize, job: usize, branch: usize) -> StepFound {
        let (run, job) = (&self.runs[run], &self.runs[run].jobs[job]);
        let card = &run.branches[branch].card;
        let lacking = |copies: &[Saves], of: u32| of & mask(self.k, |k| copies[k].is_empty());
        let off_card = lacking(card, job.reads);
        let mut shelf = self.shelves[job.office].clone();
        let fetched = self.least(lacking(&shelf, off_card), |t, d| {
            let need = self.master[t].row(d);
            !all_zero(need) && !shelf[d].meets(d, need) && !self.master[d].is_empty()
        });
        for k in sheets(fetched) {
            shelf[k] = self.master[k].clone();
        }
        let set = self.least(off_card, |c, d| leads(run.plan(), card, &shelf, c, d));
        StepFound { off_card, fetched, set, shelf }
    }
}

/// Whether sheet c of the shelf brings the plan's sheet d onto the card.
pub fn leads(plan: u32, card: &[Saves], shelf: &[Saves], c: usize, d: usize) -> bool {
    let need = shelf[c].row(d);
    plan >> d & 1 == 1 && !all_zero(need) && !card[d].meets(d, need) && !shelf[d].is_empty()
}

/// Takes over the versions that begin at a place, where they are others.
fn take(desk: &[u32], s: Sizes, copies: &mut [Saves], at: usize) {
    for (copy, words) in copies.iter_mut().zip(desk[at..].chunks(s.version())) {
        if copy.words != words {
            copy.words.copy_from_slice(words);
        }
    }
}
