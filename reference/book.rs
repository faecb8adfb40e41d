//! "Demand 3's list and book": the book, fed with each call and whether it was answered `ok`.
//!
//! It knows no clocks. A copy is a set of saves, and what stands behind a save is kept as a
//! set too. `feed` gives back what the rules on copies would answer, for a comparison. A book
//! begins with new, or at an admission (`admitted`).

mod admitted;
mod allowances;
pub mod checks;
pub mod follow;
mod foretold;
pub mod ledger;
mod lines;
mod paths;
pub mod recorded;
mod rights;
pub mod rows;
pub mod runs;
pub mod saves;
mod steps;
mod turns;

use crate::text::Call;
use ledger::Ledger;
pub use runs::{Finished, Job, Line, Run};
use saves::Saves;
use turns::Turns;

#[derive(Clone)]
pub struct Book {
    pub k: usize,
    pub w: usize,
    /// Whether it began with new: then it knows who leads a version.
    pub from_new: bool,
    pub ledger: Ledger,
    pub master: Vec<Saves>,
    pub shelves: Vec<Vec<Saves>>,
    /// How many sheets each shelf may hold, by the calls that set it.
    pub allowances: Vec<u32>,
    /// Which sheets each office may hold and each writer may save, by the calls that set it.
    pub may_hold: Vec<u32>,
    pub may_save: Vec<u32>,
    pub runs: Vec<Run>,
    pub turns: Turns,
}

pub fn has(mask: u32, k: usize) -> bool {
    (mask >> k) & 1 == 1
}

/// No sheet held.
fn empty(k: usize) -> Vec<Saves> {
    vec![Saves::default(); k]
}

impl Book {
    /// "New: all empty."
    pub fn new([k, w, n, p]: [u32; 4]) -> Book {
        let k = k as usize;
        let all = (0..k).fold(0, |mask, sheet| mask | 1 << sheet);
        Book {
            k,
            w: w as usize,
            from_new: true,
            ledger: Ledger::default(),
            master: empty(k),
            shelves: vec![empty(k); n as usize],
            allowances: vec![k as u32; n as usize],
            may_hold: vec![all; n as usize],
            may_save: vec![all; w as usize],
            runs: (0..p).map(|_| Run::fresh(k)).collect(),
            turns: Turns::after(p as usize - 1, p as usize),
        }
    }

    /// Enters a call. "Not ok, or look: nothing changes"; nor by another call that only answers.
    pub fn feed(&mut self, call: &Call, ok: bool) -> Vec<u32> {
        if !ok {
            return Vec::new();
        }
        match call {
            Call::New(sizes) => {
                *self = Book::new(*sizes);
                Vec::new()
            }
            Call::Open(run, list) => self.open(*run as usize, list),
            Call::Fetch(office, sheet) => vec![self.fetch(*office as usize, 1 << sheet)],
            Call::Evict(office, sheet) => vec![self.let_go(*office as usize, 1 << sheet)],
            Call::Prepare(run) => self.prepare(*run as usize),
            Call::Step(run, job, line) => {
                self.step(*run as usize, *job as usize, *line as usize)
            }
            Call::Issue(run, writer, mask) => {
                let number = self.issue(*run as usize, *writer as usize, *mask);
                self.clear(*run as usize);
                vec![number]
            }
            Call::Drop(run) => {
                self.clear(*run as usize);
                vec![0]
            }
            Call::Look(place, number, sheet) => self.look(*place, *number as usize, *sheet),
            // Never `ok`; or nothing changes, and whose turn it is goes by the desk's runs.
            Call::Explain(..) | Call::Forecast(_) | Call::Audit(_) | Call::Pick => Vec::new(),
            Call::Stale(office) => vec![self.stale(*office as usize)],
            Call::Admit => vec![0],
            Call::Allow(office, number) => {
                self.allowances[*office as usize] = *number;
                vec![0]
            }
            Call::MayHold(office, mask) => self.set_may_hold(*office as usize, *mask),
            Call::MaySave(writer, mask) => self.set_may_save(*writer as usize, *mask),
            Call::Fork(run) => self.fork(*run as usize),
            Call::Join(run) => self.join(*run as usize),
        }
    }

    fn clear(&mut self, run: usize) {
        self.runs[run] = Run::fresh(self.k);
    }

    fn open(&mut self, run: usize, list: &[u32]) -> Vec<u32> {
        let jobs = list.chunks(3).map(|job| Job { office: job[0] as usize, reads: job[1] });
        self.runs[run].jobs = jobs.collect();
        vec![self.runs[run].jobs.len() as u32]
    }

    /// Goes over the sheets until none joins; `joins(t, d)` says that t brings d in.
    fn least(&self, start: u32, joins: impl Fn(usize, usize) -> bool) -> u32 {
        let mut set = start;
        loop {
            let before = set;
            for t in 0..self.k {
                for d in 0..self.k {
                    if has(set, t) && t != d && joins(t, d) {
                        set |= 1 << d;
                    }
                }
            }
            if set == before {
                return set;
            }
        }
    }

    /// T on copies.
    fn fetch_set(&self, shelf: &[Saves], asked: u32) -> u32 {
        self.least(asked, |t, d| {
            let need = self.ledger.need(&self.master[t], d);
            !need.is_empty() && !shelf[d].includes(&need) && !self.master[d].is_empty()
        })
    }

    /// The shelf takes the master's copies of T from the sheets asked for. Answers T.
    fn fetch_to(&self, shelf: &mut [Saves], asked: u32) -> u32 {
        let set = self.fetch_set(shelf, asked);
        for k in (0..self.k).filter(|k| has(set, *k)) {
            shelf[k] = self.master[k].clone();
        }
        set
    }

    fn fetch(&mut self, office: usize, asked: u32) -> u32 {
        let mut shelf = std::mem::take(&mut self.shelves[office]);
        let set = self.fetch_to(&mut shelf, asked);
        self.shelves[office] = shelf;
        set
    }

    /// The evict rule: E of these sheets leaves the shelf. Answers E.
    fn let_go(&mut self, office: usize, leaving: u32) -> u32 {
        let shelf = &self.shelves[office];
        let set = self.least(leaving, |member, u| {
            !shelf[u].is_empty() && !self.ledger.need(&shelf[u], member).is_empty()
        });
        for k in (0..self.k).filter(|k| has(set, *k)) {
            self.shelves[office][k] = Saves::default();
        }
        set
    }

    /// Those of the sheets whose copy is empty.
    fn lacking(&self, copies: &[Saves], sheets: u32) -> u32 {
        (0..self.k)
            .filter(|k| has(sheets, *k) && copies[*k].is_empty())
            .fold(0, |mask, k| mask | 1 << k)
    }

    /// The shelves as the fetches of a prepare leave them.
    fn prepared_shelves(&self, run: usize) -> Vec<Vec<Saves>> {
        let mut shelves = self.shelves.clone();
        for job in &self.runs[run].jobs {
            let missing = self.lacking(&shelves[job.office], job.reads);
            self.fetch_to(&mut shelves[job.office], missing);
        }
        shelves
    }

    fn prepare(&mut self, run: usize) -> Vec<u32> {
        self.shelves = self.prepared_shelves(run);
        let plan = self.runs[run].plan();
        let mut card = empty(self.k);
        for k in (0..self.k).filter(|k| has(plan, *k)) {
            for job in &self.runs[run].jobs {
                card[k].join(&self.shelves[job.office][k]);
            }
        }
        let carried = plan & !self.lacking(&card, plan);
        self.runs[run].lines[0].card = card;
        vec![carried]
    }

    /// "If S isn't empty it is entered, and for each k in S the master's copy takes in what
    /// the new version includes."
    fn issue(&mut self, run: usize, writer: usize, mask: u32) -> u32 {
        if mask == 0 {
            return 0;
        }
        let line = &self.runs[run].lines[0];
        let sheets = (0..self.k).filter(|k| has(line.read, *k));
        let read = sheets.map(|k| line.card[k].clone()).collect::<Vec<Saves>>();
        let number = self.ledger.enter(writer, mask, &read);
        for k in (0..self.k).filter(|k| has(mask, *k)) {
            let included = self.ledger.new_version(number, k);
            self.master[k].join(&included);
        }
        self.ledger.number_of(number)
    }

    /// The sheets whose copy on the shelf isn't empty and isn't the master's.
    pub fn stale(&self, office: usize) -> u32 {
        let shelf = &self.shelves[office];
        let behind = |k: &usize| !shelf[*k].is_empty() && !shelf[*k].same(&self.master[*k]);
        (0..self.k).filter(behind).fold(0, |mask, k| mask | 1 << k)
    }

    fn look(&self, place: u32, number: usize, sheet: u32) -> Vec<u32> {
        let k = sheet as usize;
        let copy = match place {
            0 => &self.master[k],
            1 => &self.shelves[number][k],
            _ => &self.runs[number].lines[0].card[k],
        };
        let (number, past) = self.ledger.counted(copy, self.k, self.w);
        let mut answer = vec![number, self.ledger.leading(copy, self.w)];
        answer.extend_from_slice(&past[k * self.w..(k + 1) * self.w]);
        answer.push(copy.standing(&self.master[k]));
        answer
    }
}
