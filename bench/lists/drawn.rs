//! Everyday calls: runs are opened, sometimes prepared, their jobs picked, stepped and issued;
//! between them sheets are fetched, looked at and asked for, and now and then evicted.

use crate::desk::layout::{has, DONE, JOBS, STATE};
use crate::desk::{Sizes, BROKEN, FREE, OPEN};
use crate::desks::filling;
use crate::random::Random;
use crate::text::{run_formed, Call};

/// What a list begins on.
#[derive(Clone, Copy, PartialEq, Eq)]
pub enum Begun {
    /// Just after new.
    Fresh,
    /// After some hundred everyday calls.
    Everyday,
    /// All shelves hold all sheets, and all runs but run 0 have them on their cards.
    Full,
}

pub struct List {
    pub sizes: [u32; 4],
    pub begun: Begun,
    /// The calls that lead to the desk on which it begins, from new on.
    pub before: Vec<Call>,
    pub calls: Vec<Call>,
}

/// So many everyday calls, the same each time.
pub fn list(sizes: [u32; 4], begun: Begun, count: usize) -> List {
    let mut desk = Drawn::new(sizes);
    let before = match begun {
        Begun::Fresh => vec![Call::New(sizes)],
        Begun::Everyday => [vec![Call::New(sizes)], desk.draw(500)].concat(),
        Begun::Full => [filling(sizes), vec![Call::Fetch(0, sizes[0] - 1)]].concat(),
    };
    if begun == Begun::Full {
        before.iter().for_each(|call| desk.make(call));
        // The other runs stay as they are, with their cards full.
        desk.runs = 1;
    }
    List { sizes, begun, before, calls: desk.draw(count) }
}

/// A desk and the sequence by which calls on it are drawn.
struct Drawn {
    words: Vec<u32>,
    scratch: Vec<u32>,
    s: Sizes,
    runs: usize,
    random: Random,
}

impl Drawn {
    fn new([k, w, n, p]: [u32; 4]) -> Drawn {
        let s = Sizes::of(k, w, n, p).expect("counts of a desk");
        let words = vec![0; s.total()];
        let random = Random::new(u64::from(k * w * n * p));
        let mut desk = Drawn { scratch: words.clone(), words, s, runs: s.p, random };
        desk.make(&Call::New([k, w, n, p]));
        desk
    }

    fn make(&mut self, call: &Call) {
        run_formed(&mut self.words, self.s, call, &mut self.scratch);
    }

    fn draw(&mut self, count: usize) -> Vec<Call> {
        let mut calls = Vec::new();
        while calls.len() < count {
            let call = self.next(calls.last());
            self.make(&call);
            calls.push(call);
        }
        calls
    }

    /// State, number of jobs and done mask of a run.
    fn head(&self, run: usize) -> [u32; 3] {
        [STATE, JOBS, DONE].map(|word| self.words[self.s.run_at(run) + word])
    }

    fn next(&mut self, last: Option<&Call>) -> Call {
        let run = self.random.below(self.runs);
        let [state, jobs, done] = self.head(run);
        let office = self.random.below(self.s.n) as u32;
        let sheet = self.random.below(self.s.k) as u32;
        let job = (0..jobs).find(|job| !has(done, *job as usize)).unwrap_or(0);
        match (self.random.below(100), last) {
            (0..=29, Some(Call::Open(run, _))) => Call::Prepare(*run),
            (0..=54, _) if state == BROKEN => Call::Drop(run as u32),
            (0..=54, _) if state == FREE => self.open(run as u32),
            (0..=54, _) if state == OPEN && done == (1 << jobs) - 1 => self.issue(run as u32),
            (0..=9, _) => Call::Pick,
            (10..=49, _) => Call::Step(run as u32, job, 0),
            (50..=52, _) => Call::Explain(run as u32, job, 0),
            (53 | 54, _) => Call::Forecast(run as u32),
            (55..=69, _) => Call::Fetch(office, sheet),
            (70..=74, _) => Call::Evict(office, sheet),
            (75..=84, _) => Call::Stale(office),
            (85, _) => Call::Allow(office, self.s.k as u32),
            (86, _) => Call::MayHold(office, self.s.all_sheets()),
            (87, _) => Call::MaySave(sheet % self.s.w as u32, self.s.all_sheets()),
            (88..=92, _) => Call::Look(0, 0, sheet),
            (93..=95, _) => Call::Look(2, run as u32, sheet),
            _ => Call::Look(1, office, sheet),
        }
    }

    /// One to three jobs, each of which reads up to three sheets of the master, one behind the
    /// other.
    fn open(&mut self, run: u32) -> Call {
        let mut list = Vec::new();
        for job in 0..1 + self.random.below(3) as u32 {
            let mut reads = 0;
            for _ in 0..self.random.below(4) {
                let sheet = self.random.below(self.s.k);
                if self.words[self.s.master_at(sheet)] != 0 {
                    reads |= 1 << sheet;
                }
            }
            list.extend([self.random.below(self.s.n) as u32, reads, (1 << job) - 1]);
        }
        Call::Open(run, list)
    }

    /// One or two sheets.
    fn issue(&mut self, run: u32) -> Call {
        let first = self.random.below(self.s.k);
        let second = self.random.below(self.s.k);
        Call::Issue(run, (first % self.s.w) as u32, 1 << first | 1 << second)
    }
}
