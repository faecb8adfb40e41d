//! A desk's history so far, and what each call adds to it.

use super::breaks::{self, Broken};
use super::copies::{Book, Saves};
use super::remedy;
use super::story::{Arrow, Kind, Lane, Row, Shelf, State};
use super::versions::{held, sheets, Issues, Version};
use super::words;
use crate::desk::Answer;
use crate::text::Call;

pub struct Told {
    pub book: Book,
    pub issues: Issues,
    pub runs: Vec<State>,
    /// For each run what its lines have.
    pub had: Vec<[Had; 2]>,
}

/// What a line of a run has.
#[derive(Clone, Default)]
pub struct Had {
    /// The sheets that it has read, with the line of the step.
    pub reads: Vec<(usize, usize)>,
    /// The sheets that were put on its card.
    pub brought: Vec<Brought>,
}

impl Had {
    /// The line of the step that had read the sheet.
    pub fn read_at(&self, sheet: usize) -> Option<usize> {
        self.reads.iter().find(|read| read.0 == sheet).map(|read| read.1)
    }

    pub fn brought(&self, sheet: usize) -> Vec<Brought> {
        let brought = self.brought.iter().filter(|brought| brought.sheet == sheet);
        brought.cloned().collect()
    }
}

/// A job that is stepped: its office, and the line of its run.
#[derive(Clone, Copy)]
pub struct Stepped {
    pub job: usize,
    pub office: usize,
    pub branch: usize,
}

/// A sheet that was put on a card.
#[derive(Clone, PartialEq, Eq)]
pub struct Brought {
    pub sheet: usize,
    /// The office whose shelf had it.
    pub office: usize,
    /// The line of the call.
    pub line: usize,
    /// The shelf took it from the master by the same call.
    pub fetched: bool,
}

impl Told {
    pub fn new(sizes: [u32; 4]) -> Told {
        let runs = sizes[3] as usize;
        Told {
            book: Book::new(sizes),
            issues: Issues::default(),
            runs: vec![State::Free; runs],
            had: vec![Default::default(); runs],
        }
    }

    /// Makes the call on the book's desk and fills the row; `path` is what explain gives for its
    /// job.
    pub fn work(&mut self, row: &mut Row, call: &Call, answer: &Answer, path: Option<Vec<u32>>) {
        row.lane = self.lane_of(call);
        row.only_answers = call.only_answers();
        let stepped = self.stepped(call, answer);
        if let (Some((run, step)), Some(path)) = (stepped, path) {
            let would = matches!(call, Call::Explain(..));
            row.chains = breaks::chains(self, run, step, &path, would);
        }
        match (call, answer, stepped) {
            (Call::Step(..), Answer::Ok(numbers), Some((run, step))) => {
                self.step(row, call, run, step, numbers)
            }
            (_, Answer::Ok(numbers), _) => self.done(row, call, numbers),
            (Call::Step(..), Answer::Broken(mask), Some((run, step))) => {
                self.broken(row, call, run, step, *mask)
            }
            (Call::Join(run), Answer::Broken(mask), _) => {
                self.unjoined(row, call, *run as usize, *mask)
            }
            (Call::Explain(..), Answer::Clear, Some((run, step))) => {
                row.words = format!("{} would go through.", self.job(run, step));
            }
            (Call::Explain(..), Answer::Path(_), Some((run, step))) => {
                row.words = format!("{} would break the run.", self.job(run, step));
            }
            (Call::Pick, Answer::Nothing, _) => {
                row.words = String::from("No open run has a job that could be stepped.");
            }
            (Call::Forecast(run), ..) => row.words += &words::foretold(*run, answer),
            _ => {}
        }
        let shelf = |copies: &Vec<Saves>| Shelf { held: held(copies), stale: 0 };
        row.shelves = self.book.shelves.iter().map(shelf).collect();
        row.runs = self.runs.clone();
    }

    /// The run and the job that a call steps or explains, if it isn't refused.
    fn stepped(&self, call: &Call, answer: &Answer) -> Option<(usize, Stepped)> {
        let (Call::Step(run, job, branch) | Call::Explain(run, job, branch)) = call else {
            return None;
        };
        if matches!(answer, Answer::Refused(_)) {
            return None;
        }
        let (run, job, branch) = (*run as usize, *job as usize, *branch as usize);
        let office = self.book.runs[run].jobs[job].office;
        Some((run, Stepped { job, office, branch }))
    }

    /// A run's line in words: the run alone, unless it is forked.
    pub fn who(&self, run: usize, branch: usize) -> String {
        match self.book.runs[run].is_forked {
            true => format!("line {branch} of run {run}"),
            false => format!("run {run}"),
        }
    }

    /// A job as a sentence begins with it.
    pub fn job(&self, run: usize, step: Stepped) -> String {
        let (job, branch) = (step.job, step.branch);
        match self.book.runs[run].is_forked {
            true => format!("Job {job} of run {run}, on line {branch},"),
            false => format!("Job {job} of run {run}"),
        }
    }

    /// The lane that a call is about, if there is one.
    fn lane_of(&self, call: &Call) -> Option<Lane> {
        let (office, run) = match call {
            Call::Look(0, ..) => return Some(Lane::Master),
            Call::Look(1, office, _) => (Some(*office), None),
            Call::Look(2, run, _) => (None, Some(*run)),
            Call::Fetch(office, _) | Call::Evict(office, _) => (Some(*office), None),
            Call::Stale(office) | Call::Allow(office, _) => (Some(*office), None),
            Call::MayHold(office, _) => (Some(*office), None),
            _ => (None, call.run()),
        };
        let office = office.map(|office| office as usize);
        let run = run.map(|run| run as usize).filter(|run| *run < self.runs.len());
        let office = office.filter(|office| *office < self.book.shelves.len());
        office.map(Lane::Office).or(run.map(Lane::Run))
    }

    /// A call that was answered ok.
    fn done(&mut self, row: &mut Row, call: &Call, numbers: &[u32]) {
        match call {
            Call::New([k, w, n, p]) => {
                let counts = [(k, "sheet"), (w, "writer"), (n, "office"), (p, "run")];
                let counts = counts.map(|(count, noun)| words::counted(*count as usize, noun));
                row.words = format!("A fresh desk of {}.", words::listed(&counts));
                return;
            }
            Call::Prepare(run) => return self.prepare(row, call, *run as usize),
            Call::Fork(run) => return self.fork(row, call, *run as usize),
            Call::Join(run) => return self.join(row, call, *run as usize),
            Call::Issue(run, writer, mask) => {
                return self.issue(row, call, *run as usize, *writer as usize, *mask)
            }
            Call::MayHold(office, right) => {
                return self.mayhold(row, call, *office as usize, *right)
            }
            Call::Fetch(office, sheet) => self.fetch(row, *office as usize, *sheet, numbers[0]),
            Call::Evict(office, sheet) => self.evict(row, *office as usize, *sheet, numbers[0]),
            Call::Look(place, number, sheet) => {
                self.look(row, *place, *number as usize, *sheet, numbers)
            }
            Call::Open(run, list) => {
                self.set_run(*run as usize, State::Open);
                row.words = format!("Run {run} opens: {}.", words::jobs(list));
            }
            Call::Drop(run) => {
                self.set_run(*run as usize, State::Free);
                row.words = format!("Run {run} is dropped: it ends and saves nothing.");
            }
            _ => self.said(row, call, numbers),
        }
        self.book.feed(call, true);
    }

    /// A call that moves no sheet and neither opens nor ends a run.
    fn said(&self, row: &mut Row, call: &Call, numbers: &[u32]) {
        row.words = match call {
            Call::Stale(office) => words::stale(*office, numbers[0]),
            Call::Admit => String::from("The desk is admitted."),
            Call::Pick => {
                row.lane = Some(Lane::Run(numbers[0] as usize));
                format!("Job {} of run {} is next.", numbers[1], numbers[0])
            }
            Call::Allow(office, number) => {
                let sheets = words::counted(*number as usize, "sheet");
                format!("The shelf of office {office} may hold {sheets}.")
            }
            Call::MaySave(writer, right) => {
                format!("Writer {writer} may save {}.", words::right(*right, self.book.k))
            }
            _ => return,
        };
    }

    pub fn set_run(&mut self, run: usize, state: State) {
        self.runs[run] = state;
        self.had[run] = Default::default();
    }

    /// The versions that these copies have of the sheets.
    pub fn versions(&self, copies: &[Saves], mask: u32) -> Vec<Version> {
        let version = |k: usize| self.issues.version(k, &copies[k]);
        sheets(mask).map(version).collect()
    }

    fn broken(&mut self, row: &mut Row, call: &Call, run: usize, step: Stepped, mask: u32) {
        let sheets = self.book.find_step(run, step.job, step.branch).off_card;
        self.runs[run] = State::Broken;
        self.book.feed(call, false);
        let remedy = remedy::remedy(&self.book, run, mask);
        row.broken = Some(Broken { run, step: Some(step), remedy });
        let (from, to) = (Lane::Office(step.office), Lane::Run(run));
        row.arrows.push(Arrow { kind: Kind::Break, from, to, sheets });
        row.words = format!(
            "{} can't read {} at office {}: {} would change, which {} has read. Run {run} is \
             broken.",
            self.job(run, step),
            words::sheet_list(sheets),
            step.office,
            words::sheet_list(mask),
            match self.book.runs[run].is_forked {
                true => "that line",
                false => "the run",
            }
        );
    }
}
