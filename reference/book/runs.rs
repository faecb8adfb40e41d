//! What the book keeps of each run.

use super::empty;
use super::saves::Saves;

/// A job as open entered it.
#[derive(Clone)]
pub struct Job {
    pub office: usize,
    pub reads: u32,
}

/// The sheets that a finished job read, as its step left them on the card, and on which lines
/// that read stands.
#[derive(Clone)]
pub struct Finished {
    pub job: usize,
    pub read: Vec<(usize, Saves)>,
    pub on: [bool; 2],
}

impl Finished {
    /// Do both reads stand on some line?
    pub fn shares_line(&self, other: &Finished) -> bool {
        self.on.iter().zip(other.on).any(|(mine, theirs)| *mine && theirs)
    }
}

/// "Each line as a card with its own reads."
#[derive(Clone, Default)]
pub struct Line {
    pub read: u32,
    pub card: Vec<Saves>,
}

impl Line {
    pub fn fresh(k: usize) -> Line {
        Line { read: 0, card: empty(k) }
    }
}

/// A run from its open until it is freed.
#[derive(Clone, Default)]
pub struct Run {
    pub jobs: Vec<Job>,
    /// "0 never forked, 1 forked, 2 joined."
    pub mark: u32,
    pub lines: [Line; 2],
    pub finished: Vec<Finished>,
}

impl Run {
    /// Nothing entered, two empty lines.
    pub fn fresh(k: usize) -> Run {
        Run { lines: [Line::fresh(k), Line::fresh(k)], ..Run::default() }
    }

    /// All its jobs' reads.
    pub fn plan(&self) -> u32 {
        self.jobs.iter().fold(0, |mask, job| mask | job.reads)
    }
}
