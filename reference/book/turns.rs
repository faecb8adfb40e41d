//! Whose turn it is: picks, by the runs as the desk has them.

use super::{has, Book};
use crate::desk::layout::{DONE, JOBS, JOB_LIST, STATE};
use crate::desk::{Answer, Sizes, OPEN};

/// The last picked run, and for each run how many picks in a row have passed it over though it had
/// a job to pick.
#[derive(Clone)]
pub struct Turns {
    last: usize,
    passed: Vec<usize>,
}

impl Turns {
    pub fn after(last: usize, runs: usize) -> Turns {
        Turns { last, passed: vec![0; runs] }
    }
}

/// The jobs that may be picked: of an open run, not done, with all upstreams done.
fn ready_jobs(desk: &[u32], s: Sizes, run: usize) -> Vec<u32> {
    let words = &desk[s.run_at(run)..s.run_at(run) + s.run_words()];
    if words[STATE] != OPEN {
        return Vec::new();
    }
    let jobs = words[JOB_LIST..].chunks(3).take(words[JOBS] as usize).enumerate();
    let ready = jobs.filter(|(job, words_of)| {
        let waits = (0..8).any(|up| has(words_of[2], up) && !has(words[DONE], up));
        !has(words[DONE], *job) && !waits
    });
    ready.map(|(job, _)| job as u32).collect()
}

impl Book {
    /// A pick that isn't refused; it leaves the runs, so the desk behind it says who had a job.
    /// "A run that stays open and keeps having such a job is picked within P picks, whatever becomes
    /// of other runs. "Nothing to do" is answered only if no open run has such a job."
    pub fn check_pick(&mut self, answer: &Answer, desk: &[u32], s: Sizes) -> Result<(), String> {
        let ready = (0..s.p).map(|run| ready_jobs(desk, s, run)).collect::<Vec<Vec<u32>>>();
        let waiting = (0..s.p).filter(|run| !ready[*run].is_empty());
        // How many runs lie between the last picked and this one, going round.
        let between = |run: &usize| (run + s.p - self.turns.last - 1) % s.p;
        let next = waiting.min_by_key(between);
        let due = next.map_or(Answer::Nothing, |run| Answer::Ok(vec![run as u32, ready[run][0]]));
        if *answer != due {
            return Err(format!("a pick answered {answer:?}, due {due:?}"));
        }
        self.turns.last = next.unwrap_or(self.turns.last);
        for run in 0..s.p {
            let passed = &mut self.turns.passed[run];
            *passed = if ready[run].is_empty() || next == Some(run) { 0 } else { *passed + 1 };
            if *passed >= s.p {
                return Err(format!("run {run} had a job at {passed} picks and wasn't picked"));
            }
        }
        Ok(())
    }

    /// New and picks alone write the last picked run.
    pub fn check_round(&self, desk: &[u32], s: Sizes) -> Result<(), String> {
        let (given, due) = (desk[s.round_at()] as usize, self.turns.last);
        if given != due {
            return Err(format!("the desk has {given} as the last picked run, due {due}"));
        }
        Ok(())
    }
}
