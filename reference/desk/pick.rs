//! Pick: "Picking the next job".

use super::layout::{has, Sizes, DONE, JOBS, STATE};
use super::reads::job_words;
use super::{Answer, OPEN};

/// "Going round the runs from the one after the last picked, the first open run with a job that is
/// not done and whose upstreams are; in it the lowest such job. The answer is run and job."
/// "Nothing to do" leaves the last picked run. "A pick steps nothing."
pub fn pick(desk: &mut [u32], s: Sizes) -> Answer {
    let last = desk[s.round_at()] as usize;
    for turn in 1..=s.p {
        let run = (last + turn) % s.p;
        if let Some(job) = next_job(desk, s, run) {
            desk[s.round_at()] = run as u32;
            return Answer::Ok(vec![run as u32, job as u32]);
        }
    }
    Answer::Nothing
}

/// The lowest job of an open run that is not done and whose upstreams are.
fn next_job(desk: &[u32], s: Sizes, run: usize) -> Option<usize> {
    let head = &desk[s.run_at(run)..];
    let ready = |job: &usize| {
        let (_, _, upstream) = job_words(desk, s, run, *job);
        !has(head[DONE], *job) && upstream & !head[DONE] == 0
    };
    (0..head[JOBS] as usize).filter(|_| head[STATE] == OPEN).find(ready)
}

/// "Below P in form".
pub fn round_in_form(desk: &[u32], s: Sizes) -> bool {
    u64::from(desk[s.round_at()]) < s.p as u64
}
