//! Fetch, prepare and step.

use super::allowance::over_with;
use super::form::carried;
use super::layout::*;
use super::lines::{is_forked, no_such_line};
use super::rights::barred;
use super::sets::*;
use super::stale::set_mark;
use super::version::{held, merge};
use super::*;

/// Fetch: "The shelf takes the master's version of each sheet in T. Answers T."
pub fn fetch(desk: &mut [u32], s: Sizes, office: u32, sheet: u32) -> Answer {
    if u64::from(office) >= s.n as u64 || u64::from(sheet) >= s.k as u64 {
        return Answer::Refused(OUT_OF_RANGE);
    }
    let set = fetch_set(desk, s, office as usize, 1 << sheet);
    if barred(desk, s, office as usize, set) {
        return Answer::Refused(NO_RIGHT);
    }
    if !held(s.words(desk, s.master_at(sheet as usize))) {
        return Answer::Refused(NOT_ON_MASTER);
    }
    if over_with(desk, s, office as usize, set) {
        return Answer::Refused(OVER_ALLOWANCE);
    }
    take(desk, s, office as usize, set);
    Answer::Ok(vec![set])
}

/// The shelf takes the master's versions, as copies, and its mark follows.
fn take(desk: &mut [u32], s: Sizes, office: usize, set: u32) {
    for k in 0..s.k {
        if has(set, k) {
            let from = s.master_at(k);
            desk.copy_within(from..from + s.version(), s.shelf_at(office, k));
        }
    }
    set_mark(desk, s, office);
}

/// Prepare: each job's missing reads are fetched, then the card is made of the shelves.
pub fn prepare(desk: &mut [u32], s: Sizes, run: u32) -> Answer {
    if let Err(number) = prepare_refusal(desk, s, run) {
        return Answer::Refused(number);
    }
    let run = run as usize;
    let shelves = desk[s.shelves()..s.writers()].to_vec();
    fetch_for_jobs(desk, s, run);
    if (0..s.n).any(|office| over_with(desk, s, office, 0)) {
        desk[s.shelves()..s.writers()].copy_from_slice(&shelves);
        return Answer::Refused(OVER_ALLOWANCE);
    }
    make_card(desk, s, run);
    Answer::Ok(vec![carried(desk, s, run, 0)])
}

/// "For each job in number order, its reads that its shelf lacks are fetched together." Answers
/// whether some fetch would bring a sheet that is barred to its office. "A read that the master
/// lacks counts as one to fetch and stays unheld."
fn fetch_for_jobs(desk: &mut [u32], s: Sizes, run: usize) -> bool {
    let mut stopped = false;
    for job in 0..desk[s.run_at(run) + JOBS] as usize {
        let (office, reads, _) = job_words(desk, s, run, job);
        let missing = lacking(desk, s, office, reads);
        let set = fetch_set(desk, s, office, missing);
        stopped |= barred(desk, s, office, reads | set);
        take(desk, s, office, set);
    }
    stopped
}

/// 13 of any job comes before 7 of any other, so all fetches are tried first, on a copy. A fetch
/// brings only sheets that the master holds, so a sheet that is on neither the shelf nor the
/// master before the first fetch is on neither later: 7 is tested on the desk as it stands.
fn prepare_refusal(desk: &[u32], s: Sizes, run: u32) -> Result<(), u32> {
    if u64::from(run) >= s.p as u64 {
        return Err(OUT_OF_RANGE);
    }
    let run = run as usize;
    let head = &desk[s.run_at(run)..];
    if head[STATE] != OPEN {
        return Err(WRONG_STATE);
    }
    if is_forked(desk, s, run) {
        return Err(WRONG_LINE);
    }
    if head[DONE] != 0 {
        return Err(WRONG_TURN);
    }
    if fetch_for_jobs(&mut desk.to_vec(), s, run) {
        return Err(NO_RIGHT);
    }
    for job in 0..head[JOBS] as usize {
        let (office, reads, _) = job_words(desk, s, run, job);
        if lacking(desk, s, office, reads) & !on_master(desk, s) != 0 {
            return Err(NOT_ON_MASTER);
        }
    }
    Ok(())
}

/// "The card becomes the merge, over the jobs' offices (lowest number first, each once), of
/// their shelves cut down to the plan's sheets."
fn make_card(desk: &mut [u32], s: Sizes, run: usize) {
    let plan = plan(desk, s, run);
    let jobs = desk[s.run_at(run) + JOBS] as usize;
    for k in 0..s.k {
        let mut version = vec![0; s.version()];
        for office in 0..s.n {
            let used = (0..jobs).any(|job| job_words(desk, s, run, job).0 == office);
            if used && has(plan, k) {
                merge(&mut version, s.words(desk, s.shelf_at(office, k)), s.w, k);
            }
        }
        let at = s.card_at(run, k);
        desk[at..at + s.version()].copy_from_slice(&version);
    }
}

/// Step: one job reads its sheets on a line, or the run breaks. The other line keeps every word.
pub fn step(desk: &mut [u32], s: Sizes, run: u32, job: u32, line: u32) -> Answer {
    if let Err(number) = step_refusal(desk, s, run, job, line) {
        return Answer::Refused(number);
    }
    let (run, job, line) = (run as usize, job as usize, line as usize);
    let (office, reads, _) = job_words(desk, s, run, job);
    let view = step_view(desk, s, run, job, line);
    let (fetched, set) = (view.fetched, card_set(desk, s, &view));
    let (at, read) = (s.run_at(run), s.read_at(run, line));
    if set & desk[read] != 0 {
        // "Its state becomes 2, nothing else changes."
        desk[at + STATE] = BROKEN;
        return Answer::Broken(set & desk[read]);
    }
    take(desk, s, office, fetched);
    for k in 0..s.k {
        if has(set, k) {
            let version = s.words(desk, s.shelf_at(office, k)).to_vec();
            let card = s.line_card_at(run, line, k);
            merge(&mut desk[card..card + s.version()], &version, s.w, k);
        }
    }
    desk[read] |= reads;
    desk[at + DONE] |= 1 << job;
    Answer::Ok(vec![reads & !set, reads & set & !fetched, reads & set & fetched])
}

/// "Reads R that the card lacks and the shelf lacks are fetched together."
pub fn step_view(desk: &[u32], s: Sizes, run: usize, job: usize, line: usize) -> StepView {
    let (office, reads, _) = job_words(desk, s, run, job);
    let off_card = reads & !carried(desk, s, run, line);
    let fetched = fetch_set(desk, s, office, lacking(desk, s, office, off_card));
    StepView { run, line, office, off_card, fetched, plan: plan(desk, s, run) }
}

/// What turns a step down; explain too.
pub fn step_refusal(
    desk: &[u32],
    s: Sizes,
    run: u32,
    job: u32,
    line: u32,
) -> Result<(), u32> {
    if u64::from(run) >= s.p as u64 {
        return Err(OUT_OF_RANGE);
    }
    let head = &desk[s.run_at(run as usize)..];
    let jobs = if head[STATE] == FREE { MOST_JOBS as u32 } else { head[JOBS] };
    if job >= jobs {
        return Err(OUT_OF_RANGE);
    }
    if head[STATE] != OPEN {
        return Err(WRONG_STATE);
    }
    if no_such_line(desk, s, run as usize, line) {
        return Err(WRONG_LINE);
    }
    let (run, job, line) = (run as usize, job as usize, line as usize);
    let (office, reads, upstream) = job_words(desk, s, run, job);
    if has(head[DONE], job) || upstream & !head[DONE] != 0 {
        return Err(WRONG_TURN);
    }
    let view = step_view(desk, s, run, job, line);
    // "A job may not read it at that office, even from the card", and T may have further sheets.
    if barred(desk, s, office, reads | view.fetched) {
        return Err(NO_RIGHT);
    }
    if lacking(desk, s, office, view.off_card) & !on_master(desk, s) != 0 {
        return Err(NOT_ON_MASTER);
    }
    // "Looked for only when the fetch fits": 12 comes before a break.
    if over_with(desk, s, office, view.fetched) {
        return Err(OVER_ALLOWANCE);
    }
    Ok(())
}

/// A job's office, reads and upstream mask.
pub fn job_words(desk: &[u32], s: Sizes, run: usize, job: usize) -> (usize, u32, u32) {
    let at = s.run_at(run) + JOB_LIST + 3 * job;
    (desk[at] as usize, desk[at + 1], desk[at + 2])
}

/// "The plan's sheets (all its jobs' reads)".
pub fn plan(desk: &[u32], s: Sizes, run: usize) -> u32 {
    let mut mask = 0;
    for job in 0..desk[s.run_at(run) + JOBS] as usize {
        mask |= job_words(desk, s, run, job).1;
    }
    mask
}

/// Those of the sheets that the office's shelf doesn't hold.
fn lacking(desk: &[u32], s: Sizes, office: usize, sheets: u32) -> u32 {
    let mut mask = 0;
    for k in 0..s.k {
        if has(sheets, k) && !held(s.words(desk, s.shelf_at(office, k))) {
            mask |= 1 << k;
        }
    }
    mask
}

fn on_master(desk: &[u32], s: Sizes) -> u32 {
    let mut mask = 0;
    for k in 0..s.k {
        if held(s.words(desk, s.master_at(k))) {
            mask |= 1 << k;
        }
    }
    mask
}
