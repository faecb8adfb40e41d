//! "A desk is in form if": the test that every call but new starts with.

use super::allowance::allowance_in_form;
use super::layout::*;
use super::pick::round_in_form;
use super::rights::rights_in_form;
use super::stale::stale_mask;
use super::version::{all_zero, held, row};
use super::{BROKEN, FORKED, FREE, JOINED, LINES, OPEN};

/// The desk's sizes if the buffer is in form.
pub fn in_form(desk: &[u32]) -> Option<Sizes> {
    let s = header_in_form(desk)?;
    let versions_stand = (0..s.k).all(|k| {
        version_in_form(desk, s, s.master_at(k), k)
            && (0..s.n).all(|office| version_in_form(desk, s, s.shelf_at(office, k), k))
            && (0..s.p).all(|run| card_version_in_form(desk, s, run, k))
    });
    let mark_stands = |office| desk[s.stale_at(office)] == stale_mask(desk, s, office);
    let marks_stand = (0..s.n).all(mark_stands);
    let allowances_stand = (0..s.n).all(|office| allowance_in_form(desk, s, office));
    let shelves_stand = marks_stand && allowances_stand;
    let runs_stand = (0..s.p).all(|run| run_in_form(desk, s, run));
    let tail_stands = round_in_form(desk, s) && rights_in_form(desk, s);
    if versions_stand && shelves_stand && runs_stand && tail_stands {
        Some(s)
    } else {
        None
    }
}

/// "The buffer has 10 words and the total; counts, offsets and total are as above."
fn header_in_form(desk: &[u32]) -> Option<Sizes> {
    if desk.len() < HEADER {
        return None;
    }
    let s = Sizes::of(desk[0], desk[1], desk[2], desk[3])?;
    if desk[OFFSETS..HEADER] != s.offsets() || desk.len() < s.total() {
        return None;
    }
    Some(s)
}

/// "An unheld version has only zero words and a held one a non-zero own row"; "a held version's
/// mask isn't zero and has no bit at W or above".
fn version_in_form(desk: &[u32], s: Sizes, at: usize, k: usize) -> bool {
    let version = s.words(desk, at);
    if held(version) {
        let mask = version[LEADERS];
        !all_zero(row(version, s.w, k)) && mask != 0 && among(mask, s.w)
    } else {
        all_zero(version)
    }
}

/// "Form asks of each line's card what it asked of one."
fn card_version_in_form(desk: &[u32], s: Sizes, run: usize, k: usize) -> bool {
    (0..LINES).all(|line| version_in_form(desk, s, s.line_card_at(run, line, k), k))
}

fn run_in_form(desk: &[u32], s: Sizes, run: usize) -> bool {
    let words = &desk[s.run_at(run)..s.run_at(run) + s.run_words()];
    if words[STATE] == FREE {
        return all_zero(words);
    }
    if words[STATE] != OPEN && words[STATE] != BROKEN {
        return false;
    }
    if words[JOBS] < 1 || words[JOBS] > MOST_JOBS as u32 {
        return false;
    }
    let jobs = words[JOBS] as usize;
    let end = JOB_LIST + 3 * jobs;
    all_zero(&words[end..RUN_HEAD])
        && (0..jobs).all(|job| valid_job(s, job, &words[JOB_LIST + 3 * job..]))
        && among(words[DONE], jobs)
        && mark_in_form(desk, s, run)
        && cards_in_form(desk, s, run, &words[JOB_LIST..end])
}

/// "A valid job has an office below N, reads among K sheets (0 allowed), and upstream bits
/// only of lower job numbers."
pub fn valid_job(s: Sizes, job: usize, words: &[u32]) -> bool {
    u64::from(words[0]) < s.n as u64 && among(words[1], s.k) && among(words[2], job)
}

/// "A mark (0 never forked, 1 forked, 2 joined), a second read mask and a second card, these two
/// zero unless the mark is 1."
fn mark_in_form(desk: &[u32], s: Sizes, run: usize) -> bool {
    let (mark, second) = (desk[s.mark_at(run)], s.read_at(run, 1));
    mark <= JOINED && (mark == FORKED || all_zero(&desk[second..second + 1 + s.card()]))
}

/// "The read masks together are the done jobs' reads"; of each line: "carried sheets among the
/// plan's sheets (all its jobs' reads), each read sheet on the card".
fn cards_in_form(desk: &[u32], s: Sizes, run: usize, jobs: &[u32]) -> bool {
    let done = desk[s.run_at(run) + DONE];
    let mut plan = 0;
    let mut done_reads = 0;
    for (job, words) in jobs.chunks(3).enumerate() {
        plan |= words[1];
        if has(done, job) {
            done_reads |= words[1];
        }
    }
    let together = desk[s.read_at(run, 0)] | desk[s.read_at(run, 1)];
    let stands = |line: usize| {
        let (read, carried) = (desk[s.read_at(run, line)], carried(desk, s, run, line));
        carried & !plan == 0 && read & !carried == 0
    };
    together == done_reads && (0..LINES).all(stands)
}

/// The sheets that a line's card holds.
pub fn carried(desk: &[u32], s: Sizes, run: usize, line: usize) -> u32 {
    let mut mask = 0;
    for k in 0..s.k {
        if desk[s.line_card_at(run, line, k)] != 0 {
            mask |= 1 << k;
        }
    }
    mask
}
