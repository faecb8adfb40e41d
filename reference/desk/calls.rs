//! New, open, issue, drop and look.

use super::form::valid_job;
use super::layout::*;
use super::lines::is_forked;
use super::rights::may_save;
use super::stale::set_mark;
use super::version::{compare, held, merge, row, standing_number, take_larger};
use super::*;

/// "New tests 2 before 1." Words past the total are never touched.
pub fn new(desk: &mut [u32], k: u32, w: u32, n: u32, p: u32) -> Answer {
    let Some(s) = Sizes::of(k, w, n, p) else {
        return Answer::Refused(BAD_COUNT);
    };
    if desk.len() < s.total() {
        return Answer::Refused(NOT_IN_FORM);
    }
    desk[..s.total()].fill(0);
    desk[..4].copy_from_slice(&[k, w, n, p]);
    desk[OFFSETS..HEADER].copy_from_slice(&s.offsets());
    // An allowance is "K on a new desk".
    (0..s.n).for_each(|office| desk[s.allowance_at(office)] = k);
    // The last picked run is "P - 1 on a new desk".
    desk[s.round_at()] = p - 1;
    // Offices and writers have the right to "all sheets on a new desk".
    desk[s.mayhold_at(0)..s.total()].fill(s.all_sheets());
    Answer::Ok(vec![s.total() as u32])
}

/// Open: the jobs are entered into a free run.
pub fn open(desk: &mut [u32], s: Sizes, run: u32, list: &[u32]) -> Answer {
    if u64::from(run) >= s.p as u64 {
        return Answer::Refused(OUT_OF_RANGE);
    }
    let at = s.run_at(run as usize);
    if desk[at + STATE] != FREE {
        return Answer::Refused(WRONG_STATE);
    }
    if list.is_empty() || list.len() % 3 != 0 || list.len() > 3 * MOST_JOBS {
        return Answer::Refused(BAD_JOBS);
    }
    if !list.chunks(3).enumerate().all(|(job, words)| valid_job(s, job, words)) {
        return Answer::Refused(BAD_JOBS);
    }
    let jobs = (list.len() / 3) as u32;
    desk[at + STATE] = OPEN;
    desk[at + JOBS] = jobs;
    desk[at + JOB_LIST..at + JOB_LIST + list.len()].copy_from_slice(list);
    Answer::Ok(vec![jobs])
}

/// Issue: with an empty mask only the run is freed.
pub fn issue(desk: &mut [u32], s: Sizes, run: u32, writer: u32, mask: u32) -> Answer {
    if let Err(number) = issue_refusal(desk, s, run, writer, mask) {
        return Answer::Refused(number);
    }
    let run = run as usize;
    let mut number = 0;
    if mask != 0 {
        number = desk[LAST_ISSUE] + 1;
        desk[LAST_ISSUE] = number;
        grow_writer(desk, s, run, writer as usize, mask);
        publish(desk, s, writer as usize, mask, number);
        (0..s.n).for_each(|office| set_mark(desk, s, office));
    }
    free(desk, s, run);
    Answer::Ok(vec![number])
}

fn issue_refusal(
    desk: &[u32],
    s: Sizes,
    run: u32,
    writer: u32,
    mask: u32,
) -> Result<(), u32> {
    if u64::from(run) >= s.p as u64 || u64::from(writer) >= s.w as u64 || !among(mask, s.k) {
        return Err(OUT_OF_RANGE);
    }
    let head = &desk[s.run_at(run as usize)..];
    if head[STATE] != OPEN {
        return Err(WRONG_STATE);
    }
    if is_forked(desk, s, run as usize) {
        return Err(WRONG_LINE);
    }
    if (0..head[JOBS] as usize).any(|job| !has(head[DONE], job)) {
        return Err(WRONG_TURN);
    }
    if !may_save(desk, s, writer as usize, mask) {
        return Err(NO_RIGHT);
    }
    if mask != 0 && desk[LAST_ISSUE] == u32::MAX {
        return Err(ISSUES_SPENT);
    }
    if mask != 0 && desk[s.writer_at(writer as usize) + COUNT] == u32::MAX {
        return Err(WRITER_SPENT);
    }
    Ok(())
}

/// "The writer's count rises by 1; the writer's past takes in the pasts of the versions that
/// the run read; for each k in S its row k gets the new count at this writer."
fn grow_writer(desk: &mut [u32], s: Sizes, run: usize, writer: usize, mask: u32) {
    let at = s.writer_at(writer);
    let count = desk[at + COUNT] + 1;
    let mut past = s.writer_past(desk, writer).to_vec();
    let read = desk[s.run_at(run) + READ];
    for k in 0..s.k {
        if has(read, k) {
            take_larger(&mut past, &s.words(desk, s.card_at(run, k))[PAST..]);
        }
    }
    for k in 0..s.k {
        if has(mask, k) {
            past[k * s.w + writer] = count;
        }
    }
    desk[at + COUNT] = count;
    desk[at + WRITER_PAST..at + s.writer()].copy_from_slice(&past);
}

/// "The master's k, for each k in S, is merged with the version of that past and issue
/// number." "A new version's mask is its own writer."
fn publish(desk: &mut [u32], s: Sizes, writer: usize, mask: u32, number: u32) {
    let version = [&[number, 1 << writer][..], s.writer_past(desk, writer)].concat();
    for k in 0..s.k {
        if has(mask, k) {
            let at = s.master_at(k);
            merge(&mut desk[at..at + s.version()], &version, s.w, k);
        }
    }
}

/// "A freed run is all zero."
fn free(desk: &mut [u32], s: Sizes, run: usize) {
    desk[s.run_at(run)..s.run_at(run) + s.run_words()].fill(0);
}

/// Drop: frees an open or broken run.
pub fn drop_run(desk: &mut [u32], s: Sizes, run: u32) -> Answer {
    if u64::from(run) >= s.p as u64 {
        return Answer::Refused(OUT_OF_RANGE);
    }
    if desk[s.run_at(run as usize) + STATE] == FREE {
        return Answer::Refused(WRONG_STATE);
    }
    free(desk, s, run as usize);
    Answer::Ok(vec![0])
}

/// Look: "answers issue number and own row"; "the mask follows the issue number"; then "the
/// standing of the place's version against the master's". "Changes nothing."
pub fn look(desk: &[u32], s: Sizes, place: u32, number: u32, sheet: u32) -> Answer {
    let numbers = match place {
        0 => 1,
        1 => s.n,
        2 => s.p,
        _ => 0,
    };
    if u64::from(number) >= numbers as u64 || u64::from(sheet) >= s.k as u64 {
        return Answer::Refused(OUT_OF_RANGE);
    }
    let k = sheet as usize;
    let at = match place {
        0 => s.master_at(k),
        1 => s.shelf_at(number as usize, k),
        _ => s.card_at(number as usize, k),
    };
    let version = s.words(desk, at);
    if !held(version) {
        return Answer::Refused(NOT_HELD);
    }
    let own = row(version, s.w, k);
    let masters = row(s.words(desk, s.master_at(k)), s.w, k);
    let mut answer = vec![version[NUMBER], version[LEADERS]];
    answer.extend_from_slice(own);
    answer.push(standing_number(compare(own, masters)));
    Answer::Ok(answer)
}
