//! "Offices book the plotter beforehand": runs that are prepared, one or two side by side, and
//! stepped whatever others issue, fetch, evict, fork and join between, with little room and few
//! rights.

use crate::desk::layout::has;
use crate::desk::reads::plan;
use crate::desk::{Answer, FREE, OPEN};
use crate::plots::{end_run, publish_by, some_sheets, writer_of};
use crate::rights;
use crate::small;
use crate::teller::Teller;

/// Prepares one or two runs, steps them in a mixture with other calls, and ends them.
pub fn book_the_plotter(t: &mut Teller) {
    rights::give_back_all(t, 60);
    let mut runs = Vec::new();
    for _ in 0..1 + usize::from(t.chance(75)) {
        runs.extend(prepared(t, &runs));
    }
    if runs.is_empty() {
        return;
    }
    for _ in 0..5 + t.below(8) {
        if t.chance(55) {
            let run = runs[t.below(runs.len())];
            step_some(t, run);
        } else {
            between(t, &mut runs);
        }
    }
    rights::give_back_all(t, 80);
    for run in runs {
        step_all(t, run);
        end_run(t, run);
    }
    (0..t.sizes().n).for_each(|office| small::loosen(t, office));
}

/// A free run that isn't one of these; one in use is dropped if none is free.
fn other_run(t: &mut Teller, kept: &[usize]) -> Option<usize> {
    let others = (0..t.sizes().p).filter(|run| !kept.contains(run)).collect::<Vec<usize>>();
    let free = others.iter().copied().find(|run| t.run_head(*run)[0] == FREE);
    if free.is_some() || others.is_empty() {
        return free;
    }
    let run = others[t.below(others.len())];
    t.tell("drop", &[run as u32]);
    Some(run)
}

/// Opens and prepares a run, some after a fork and a join. Where room or a right is missing it is
/// given, mostly.
fn prepared(t: &mut Teller, kept: &[usize]) -> Option<usize> {
    let (s, run) = (t.sizes(), other_run(t, kept)?);
    let on_master = (0..s.k).filter(|k| t.on_master(*k)).fold(0, |mask, k| mask | 1 << k);
    let mut list = vec![run as u32];
    for job in 0..1 + t.below(4) {
        let upstream = t.next() as u32 & ((1 << job) - 1) & t.next() as u32 & t.next() as u32;
        list.extend([t.below(s.n) as u32, some_sheets(t, 35) & on_master, upstream]);
    }
    t.tell("open", &list);
    if t.chance(25) {
        t.tell("fork", &[run as u32]);
        issue_pair(t, &[kept, &[run]].concat());
        t.tell("join", &[run as u32]);
    }
    let mut answer = t.tell("prepare", &[run as u32]);
    if matches!(answer, Some(Answer::Refused(_))) && t.chance(80) {
        rights::give_back_all(t, 100);
        (0..s.n).for_each(|office| small::loosen(t, office));
        answer = t.tell("prepare", &[run as u32]);
    }
    matches!(answer, Some(Answer::Ok(_))).then_some(run)
}

/// A job that is due mostly; now and then any, or on a line that there isn't.
fn step_some(t: &mut Teller, run: usize) {
    let [_, jobs, done, _] = t.run_head(run);
    let due = (0..jobs).find(|job| !has(done, *job as usize));
    let any = t.below(jobs as usize + 1) as u32;
    let job = if t.chance(75) { due.unwrap_or(any) } else { any };
    let line = if t.chance(5) { 1 + t.below(2) as u32 } else { 0 };
    t.tell("step", &[run as u32, job, line]);
}

fn step_all(t: &mut Teller, run: usize) {
    let [state, jobs, done, _] = t.run_head(run);
    for job in (0..jobs).filter(|job| state == OPEN && !has(done, *job as usize)) {
        t.tell("step", &[run as u32, job]);
    }
}

/// What others do meanwhile, and what the run's own calls are refused.
fn between(t: &mut Teller, runs: &mut Vec<usize>) {
    let run = runs[t.below(runs.len())];
    match t.below(14) {
        0..=2 => empty_a_shelf(t, run),
        3..=5 => issue_pair(t, runs),
        6 | 7 => without_right(t, run),
        8 => fork_another(t, runs),
        9 | 10 => follow_with_another(t, runs),
        11 => {
            t.tell("join", &[run as u32]);
            t.tell("open", &[run as u32, 0, 1, 0]);
            t.tell("prepare", &[run as u32]);
        }
        12 if t.chance(20) => {
            t.tell("fork", &[run as u32]);
        }
        _ => {
            let numbers = [t.below(t.sizes().n), t.below(t.sizes().k)].map(|n| n as u32);
            let name = ["fetch", "evict"][t.below(2)];
            t.tell(name, &numbers);
        }
    }
}

/// Office and reads of a job of the run.
fn any_job(t: &mut Teller, run: usize) -> (u32, u32) {
    let jobs = t.run_head(run)[1].max(1) as usize;
    let job = t.below(jobs);
    let [office, reads, _] = t.job(run, job);
    (office, reads)
}

/// What a job reads leaves its office's shelf, and there is no room for it any more.
fn empty_a_shelf(t: &mut Teller, run: usize) {
    let (office, reads) = any_job(t, run);
    for k in (0..t.sizes().k).filter(|k| has(reads, *k)) {
        if t.on_shelf(office as usize, k) && t.chance(80) {
            t.tell("evict", &[office, k as u32]);
        }
    }
    if t.chance(70) {
        small::tighten(t, office as usize);
    }
}

/// Two of a prepared run's sheets, if it has so many, get new versions through another run, one
/// drawn against the other, and the run's office takes them: unprepared it would break.
fn issue_pair(t: &mut Teller, runs: &[usize]) {
    let Some(other) = other_run(t, runs) else {
        return;
    };
    let (s, run) = (t.sizes(), runs[t.below(runs.len())]);
    let planned = plan(&t.words, s, run);
    let sheets = (0..s.k).filter(|k| has(planned, *k)).collect::<Vec<usize>>();
    let [a, b] = [0, 1].map(|_| match sheets.len() {
        0 => t.below(s.k),
        count => sheets[t.below(count)],
    });
    let writer = writer_of(t, a);
    publish_by(t, other, writer, 1 << a, 0);
    let office = t.below(s.n) as u32;
    t.tell("fetch", &[office, a as u32]);
    t.tell("open", &[other as u32, office, 1 << a, 0]);
    t.tell("step", &[other as u32, 0]);
    let writer = writer_of(t, b) as u32;
    t.tell("issue", &[other as u32, writer, 1 << b]);
    let (office, _) = any_job(t, run);
    t.tell("fetch", &[office, b as u32]);
}

/// A job's office may not hold a sheet that it reads; mostly the right comes back.
fn without_right(t: &mut Teller, run: usize) {
    let (office, reads) = any_job(t, run);
    let all = t.sizes().all_sheets();
    let lost = if reads != 0 { 1 << reads.trailing_zeros() } else { 1 };
    t.tell("mayhold", &[office, all & !lost]);
    step_some(t, run);
    if t.chance(70) {
        t.tell("mayhold", &[office, all]);
        step_some(t, run);
    }
}

/// Another run forks, reads on both lines and joins.
fn fork_another(t: &mut Teller, runs: &[usize]) {
    let Some(other) = other_run(t, runs) else {
        return;
    };
    let s = t.sizes();
    let offices = [t.below(s.n) as u32, t.below(s.n) as u32];
    let reads = [some_sheets(t, 30), some_sheets(t, 30)];
    let other = other as u32;
    t.tell("open", &[other, offices[0], reads[0], 0, offices[1], reads[1], 0]);
    t.tell("fork", &[other]);
    t.tell("step", &[other, 0]);
    t.tell("step", &[other, 1, 1]);
    t.tell("join", &[other]);
    end_run(t, other as usize);
}

/// One of the runs ends, an issue mostly, and another is prepared: of two the other one goes on.
fn follow_with_another(t: &mut Teller, runs: &mut Vec<usize>) {
    if runs.len() < 2 {
        return;
    }
    let run = runs.remove(t.below(runs.len()));
    step_all(t, run);
    let sheets = plan(&t.words, t.sizes(), run) | 1;
    let writer = writer_of(t, sheets.trailing_zeros() as usize) as u32;
    t.tell("issue", &[run as u32, writer, sheets]);
    if t.chance(70) {
        runs.extend(prepared(t, runs));
    }
}
