//! Two lines of one run: forks, steps on both lines, joins that go through and that break.

use crate::desk::layout::has;
use crate::desk::{FORKED, JOINED, NEVER_FORKED, OPEN};
use crate::everyday::fetch_and_evict;
use crate::plots::{end_run, free_run, pair_elsewhere, publish, some_sheets, untied_pair};
use crate::rights;
use crate::teller::Teller;

/// A run whose plans and details are collected side by side.
pub fn side_by_side(t: &mut Teller) {
    rights::give_back_all(t, 70);
    match t.below(10) {
        0 | 1 => two_versions(t),
        2 | 3 => carried_apart(t),
        4..=6 => break_on_a_line(t),
        7 => prepared(t),
        _ => any_lines(t),
    }
}

/// Line 0 or 1, now and then one that there isn't.
pub fn any_line(t: &mut Teller) -> u32 {
    match t.below(40) {
        0 => 2,
        1 => u32::MAX - t.below(2) as u32,
        number => number as u32 % 2,
    }
}

/// A step on a line; line 0 is left out in half of the cases.
fn step(t: &mut Teller, run: usize, job: u32, line: u32) {
    let numbers = [run as u32, job, line];
    let given = if line == 0 && t.chance(50) { 2 } else { 3 };
    t.tell("step", &numbers[..given]);
}

/// A fork, now and then of a run that has forked.
fn fork(t: &mut Teller, run: usize) {
    t.tell("fork", &[run as u32]);
    if t.chance(10) {
        wrong_line(t, run);
    }
}

/// A join, and what isn't to be had of a joined run.
fn join(t: &mut Teller, run: usize) {
    if t.chance(15) {
        wrong_line(t, run);
    }
    t.tell("join", &[run as u32]);
    let s = t.sizes();
    if t.words[s.mark_at(run)] == JOINED && t.chance(25) {
        wrong_line(t, run);
    }
    let sheet = t.below(s.k) as u32;
    t.tell("look", &[2, run as u32, sheet]);
}

/// Each call that is 14 by the run's mark.
pub fn wrong_line(t: &mut Teller, run: usize) {
    let mark = t.words[t.sizes().mark_at(run)];
    let (job, number) = (t.below(3) as u32, run as u32);
    let name = ["step", "explain"][t.below(2)];
    if mark == FORKED {
        let writer = t.below(t.sizes().w) as u32;
        t.tell("prepare", &[number]);
        t.tell("forecast", &[number]);
        let sheets = some_sheets(t, 20);
        t.tell("issue", &[number, writer, sheets]);
    } else {
        t.tell("join", &[number]);
        t.tell(name, &[number, job, 1]);
    }
    if mark != NEVER_FORKED {
        t.tell("fork", &[number]);
    }
    let above = 2 + t.below(2) as u32;
    t.tell(name, &[number, job, above]);
}

/// Some jobs before the fork, the others on either line, with changes in between, then a join.
fn any_lines(t: &mut Teller) {
    let (s, run) = (t.sizes(), free_run(t));
    let on_master = (0..s.k).filter(|k| t.on_master(*k)).fold(0, |mask, k| mask | 1 << k);
    let jobs = 2 + t.below(4) as u32;
    let mut list = vec![run as u32];
    for job in 0..jobs {
        let upstream = t.next() as u32 & ((1 << job) - 1) & t.next() as u32 & t.next() as u32;
        list.extend([t.below(s.n) as u32, some_sheets(t, 35) & on_master, upstream]);
    }
    t.tell("open", &list);
    let before = if t.chance(40) { 0 } else { t.below(jobs as usize) as u32 };
    for job in 0..jobs {
        if job == before {
            fork(t, run);
        }
        if t.chance(35) {
            disturb(t, run);
        }
        if t.run_head(run)[0] == OPEN {
            let line = if job < before { 0 } else { any_line(t) };
            step(t, run, job, line);
        }
        if t.chance(5) {
            join(t, run);
        }
    }
    if t.chance(90) {
        join(t, run);
    }
    finish(t, run);
}

/// What is left is stepped on line 0, then the run ends.
fn finish(t: &mut Teller, run: usize) {
    let [state, jobs, done, _] = t.run_head(run);
    for job in (0..jobs).filter(|job| state == OPEN && !has(done, *job as usize)) {
        step(t, run, job, 0);
    }
    end_run(t, run);
}

/// Something that changes master or shelves under a run.
fn disturb(t: &mut Teller, run: usize) {
    if t.chance(50) {
        let (a, b) = untied_pair(t);
        pair_elsewhere(t, run, a, b);
    } else {
        fetch_and_evict(t);
    }
}

/// A sheet that two offices have in two versions, mostly, read on each line: the join breaks, if
/// not both have the same.
fn two_versions(t: &mut Teller) {
    let (s, sheet) = (t.sizes(), t.below(t.sizes().k));
    let here = t.below(s.n);
    let there = (here + 1) % s.n;
    publish(t, sheet, 0);
    t.tell("fetch", &[here as u32, sheet as u32]);
    if t.chance(85) {
        publish(t, sheet, 0);
    }
    t.tell("fetch", &[there as u32, sheet as u32]);
    let run = free_run(t);
    let more = if t.chance(30) { some_sheets(t, 20) } else { 0 };
    let (one, other) = (1 << sheet, 1 << sheet | more);
    t.tell("open", &[run as u32, here as u32, one, 0, there as u32, other, 0]);
    fork(t, run);
    let first = t.below(2) as u32;
    step(t, run, 0, first);
    step(t, run, 1, 1 - first);
    join(t, run);
    finish(t, run);
}

/// Two sheets drawn against an older and a newer version of a third one, which the plan has and
/// nobody has read by then, mostly: the join takes the newer one, and a job reads that.
fn carried_apart(t: &mut Teller) {
    let (s, base) = (t.sizes(), t.below(t.sizes().k));
    let here = t.below(s.n);
    let there = (here + 1) % s.n;
    let [one, other] = [1, 2].map(|more| (base + more) % s.k);
    for (office, drawn) in [(here, one), (there, other)] {
        publish(t, base, 0);
        t.tell("fetch", &[office as u32, base as u32]);
        let run = free_run(t) as u32;
        t.tell("open", &[run, office as u32, 1 << base, 0]);
        t.tell("step", &[run, 0]);
        let writer = (drawn % s.w) as u32;
        t.tell("issue", &[run, writer, 1 << drawn]);
        t.tell("fetch", &[office as u32, drawn as u32]);
    }
    let run = free_run(t);
    let list = [run as u32, here as u32, 1 << one, 0, there as u32, 1 << other, 0];
    let last = [t.below(s.n) as u32, 1 << base, 0];
    t.tell("open", &[&list[..], &last].concat());
    let early = t.chance(20);
    fork(t, run);
    let first = t.below(2) as u32;
    step(t, run, 0, first);
    step(t, run, 1, 1 - first);
    if early {
        let line = any_line(t);
        step(t, run, 2, line);
    }
    join(t, run);
    finish(t, run);
}

/// "Read a sheet at one office, issue a pair, fetch the newer one at another office, read it
/// there", with a fork before or behind the first read: a line breaks by its own reads.
fn break_on_a_line(t: &mut Teller) {
    let s = t.sizes();
    let (a, b) = untied_pair(t);
    let (here, there) = (t.below(s.n) as u32, t.below(s.n) as u32);
    publish(t, a, 0);
    let run = free_run(t);
    t.tell("open", &[run as u32, here, 1 << a, 0, there, 1 << b, 0, here, 1 << a | 1 << b, 0]);
    let read_on = t.below(2) as u32;
    if t.chance(50) {
        fork(t, run);
        step(t, run, 0, read_on);
    } else {
        step(t, run, 0, 0);
        fork(t, run);
    }
    pair_elsewhere(t, run, a, b);
    if t.chance(60) {
        t.tell("fetch", &[there, b as u32]);
    }
    for line in [0, 1] {
        t.tell("explain", &[run as u32, 1, line]);
    }
    let line = if t.chance(60) { read_on } else { 1 - read_on };
    step(t, run, 1, line);
    join(t, run);
    finish(t, run);
}

/// A prepared run forks; both lines have all that the jobs read.
fn prepared(t: &mut Teller) {
    let (s, run) = (t.sizes(), free_run(t));
    let on_master = (0..s.k).filter(|k| t.on_master(*k)).fold(0, |mask, k| mask | 1 << k);
    let mut list = vec![run as u32];
    for _ in 0..3 {
        list.extend([t.below(s.n) as u32, some_sheets(t, 35) & on_master, 0]);
    }
    t.tell("open", &list);
    t.tell("prepare", &[run as u32]);
    fork(t, run);
    if t.chance(30) {
        // Joined at once: a run without done jobs may be prepared again.
        join(t, run);
        t.tell("prepare", &[run as u32]);
    }
    for job in 0..3 {
        if t.chance(40) {
            disturb(t, run);
        }
        let line = any_line(t);
        step(t, run, job, line);
    }
    join(t, run);
    finish(t, run);
}
