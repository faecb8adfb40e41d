//! Runs without a plot: prepared or not, with changes in between, and calls of any kind.

use crate::branches;
use crate::desk::OPEN;
use crate::plots::{end_run, free_run, pair_elsewhere, publish, some_sheets, untied_pair};
use crate::rights;
use crate::teller::Teller;

/// Opens a run of some jobs whose reads the master holds, mostly.
fn open_some(t: &mut Teller) -> usize {
    let run = free_run(t);
    let s = t.sizes();
    let mut list = vec![run as u32];
    for job in 0..1 + t.below(4) {
        let wanted = some_sheets(t, 35);
        let held = (0..s.k).filter(|k| t.on_master(*k)).fold(0, |mask, k| mask | 1 << k);
        let reads = if t.chance(95) { wanted & held } else { wanted };
        let upstream = t.next() as u32 & ((1 << job) - 1) & t.next() as u32;
        list.extend_from_slice(&[t.below(s.n) as u32, reads, upstream]);
    }
    t.tell("open", &list);
    run
}

/// A run that is prepared, while others go on issuing.
pub fn prepared_run(t: &mut Teller) {
    let run = open_some(t);
    t.tell("prepare", &[run as u32]);
    if t.chance(40) {
        disturb(t, run);
    }
    if t.chance(25) {
        t.tell("prepare", &[run as u32]);
    }
    work_through(t, run);
}

/// A job that reads nothing at an office with a newer version: once that is evicted, a second
/// prepare gives an older card.
pub fn prepare_again(t: &mut Teller) {
    let s = t.sizes();
    let sheet = t.below(s.k);
    let (old, newer) = (t.below(s.n) as u32, t.below(s.n) as u32);
    publish(t, sheet, 0);
    t.tell("fetch", &[old, sheet as u32]);
    publish(t, sheet, 0);
    t.tell("fetch", &[newer, sheet as u32]);
    let run = free_run(t);
    let more = if t.chance(30) { some_sheets(t, 20) } else { 0 };
    t.tell("open", &[run as u32, old, 1 << sheet, 0, newer, more, 0]);
    t.tell("prepare", &[run as u32]);
    t.tell("evict", &[newer, sheet as u32]);
    t.tell("prepare", &[run as u32]);
    work_through(t, run);
}

/// A run without prepare.
pub fn plain_run(t: &mut Teller) {
    let run = open_some(t);
    work_through(t, run);
}

/// Steps in number order, with changes in between, then an end. Some runs fork and join.
fn work_through(t: &mut Teller, run: usize) {
    let forks = t.chance(15);
    for job in 0..t.run_head(run)[1] {
        if forks && t.chance(50) {
            t.tell("fork", &[run as u32]);
        }
        let line = if forks { t.below(2) as u32 } else { 0 };
        if t.chance(30) {
            disturb(t, run);
        }
        if t.run_head(run)[0] == OPEN && t.chance(95) {
            let numbers = [run as u32, job, line];
            t.tell("step", &numbers[..2 + line as usize]);
        }
    }
    if forks {
        t.tell("join", &[run as u32]);
    }
    end_run(t, run);
    rights::give_back_all(t, 30);
}

/// Something that changes master, shelves or rights under a run.
fn disturb(t: &mut Teller, run: usize) {
    match t.below(10) {
        0..=4 => {
            let (a, b) = untied_pair(t);
            pair_elsewhere(t, run, a, b);
        }
        5 => rights::change(t),
        _ => fetch_and_evict(t),
    }
}

pub fn fetch_and_evict(t: &mut Teller) {
    let s = t.sizes();
    let (office, sheet) = (t.below(s.n), t.below(s.k));
    if t.chance(70) {
        t.tell("fetch", &[office as u32, sheet as u32]);
    }
    let held = (0..s.k).filter(|k| t.on_shelf(office, *k)).collect::<Vec<usize>>();
    if t.chance(60) && !held.is_empty() {
        let evicted = held[t.below(held.len())] as u32;
        t.tell("evict", &[office as u32, evicted]);
    }
}

/// A number that is mostly below the count, and now and then the count itself.
fn nearly_below(t: &mut Teller, count: usize) -> u32 {
    let slip = usize::from(t.chance(3));
    t.below(count + slip) as u32
}

/// A call with numbers that are mostly in range.
pub fn any_call(t: &mut Teller) {
    let s = t.sizes();
    let run = nearly_below(t, s.p);
    let office = nearly_below(t, s.n);
    let sheet = nearly_below(t, s.k);
    let writer = nearly_below(t, s.w);
    let sheets = some_sheets(t, 30);
    let job = t.below(4) as u32;
    let place = t.below(3) as u32;
    let line = branches::any_line(t);
    match t.below(22) {
        0 => t.tell("open", &[run, office, sheets, 0, office, 1 << (sheet & 31), 1]),
        1 => t.tell("fetch", &[office, sheet]),
        2 => t.tell("evict", &[office, sheet]),
        3 => t.tell("prepare", &[run]),
        4 => t.tell("issue", &[run, writer, sheets]),
        5 => t.tell("drop", &[run]),
        6 => t.tell("look", &[place, [0, office, run][place as usize], sheet]),
        7 => t.tell("explain", &[run, job, line]),
        8 => t.tell("stale", &[office]),
        9 => t.tell("admit", &[]),
        10 => t.tell("pick", &[]),
        11 => {
            let number = if t.chance(70) { s.k } else { t.below(s.k + 2) };
            t.tell("allow", &[office, number as u32])
        }
        12 | 13 => {
            let (name, number) = [("mayhold", office), ("maysave", writer)][t.below(2)];
            let lost = if t.chance(70) { 0 } else { sheets };
            t.tell(name, &[number, s.all_sheets() & !lost])
        }
        14 => t.tell("fork", &[run]),
        15 => t.tell("join", &[run]),
        16 | 17 => t.tell("step", &[run, job, line]),
        18 | 19 => t.tell("forecast", &[run]),
        _ => t.tell("step", &[run, job]),
    };
}
