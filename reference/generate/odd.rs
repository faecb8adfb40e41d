//! Refused calls of every number that text can reach.

use crate::branches;
use crate::desk::{FREE, OPEN};
use crate::teller::Teller;

/// "Before any new, the buffer is all zero": every call but new is refused.
pub fn before_new(t: &mut Teller) {
    for _ in 0..t.below(3) {
        match t.below(14) {
            0 => t.tell("fetch", &[0, 0]),
            1 => t.tell("open", &[0]),
            2 => t.tell("explain", &[0, 0]),
            3 => t.tell("look", &[9, 9, 9]),
            4 => t.tell("stale", &[0]),
            5 => t.tell("admit", &[]),
            6 => t.tell("allow", &[0, 0]),
            7 => t.tell("pick", &[]),
            8 => t.tell("mayhold", &[0, 0]),
            9 => t.tell("maysave", &[0, 0]),
            10 => t.tell("fork", &[0]),
            11 => t.tell("join", &[0]),
            12 => t.tell("forecast", &[0]),
            _ => t.tell("new", &[32, 16, 8, 8]),
        };
    }
}

/// A call that is refused with a number drawn first, as far as the desk has a way to it.
pub fn refused(t: &mut Teller) {
    match 1 + t.below(10) {
        1 => too_large(t),
        2 => bad_count(t),
        3 => out_of_range(t),
        4 => wrong_state(t),
        5 | 10 => bad_jobs(t),
        6 => wrong_turn(t),
        7 => not_on_master(t),
        8 => wrong_line(t),
        _ => not_held(t),
    }
}

fn too_large(t: &mut Teller) {
    let sizes = [[32, 1, 8, 3], [19, 7, 3, 1], [32, 16, 8, 8]][t.below(3)];
    t.tell("new", &sizes);
}

fn bad_count(t: &mut Teller) {
    let mut sizes = [1, 1, 1, 1];
    let place = t.below(4);
    let over = [33, 17, 9, 9][place];
    sizes[place] = [0, over, u32::MAX][t.below(3)];
    t.tell("new", &sizes);
}

fn out_of_range(t: &mut Teller) {
    let s = t.sizes();
    let far = if t.chance(30) { u32::MAX } else { 0 };
    let [k, w, n, p] = [s.k, s.w, s.n, s.p].map(|count| far.max(count as u32));
    let place = t.below(3) as u32;
    // K = 32: all sheets, in range.
    let past_last = s.all_sheets().saturating_add(1);
    match t.below(25) {
        0 => t.tell("open", &[p]),
        1 => t.tell("fetch", &[n, 0]),
        2 => t.tell("fetch", &[0, k]),
        3 => t.tell("evict", &[n, 0]),
        4 => t.tell("evict", &[0, k]),
        5 => t.tell("prepare", &[p]),
        6 => t.tell("step", &[p, 0]),
        7 => t.tell("step", &[0, 8]),
        8 => t.tell("issue", &[p, 0, 0]),
        9 => t.tell("issue", &[0, w, 0]),
        10 => t.tell("issue", &[0, 0, u32::MAX]),
        11 => t.tell("drop", &[p]),
        12 => t.tell("look", &[3, 0, 0]),
        13 => t.tell("stale", &[n]),
        14 => t.tell("allow", &[n, 0]),
        15 => t.tell("allow", &[0, k.saturating_add(1)]),
        16 => t.tell("mayhold", &[n, 0]),
        17 => t.tell("mayhold", &[0, past_last.max(far)]),
        18 => t.tell("maysave", &[w, 0]),
        19 => t.tell("maysave", &[0, past_last.max(far)]),
        20 => t.tell("fork", &[p]),
        21 => t.tell("join", &[p]),
        22 => t.tell("step", &[0, 8, 2]),
        23 => t.tell("forecast", &[p]),
        _ => t.tell("look", &[place, p.max(n), 0]),
    };
}

/// A run in a given state, if there is one.
fn run_in(t: &mut Teller, wanted: fn(u32) -> bool) -> Option<u32> {
    (0..t.sizes().p).find(|run| wanted(t.run_head(*run)[0])).map(|run| run as u32)
}

fn wrong_state(t: &mut Teller) {
    if let Some(run) = run_in(t, |state| state != FREE) {
        t.tell("open", &[run, 99]);
    }
    if let Some(run) = run_in(t, |state| state != OPEN) {
        match t.below(7) {
            0 => t.tell("prepare", &[run]),
            1 => t.tell("step", &[run, 0]),
            2 => t.tell("step", &[run, 0, 7]),
            3 => t.tell("fork", &[run]),
            4 => t.tell("join", &[run]),
            5 => t.tell("forecast", &[run]),
            _ => t.tell("issue", &[run, 0, 1]),
        };
    }
    if let Some(run) = run_in(t, |state| state == FREE) {
        t.tell("drop", &[run]);
    }
}

fn bad_jobs(t: &mut Teller) {
    let Some(run) = run_in(t, |state| state == FREE) else {
        return;
    };
    let s = t.sizes();
    let past_last = if s.k < 32 { 1 << s.k } else { 0 };
    let mut nine = vec![run];
    nine.resize(28, 0);
    match t.below(7) {
        0 => t.tell("open", &[run]),
        1 => t.tell("open", &[run, 0]),
        2 => t.tell("open", &[run, 0, 0, 0, 0]),
        3 => t.tell("open", &nine),
        4 => t.tell("open", &[run, s.n as u32, 0, 0]),
        5 => t.tell("open", &[run, 0, past_last, past_last]),
        _ => t.tell("open", &[run, 0, 0, 0, 0, 0, 2]),
    };
}

fn wrong_turn(t: &mut Teller) {
    let Some(run) = run_in(t, |state| state == OPEN) else {
        return;
    };
    let [_, jobs, done, _] = t.run_head(run as usize);
    for job in 0..jobs {
        let upstream = t.job(run as usize, job as usize)[2];
        if done >> job & 1 == 1 || upstream & !done != 0 {
            t.tell("step", &[run, job]);
        }
    }
    if done != 0 {
        t.tell("prepare", &[run]);
    }
    if done != (1 << jobs) - 1 {
        t.tell("issue", &[run, 0, 0]);
    }
}

/// What an open run's mark forbids.
fn wrong_line(t: &mut Teller) {
    let Some(run) = run_in(t, |state| state == OPEN) else {
        return;
    };
    if t.chance(20) {
        t.tell("fork", &[run]);
    }
    branches::wrong_line(t, run as usize);
}

fn not_on_master(t: &mut Teller) {
    let s = t.sizes();
    let Some(sheet) = (0..s.k).find(|k| !t.on_master(*k)) else {
        return;
    };
    t.tell("fetch", &[t.sizes().n as u32 - 1, sheet as u32]);
    if let Some(run) = run_in(t, |state| state == FREE) {
        t.tell("open", &[run, 0, 0, 0, 0, 1 << sheet, 0]);
        t.tell("prepare", &[run]);
        t.tell("step", &[run, 1]);
        t.tell("drop", &[run]);
    }
}

fn not_held(t: &mut Teller) {
    let s = t.sizes();
    let office = t.below(s.n);
    if let Some(sheet) = (0..s.k).find(|k| !t.on_shelf(office, *k)) {
        t.tell("evict", &[office as u32, sheet as u32]);
        t.tell("look", &[1, office as u32, sheet as u32]);
    }
    if let Some(run) = run_in(t, |state| state == FREE) {
        t.tell("look", &[2, run, 0]);
    }
}
