//! Desks that no list of calls from new leaves: looks, leading writers, stale marks, allowances, last
//! picked runs, the longest path.

use crate::calls_but_new;
use crate::desk::layout::{COUNT, DONE, JOBS, JOB_LIST, LAST_ISSUE, LEADERS, NUMBER, PAST, READ, STATE, WRITER_PAST};
use crate::text::Call;
use crate::trials::{Desk, Trials};

// A desk 32 1 1 1 on whose shelf each sheet needs the next one, and sheet 31 was read at an older
// count: the path has all.
pub fn of_the_longest_path(t: &mut Trials) {
    let mut d = Desk::fresh([32, 1, 1, 1]);
    let s = d.sizes();
    d.words[LAST_ISSUE] = 9;
    for k in 0..32 {
        let at = s.shelf_at(0, k);
        (d.words[at + NUMBER], d.words[at + LEADERS]) = (2, 1);
        let row = at + PAST + k;
        d.words[row..row + (32 - k).min(2)].fill(2);
    }
    d.put_marks();
    let last = 1 << 31;
    let (run, card) = (s.run_at(0), s.card_at(0, 31));
    for (word, value) in [(STATE, 1), (JOBS, 3), (DONE, 1), (READ, last)] {
        d.words[run + word] = value;
    }
    d.put(run + JOB_LIST, &[0, last, 0, 0, 1, 0, 0, !last & !1, 0]);
    for (word, value) in [(NUMBER, 1), (LEADERS, 1), (PAST + 31, 1)] {
        d.words[card + word] = value;
    }
    let path: Vec<u32> = [4].into_iter().chain(0..32).collect();
    t.told("the longest path", &mut d, Call::Explain(0, 1, 0), &path);
    t.told("the last two of it", &mut d, Call::Explain(0, 2, 0), &[4, 30, 31]);
    let before = d.words.clone();
    let none = d.call_with(&Call::Explain(0, 1, 0), 39).is_empty();
    t.check("the longest path, 39 words", none && d.words == before);
    let all = d.call_with(&Call::Explain(0, 1, 0), 40) == path;
    t.check("the longest path, 40 words", all && d.words == before);
    t.check("the longest path's step", d.call(&Call::Step(0, 1, 0)) == [1, 2_147_483_648]);
    t.refused("the longest path, broken", &mut d, Call::Explain(0, 1, 0), 4);
}

// A desk 2 2 1 1 whose master has sheet 0 at (1,1), in issue 3, led by writer 1, and lacks sheet
// 1; the shelf's versions are given: issue number, leading writers, rows.
fn lent(shelf: [[u32; 6]; 2]) -> Desk {
    let mut d = Desk::fresh([2, 2, 1, 1]);
    let s = d.sizes();
    d.words[LAST_ISSUE] = 9;
    d.put(s.master_at(0), &[3, 2, 1, 1, 0, 0]);
    d.put(s.shelf_at(0, 0), &shelf.concat());
    d.put_marks();
    d
}

// The standing against the master's version, by the own rows alone.
pub fn of_looks(t: &mut Trials) {
    let none = [0; 6];
    let mut d = lent([[7, 1, 2, 0, 0, 5], [1, 3, 0, 0, 0, 1]]);
    t.ok("look, a rival", &mut d, Call::Look(1, 0, 0), &[7, 1, 2, 0, 3]);
    t.ok("look, the master lacks it", &mut d, Call::Look(1, 0, 1), &[1, 3, 0, 1, 2]);
    t.ok("look, the master", &mut d, Call::Look(0, 0, 0), &[3, 2, 1, 1, 0]);
    let equal = [7, 1, 1, 1, 4, 5];
    t.ok("look, an equal row", &mut lent([equal, none]), Call::Look(1, 0, 0), &[7, 1, 1, 1, 0]);
    let newer = [1, 2, 2, 1, 0, 0];
    let mut d = lent([newer, none]);
    t.ok("look, newer by a smaller number", &mut d, Call::Look(1, 0, 0), &[1, 2, 2, 1, 2]);
    let older = [9, 3, 0, 1, 0, 0];
    let mut d = lent([older, none]);
    t.ok("look, older by a larger number", &mut d, Call::Look(1, 0, 0), &[9, 3, 0, 1, 1]);
}

// A desk of one sheet and two writers: the master's version, one for each shelf, and an open run
// with a job at each office that reads the sheet.
fn one_sheet(master: [u32; 4], shelves: &[[u32; 4]]) -> Desk {
    let offices = shelves.len() as u32;
    let mut d = Desk::fresh([1, 2, offices, 1]);
    let s = d.sizes();
    d.put(s.master_at(0), &master);
    for (office, version) in shelves.iter().enumerate() {
        d.put(s.shelf_at(office, 0), version);
    }
    d.put_marks();
    d.call(&Call::Open(0, (0..offices).flat_map(|office| [office, 1, 0]).collect()));
    d
}

// Leading writers where merges name nobody, and where a side isn't held.
pub fn of_leaders(t: &mut Trials) {
    let version = |mask| [1, mask, 1, 1];
    let mut d = one_sheet(version(1), &[1, 1, 2].map(version));
    t.ok("prepare, nobody named at last", &mut d, Call::Prepare(0), &[1]);
    t.ok("look, offices from the lowest", &mut d, Call::Look(2, 0, 0), &[1, 3, 1, 1, 0]);
    let mut d = one_sheet([1, 1, 1, 0], &[[1, 2, 1, 0]]);
    t.ok("prepare, a side not held", &mut d, Call::Prepare(0), &[1]);
    t.ok("look, the other as it is", &mut d, Call::Look(2, 0, 0), &[1, 2, 1, 0, 0]);
    // Either way round: the lower office's version is the one or the other.
    for (one, other, due) in [
        ([3, 1, 2, 0], [5, 2, 1, 3], [5, 3, 2, 3]),
        ([1, 1, 1, 1], [2, 2, 1, 1], [2, 3, 1, 1]),
        ([1, 1, 3, 0], [2, 1, 2, 0], [2, 1, 3, 0]),
    ] {
        for shelves in [[one, other], [other, one]] {
            let mut d = one_sheet([9, 1, 9, 9], &shelves);
            d.call(&Call::Prepare(0));
            let older = [&due[..], &[1]].concat();
            t.ok("look, merged", &mut d, Call::Look(2, 0, 0), &older);
        }
    }
}

// The leading writers of a held version are some of the desk's; of an unheld one none.
pub fn of_masks(t: &mut Trials) {
    for (writers, mask, taken) in [
        (2, 1, true),
        (2, 2, true),
        (2, 3, true),
        (2, 0, false),
        (2, 4, false),
        (2, 7, false),
        (16, 32_768, true),
        (16, 65_536, false),
    ] {
        let mut d = Desk::fresh([1, writers, 1, 1]);
        d.put(d.sizes().master_at(0), &[1, mask, 1]);
        if taken {
            t.ok("mask taken", &mut d, Call::Fetch(0, 0), &[1]);
        } else {
            t.refused("mask 1", &mut d, Call::Drop(5), 1);
        }
    }
    let mut d = Desk::fresh([1, 2, 1, 1]);
    let mask = d.sizes().master_at(0) + LEADERS;
    t.refused("drop 3, in form", &mut d, Call::Drop(5), 3);
    d.words[mask] = 1;
    t.refused("mask 1, not held", &mut d, Call::Drop(5), 1);
}

// An issue that brings the master up to the shelf, a sheet that only the shelf holds, and versions
// that are equal in their own row alone.
pub fn of_marks(t: &mut Trials) {
    let mut d = one_sheet([1, 1, 1, 0], &[[2, 1, 2, 0]]);
    let (writer, run) = (d.sizes().writer_at(0), d.sizes().run_at(0));
    d.words[LAST_ISSUE] = 5;
    (d.words[writer + COUNT], d.words[writer + WRITER_PAST]) = (1, 1);
    // One job that is done and has read nothing.
    for (word, value) in [(STATE, 1), (JOBS, 1), (DONE, 1), (JOB_LIST + 1, 0)] {
        d.words[run + word] = value;
    }
    t.told("stale, newer than the master", &mut d, Call::Stale(0), &[0, 1]);
    t.ok("issue, up to the shelf", &mut d, Call::Issue(0, 0, 1), &[6]);
    t.told("stale, caught up", &mut d, Call::Stale(0), &[0, 0]);
    let mut d = one_sheet([0; 4], &[[2, 1, 2, 0]]);
    t.told("stale, the master lacks it", &mut d, Call::Stale(0), &[0, 1]);
    let mut d = lent([[7, 1, 1, 1, 4, 5], [0; 6]]);
    t.told("stale, an equal row", &mut d, Call::Stale(0), &[0, 0]);
    let mut d = lent([[3, 2, 2, 0, 0, 0], [1, 1, 0, 0, 1, 0]]);
    t.told("stale, a rival and one that the master lacks", &mut d, Call::Stale(0), &[0, 3]);
    t.ok("fetch, the rival", &mut d, Call::Fetch(0, 0), &[1]);
    t.told("stale, the other one", &mut d, Call::Stale(0), &[0, 2]);
    t.ok("evict, the other one", &mut d, Call::Evict(0, 1), &[2]);
    t.told("stale, none", &mut d, Call::Stale(0), &[0, 0]);
}

// A mark that isn't the mask is refused by every call.
pub fn of_marks_in_form(t: &mut Trials) {
    let mut d = lent([[7, 2, 2, 0, 0, 0], [1, 1, 0, 0, 1, 0]]);
    let at = d.sizes().stale_at(0);
    t.refused("mark, drop 3", &mut d, Call::Drop(5), 3);
    for mark in [0, 1, 2, 4, 7, u32::MAX] {
        d.words[at] = mark;
        for call in calls_but_new() {
            t.refused(&format!("mark 1, {}", call.name()), &mut d, call, 1);
        }
    }
    d.words[at] = 3;
    t.told("mark, stale", &mut d, Call::Stale(0), &[0, 3]);
}

// What a shelf may hold: from what it holds now up to all sheets. The other words stay.
pub fn of_allowances(t: &mut Trials) {
    let mut d = lent([[7, 2, 2, 0, 0, 0], [0; 6]]);
    let at = d.sizes().allowance_at(0);
    t.refused("allow 3, office", &mut d, Call::Allow(1, 2), 3);
    t.refused("allow 3, over all sheets", &mut d, Call::Allow(0, 3), 3);
    t.refused("allow 3, any numbers", &mut d, Call::Allow(u32::MAX, u32::MAX), 3);
    t.refused("allow 12", &mut d, Call::Allow(0, 0), 12);
    let before = d.words.clone();
    t.ok("allow, what it holds", &mut d, Call::Allow(0, 1), &[0]);
    t.check("allow, its word", d.words[at] == 1);
    t.ok("fetch, a held sheet at the full allowance", &mut d, Call::Fetch(0, 0), &[1]);
    t.ok("allow, all sheets", &mut d, Call::Allow(0, 2), &[0]);
    let fetched = d.sizes().shelf_at(0, 0)..d.sizes().allowance_at(0);
    t.check("allow, no other word", d.words[..fetched.start] == before[..fetched.start] && d.words[at..] == before[at..]);
    t.ok("evict, the sheet", &mut d, Call::Evict(0, 0), &[1]);
    t.ok("allow, none", &mut d, Call::Allow(0, 0), &[0]);
    t.refused("fetch 12", &mut d, Call::Fetch(0, 0), 12);
    t.refused("fetch 7 before 12", &mut d, Call::Fetch(0, 1), 7);
}

// An allowance over the number of sheets, or below what the shelf holds, is refused by every call.
pub fn of_allowances_in_form(t: &mut Trials) {
    let mut d = lent([[7, 2, 2, 0, 0, 0], [1, 1, 0, 0, 1, 0]]);
    let at = d.sizes().allowance_at(0);
    t.refused("allowance, drop 3", &mut d, Call::Drop(5), 3);
    for allowance in [0, 1, 3, u32::MAX] {
        d.words[at] = allowance;
        for call in calls_but_new() {
            t.refused(&format!("allowance 1, {}", call.name()), &mut d, call, 1);
        }
    }
    let mut d = lent([[7, 2, 2, 0, 0, 0], [0; 6]]);
    d.words[at] = 1;
    t.refused("allowance, what is held, drop 3", &mut d, Call::Drop(5), 3);
}

// Each run below the number of runs may be the last picked one, and none at it; a pick changes that word alone.
pub fn of_rounds(t: &mut Trials) {
    let mut d = Desk::fresh([1, 1, 1, 3]);
    let at = d.sizes().round_at();
    t.check("round, on a new desk", d.words[at] == 2);
    t.told("round, nothing", &mut d, Call::Pick, &[5]);
    for run in [0, 2] {
        d.call(&Call::Open(run, vec![0, 0, 0]));
    }
    for (last, due) in [(0, 2), (1, 2), (2, 0)] {
        d.words[at] = last;
        let mut after = d.words.clone();
        after[at] = due;
        t.ok("round, pick", &mut d, Call::Pick, &[due, 0]);
        t.check("round, its word alone", d.words == after);
    }
    for last in [3, 4, u32::MAX] {
        d.words[at] = last;
        for call in calls_but_new() {
            t.refused(&format!("round 1, {}", call.name()), &mut d, call, 1);
        }
    }
}
