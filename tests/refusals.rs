// Every refusal that new, open, drop, look, explain, stale, admit, allow, pick, mayhold, maysave, fork, join, forecast, audit, fetch and evict can give,
// tried on lent buffers through the exported library: answer as expected, every word as it was, guard words untouched. Besides them: the largest store;
// looks, leading writers and stale marks on desks that no list of calls from new leaves; the longest path; clocks compared; texts of calls.
// Usage: refusals. Prints what went wrong and exits 1, or how many trials there were.

#![allow(dead_code)]
#[path = "refusals/admitted.rs"]
mod admitted;
#[path = "refusals/audited.rs"]
mod audited;
#[path = "../embed/sheetdesk.rs"]
mod embed;
#[path = "refusals/explained.rs"]
mod explained;
mod exported;
#[path = "refusals/foreseen.rs"]
mod foreseen;
#[path = "refusals/lent.rs"]
mod lent;
#[path = "../embed/library.rs"]
mod library;
#[path = "refusals/lines.rs"]
mod lines;
#[path = "../reference"]
mod reference {
    pub mod desk;
    pub mod text;
}
#[path = "refusals/rights.rs"]
mod rights;
#[path = "refusals/texts.rs"]
mod texts;
#[path = "refusals/trials.rs"]
mod trials;

use desk::layout::{COUNT, DONE, HEADER, JOBS, JOB_LIST, LAST_ISSUE, LEADERS, NUMBER, OFFSETS, PAST, READ, STATE};
use library::{compare, covers};
use reference::{desk, text};
use text::Call;
use trials::{total, Desk, Trials};

// The master's version of each sheet: issue 1, led by writer 0, own row present, and a need of the sheet before it.
fn chain(desk: &mut Desk) {
    let s = desk.sizes();
    for k in 0..s.k {
        let at = s.master_at(k);
        (desk.words[at + NUMBER], desk.words[at + LEADERS]) = (1, 1);
        for row in k.saturating_sub(1)..=k {
            desk.words[at + PAST + row * s.w] = 1;
        }
    }
}

fn of_new(t: &mut Trials) {
    for counts in [[0, 1, 1, 1], [33, 1, 1, 1], [1, 0, 1, 1], [1, 17, 1, 1], [1, 1, 0, 1], [1, 1, 9, 1], [1, 1, 1, 0],
        [1, 1, 1, 9], [u32::MAX, 1, 1, 1], [1, u32::MAX, u32::MAX, 1]] {
        t.refused("new 2", &mut Desk::of(300, 7), Call::New(counts), 2);
        t.refused("new 2 before 1", &mut Desk::of(0, 7), Call::New(counts), 2);
    }
    let counts = [2, 2, 1, 1];
    t.refused("new 1, a word short", &mut Desk::of(total(counts) - 1, 7), Call::New(counts), 1);
    t.refused("new 1, empty", &mut Desk::of(0, 7), Call::New([1, 1, 1, 1]), 1);
    let mut desk = Desk::of(106, 7);
    t.ok("new", &mut desk, Call::New(counts), &[104]);
    t.check("offsets", desk.words[..HEADER] == [2, 2, 1, 1, 0, 10, 22, 36, 46, 104]);
    t.check("the allowance is all sheets", std::mem::take(&mut desk.words[35]) == 2);
    t.check("the rights are all sheets", desk.words[101..104] == [3; 3]);
    t.check("fresh, and past the total as it was", desk.words[HEADER..101].iter().all(|&w| w == 0) && desk.words[104..106] == [7, 7]);
}

// One word of a new desk 2 2 2 1 changed, such that it isn't in form any more.
fn spoiled(fresh: &Desk) -> Vec<(usize, u32)> {
    let s = fresh.sizes();
    let [master, shelves, writers, runs, total] = [0, 1, 2, 3, 4].map(|at| OFFSETS + at);
    let run = s.run_at(0);
    vec![
        // The counts, the offsets and the total.
        (0, 0), (0, 33), (1, 17), (2, 9), (3, 9), (master, 11), (shelves, s.shelves() as u32 + 1), (writers, 0), (runs, u32::MAX),
        (total, s.total() as u32 - 1), (total, s.total() as u32 + 1),
        // Versions: a number alone; leading writers or a count of one that isn't held.
        (s.master_at(0) + NUMBER, 1), (s.master_at(0) + LEADERS, 1), (s.master_at(0) + PAST, 1),
        (s.shelf_at(0, 0) + NUMBER, 5), (s.shelf_at(0, 1) + LEADERS, 1), (s.card_at(0, 0) + LEADERS, 1), (s.round_at() - 1, 1),
        // Stale marks of what isn't held, and an allowance over the number of sheets.
        (s.stale_at(0), 1), (s.stale_at(1), 2), (s.allowance_at(0), 3), (s.allowance_at(1), u32::MAX),
        // The last picked run: none that there is. Rights to a sheet that there isn't.
        (s.round_at(), 1), (s.round_at(), u32::MAX),
        (s.mayhold_at(0), 4), (s.mayhold_at(1), u32::MAX), (s.maysave_at(0), 7), (s.maysave_at(1), 1 << 31),
        // A run: a state that there isn't, an open one without jobs, a free one with words.
        (run + STATE, 3), (run + STATE, 1), (run + JOBS, 9), (run + DONE, 1), (run + READ, 1), (run + JOB_LIST + 6, 1),
        (s.mark_at(0), 1), (s.mark_at(0), 2), (s.read_at(0, 1), 1), (s.line_card_at(0, 1, 0), 1), (s.line_card_at(0, 1, 1) + LEADERS, 1),
    ]
}

// A desk that is not in form is refused by 1, whatever else is wrong.
fn of_form(t: &mut Trials) {
    let fresh = Desk::fresh([2, 2, 2, 1]);
    let mut broken: Vec<Desk> = vec![Desk::of(0, 0), Desk::of(9, 1), Desk::of(300, 0), Desk::of(300, u32::MAX)];
    for (at, word) in spoiled(&fresh) {
        let mut d = fresh.clone();
        d.words[at] = word;
        broken.push(d);
    }
    broken.push(Desk { len: fresh.sizes().total() - 1, ..fresh });
    for d in &mut broken {
        for call in calls_but_new() {
            t.refused(&format!("{} 1", call.name()), d, call, 1);
        }
    }
}

// Each call on a desk but new, with numbers that are out of range on any desk but a large one.
pub fn calls_but_new() -> Vec<Call> {
    vec![
        Call::Open(9, vec![]), Call::Fetch(9, 9), Call::Evict(9, 9), Call::Prepare(9), Call::Step(9, 9, 9), Call::Issue(9, 9, 9),
        Call::Drop(9), Call::Look(9, 9, 9), Call::Explain(9, 9, 9), Call::Stale(9), Call::Admit, Call::Allow(9, 99), Call::Pick,
        Call::MayHold(9, 9), Call::MaySave(99, 9), Call::Fork(9), Call::Join(9), Call::Forecast(9),
    ]
}

fn of_runs(t: &mut Trials) {
    let mut d = Desk::fresh([2, 2, 2, 2]);
    let nine = [0u32; 27];
    t.refused("open 3", &mut d, Call::Open(2, vec![0, 0, 0]), 3);
    t.refused("open 3 before 5", &mut d, Call::Open(u32::MAX, vec![]), 3);
    for bad in [&[][..], &[0], &[0, 0, 0, 0], &nine, &[2, 0, 0], &[0, 4, 0], &[0, 0, 1], &[0, 1, 0, 0, 1, 2], &[u32::MAX; 3]] {
        t.refused("open 5", &mut d, Call::Open(0, bad.to_vec()), 5);
    }
    t.refused("open 5, a long list", &mut d, Call::Open(0, vec![0; 100_001]), 5);
    t.refused("drop 4, free", &mut d, Call::Drop(0), 4);
    t.refused("drop 3", &mut d, Call::Drop(2), 3);
    t.ok("open", &mut d, Call::Open(0, vec![1, 3, 0, 0, 0, 1]), &[2]);
    t.refused("open 4 before 5", &mut d, Call::Open(0, vec![]), 4);
    t.ok("open 8 jobs", &mut d, Call::Open(1, nine[..24].to_vec()), &[8]);
    t.ok("drop", &mut d, Call::Drop(0), &[0]);
    t.ok("open again", &mut d, Call::Open(0, vec![0, 0, 0]), &[1]);
}

fn of_caches(t: &mut Trials) {
    let mut d = Desk::fresh([2, 2, 2, 2]);
    t.refused("fetch 3, office", &mut d, Call::Fetch(2, 0), 3);
    t.refused("fetch 3, sheet", &mut d, Call::Fetch(0, 2), 3);
    t.refused("fetch 7", &mut d, Call::Fetch(0, 0), 7);
    t.refused("evict 3, office", &mut d, Call::Evict(u32::MAX, 0), 3);
    t.refused("evict 3, sheet", &mut d, Call::Evict(0, 2), 3);
    t.refused("evict 8", &mut d, Call::Evict(1, 1), 8);
    t.refused("stale 3", &mut d, Call::Stale(2), 3);
    t.refused("stale 3, any office", &mut d, Call::Stale(u32::MAX), 3);
    t.told("stale, nothing held", &mut d, Call::Stale(1), &[0, 0]);
    for (p, i, k) in [(3, 0, 0), (0, 1, 0), (1, 2, 0), (2, 2, 0), (0, 0, 2), (u32::MAX, u32::MAX, u32::MAX)] {
        t.refused("look 3", &mut d, Call::Look(p, i, k), 3);
    }
    for (p, i) in [(0, 0), (1, 1), (2, 0)] {
        t.refused("look 8", &mut d, Call::Look(p, i, 1), 8);
    }
    chain(&mut d);
    t.ok("fetch 1 takes 0", &mut d, Call::Fetch(1, 1), &[3]);
    t.ok("fetch 0 again", &mut d, Call::Fetch(1, 0), &[1]);
    t.ok("look", &mut d, Call::Look(1, 1, 1), &[1, 1, 1, 0, 0]);
    t.ok("evict 0 takes 1", &mut d, Call::Evict(1, 0), &[3]);
    t.refused("evict 8 again", &mut d, Call::Evict(1, 0), 8);
}

fn of_the_largest(t: &mut Trials) {
    t.refused("largest, a word short", &mut Desk::of(419_698, 7), Call::New([32, 16, 8, 8]), 1);
    let mut d = Desk::of(419_699, 7);
    t.ok("largest", &mut d, Call::New([32, 16, 8, 8]), &[419_699]);
    t.refused("largest, fetch 7", &mut d, Call::Fetch(7, 31), 7);
    t.ok("largest, open", &mut d, Call::Open(7, [7, u32::MAX, 0].repeat(8)), &[8]);
    chain(&mut d);
    t.ok("largest, fetch", &mut d, Call::Fetch(7, 31), &[u32::MAX]);
    t.ok("largest, fetch 15", &mut d, Call::Fetch(0, 15), &[0xFFFF]);
    // The issue number, the leading writers, 16 counts and the standing.
    let row: Vec<u32> = [1, 1, 1].into_iter().chain([0; 16]).collect();
    t.ok("largest, look", &mut d, Call::Look(1, 7, 31), &row);
    t.told("largest, stale", &mut d, Call::Stale(7), &[0, 0]);
    t.refused("largest, admit 11", &mut d, Call::Admit, 11);
    let s = d.sizes();
    (d.words[LAST_ISSUE], d.words[s.writer_at(0) + COUNT]) = (1, 1);
    t.told("largest, admit", &mut d, Call::Admit, &[0, 0]);
    t.refused("largest, allow 12", &mut d, Call::Allow(7, 31), 12);
    t.ok("largest, allow", &mut d, Call::Allow(7, 32), &[0]);
    t.ok("largest, evict", &mut d, Call::Evict(7, 16), &[0xFFFF_0000]);
    t.ok("largest, pick", &mut d, Call::Pick, &[7, 0]);
    t.ok("largest, drop", &mut d, Call::Drop(7), &[0]);
    t.told("largest, nothing to pick", &mut d, Call::Pick, &[5]);
}

// Compare and covers on clocks of these lengths: equal ones, and with one count larger or smaller, first and last.
fn of_clocks(t: &mut Trials) {
    for len in [0, 1, 2, 15, 16] {
        let p = vec![5; len];
        t.check("compare 0", compare(&p, &p) == 0 && covers(&p, &p) == 1);
        for at in [0, len.wrapping_sub(1)].into_iter().filter(|at| *at < len) {
            let mut q = p.clone();
            q[at] = u32::MAX;
            t.check("compare 1", compare(&p, &q) == 1 && covers(&p, &q) == 0);
            t.check("compare 2", compare(&q, &p) == 2 && covers(&q, &p) == 1);
            q[len - 1 - at] = 4;
            let rival = if len == 1 { (2, 1) } else { (3, 0) };
            t.check("compare 3", (compare(&p, &q), covers(&p, &q)) == rival);
        }
    }
    for (m, n) in [(17, 17), (16, 17), (17, 16), (2, 1), (0, 1), (40, 40)] {
        let (p, q) = (vec![5; m], vec![5; n]);
        t.check("compare 4", compare(&p, &q) == 4 && covers(&p, &q) == 2);
    }
}

fn main() {
    let mut t = Trials { tried: 0, wrong: 0 };
    of_new(&mut t);
    of_form(&mut t);
    of_runs(&mut t);
    of_caches(&mut t);
    of_the_largest(&mut t);
    lent::of_looks(&mut t);
    lent::of_leaders(&mut t);
    lent::of_masks(&mut t);
    lent::of_marks(&mut t);
    lent::of_marks_in_form(&mut t);
    lent::of_allowances(&mut t);
    lent::of_allowances_in_form(&mut t);
    lent::of_rounds(&mut t);
    rights::of_all(&mut t);
    lines::of_all(&mut t);
    admitted::of_all(&mut t);
    explained::of_explain(&mut t);
    foreseen::of_all(&mut t);
    audited::of_all(&mut t);
    texts::of_all(&mut t);
    lent::of_the_longest_path(&mut t);
    of_clocks(&mut t);
    println!("refusals: {} trials, {} wrong", t.tried, t.wrong);
    std::process::exit(if t.wrong == 0 { 0 } else { 1 });
}
