//! A desk for each call, on which the call does all it can; and one for eight steps, to hold a
//! forecast of them against.

use crate::desk::stale::set_mark;
use crate::desk::Sizes;
use crate::records::record;
use crate::text::{run, Call};

pub struct Case {
    pub words: Vec<u32>,
    /// One call, or several that are made one after the other.
    pub calls: Vec<Call>,
}

impl Case {
    /// The call's word; on line 1 of a run it says so. Several calls are counted.
    pub fn name(&self) -> String {
        match self.calls.as_slice() {
            [call @ (Call::Step(_, _, 1) | Call::Explain(_, _, 1))] => {
                format!("{} on line 1", call.name())
            }
            [call] => call.name().into(),
            calls => format!("{} {}s", calls.len(), calls[0].name()),
        }
    }
}

/// The mask of all sheets.
fn all(k: u32) -> u32 {
    u32::MAX >> (32 - k)
}

/// A full desk: every sheet needs all lower ones; every shelf but that of office 0 holds them
/// all, and every run but run 0 has them on its card.
fn full([k, w, n, p]: [u32; 4]) -> Vec<u32> {
    let total = Sizes::of(k, w, n, p).map_or(0, |s| s.total());
    after(&vec![0; total], &filling([k, w, n, p]))
}

/// The calls that make a full desk.
pub fn filling([k, w, n, p]: [u32; 4]) -> Vec<Call> {
    let mut calls = vec![Call::New([k, w, n, p])];
    for sheet in 0..k {
        // Reads all lower sheets, so that the new version needs them.
        calls.push(Call::Open(0, vec![0, (1 << sheet) - 1, 0]));
        calls.push(Call::Step(0, 0, 0));
        calls.push(Call::Issue(0, sheet % w, 1 << sheet));
    }
    calls.push(Call::Evict(0, 0));
    calls.extend((1..n).map(|office| Call::Fetch(office, k - 1)));
    for other in 1..p {
        calls.push(Call::Open(other, vec![other % n, all(k), 0]));
        calls.push(Call::Step(other, 0, 0));
    }
    // A run at office 0 has fetched there: the shelf is emptied again.
    calls.push(Call::Evict(0, 0));
    calls
}

/// The desk after some calls on another.
fn after(before: &[u32], calls: &[Call]) -> Vec<u32> {
    let mut words = before.to_vec();
    for call in calls {
        run(&mut words, call);
    }
    words
}

/// A full desk on whose master each sheet needs the next one alone. Run 0 has read the last sheet
/// at an older count, and its next job reads the first: T, C and the path have every sheet.
fn chained(full: &[u32], [k, w, n, p]: [u32; 4]) -> Vec<u32> {
    let mut words = full.to_vec();
    // Behind the issue number and the mask of leading writers stand the rows.
    let size = (2 + k * w) as usize;
    let row = |at: usize, sheet: u32| at + 2 + (sheet * w) as usize;
    for sheet in 0..k {
        let at = words[5] as usize + sheet as usize * size;
        words[at + 1] = 1;
        words[at + 2..at + size].fill(0);
        words[row(at, sheet)] = 2;
        if sheet + 1 < k {
            words[row(at, sheet + 1)] = 2;
        }
    }
    if let Some(s) = Sizes::of(k, w, n, p) {
        (0..s.n).for_each(|office| set_mark(&mut words, s, office));
    }
    run(&mut words, &Call::Open(0, vec![0, 1 << (k - 1), 0, 0, 1, 0, 0, all(k), 0]));
    run(&mut words, &Call::Step(0, 0, 0));
    let card = words[8] as usize + 28 + (k - 1) as usize * size;
    words[row(card, k - 1)] = 1;
    run(&mut words, &Call::Evict(0, k - 1));
    words
}

/// Eight jobs over all offices that read all sheets, each after all lower ones.
fn eight_jobs(k: u32, n: u32) -> Vec<u32> {
    (0..8).flat_map(|job| [job % n, all(k), (1 << job) - 1]).collect()
}

pub fn cases(sizes: [u32; 4]) -> Vec<Case> {
    let [k, w, n, _] = sizes;
    let full = full(sizes);
    let open = Call::Open(0, eight_jobs(k, n));
    let reader = [Call::Open(0, vec![0, all(k), 0]), Call::Step(0, 0, 0)];
    let filled = [Call::Fetch(0, k - 1)];
    let fork = Call::Fork(0);
    let case = |words, call| Case { words, calls: vec![call] };
    let opened = after(&full, std::slice::from_ref(&open));
    let eight_steps = (0..8).map(|job| Call::Step(0, job, 0)).collect();
    vec![
        case(full.clone(), Call::New(sizes)),
        case(full.clone(), open.clone()),
        case(full.clone(), Call::Fetch(0, k - 1)),
        case(after(&full, &filled), Call::Evict(0, 0)),
        case(opened.clone(), Call::Prepare(0)),
        case(after(&full, &reader[..1]), Call::Step(0, 0, 0)),
        case(chained(&full, sizes), Call::Explain(0, 1, 0)),
        case(after(&full, &reader), Call::Issue(0, 0, all(k))),
        case(after(&full, &reader), Call::Drop(0)),
        case(full.clone(), Call::Look(0, 0, k - 1)),
        case(full.clone(), Call::Stale(n - 1)),
        case(full.clone(), Call::Admit),
        case(full.clone(), Call::Allow(n - 1, k)),
        // Run 0 alone has a job to step, and was picked last: all runs are asked.
        case(after(&full, &[open, Call::Pick]), Call::Pick),
        // Every other sheet on the shelf needs sheet 0: all leave.
        case(after(&full, &filled), Call::MayHold(0, all(k) & !1)),
        case(full.clone(), Call::MaySave(w - 1, all(k))),
        case(after(&full, &reader), fork.clone()),
        // Both lines have read all sheets, in one version.
        case(after(&full, &[&reader[..], &[fork.clone()]].concat()), Call::Join(0)),
        case(after(&full, &[reader[0].clone(), fork.clone()]), Call::Step(0, 0, 1)),
        case(after(&chained(&full, sizes), &[fork]), Call::Explain(0, 1, 1)),
        // All eight jobs are gone through: the copy of the desk, and the steps.
        case(opened.clone(), Call::Forecast(0)),
        Case { words: opened, calls: eight_steps },
        // Every issue is read or stands behind what is read.
        case(full, Call::Audit(record(k as usize, w as usize, 40, 2))),
    ]
}
