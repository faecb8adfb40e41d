//! Forecast: what it turns down, what it answers, and what its scratch holds.

use crate::desk::layout::STATE;
use crate::library;
use crate::lines::save;
use crate::text::Call;
use crate::trials::{forecast, Desk, Trials};

pub fn of_all(t: &mut Trials) {
    of_refusals(t);
    of_words(t);
    of_stops(t);
    of_the_answer(t);
    of_the_largest(t);
}

// Refused with this number, with a scratch of so many words, and every word of that stays.
fn refused(t: &mut Trials, what: &str, d: &mut Desk, (len, run): (usize, u32), number: u32) {
    let (answer, scratch) = forecast(t, d, len, run);
    t.check(&format!("forecast {number}, {what}"), answer == [2, number] && scratch == vec![7; len]);
}

// 1 before 3 before 4 before 14, and none of what the steps would be refused.
fn of_refusals(t: &mut Trials) {
    let mut d = Desk::fresh([2, 1, 2, 2]);
    let total = d.sizes().total();
    for len in [0, 1, 10, total - 1] {
        refused(t, "a scratch too short", &mut d, (len, 0), 1);
        refused(t, "a scratch too short, before 3", &mut d, (len, 2), 1);
    }
    refused(t, "no such run", &mut d, (total, 2), 3);
    refused(t, "any run", &mut d, (total + 9, u32::MAX), 3);
    refused(t, "a free run", &mut d, (total, 1), 4);
    d.call(&Call::Open(0, vec![0, 1, 0, 1, 2, 1]));
    t.told("forecast, turned down", &mut d, Call::Forecast(0), &[8, 0, 7]);
    d.call(&Call::Fork(0));
    refused(t, "a forked run", &mut d, (total, 0), 14);
    refused(t, "a forked run, a scratch too short", &mut d, (total - 1, 0), 1);
    d.call(&Call::Join(0));
    t.told("forecast, joined", &mut d, Call::Forecast(0), &[8, 0, 7]);
    let run = d.sizes().run_at(0);
    d.words[run + STATE] = 2;
    refused(t, "a broken run", &mut d, (total, 0), 4);
    d.words[run + STATE] = 3;
    for len in [0, total, total + 2] {
        refused(t, "not in form", &mut d, (len, 9), 1);
    }
}

// The desk with these words put at these places, up to its total.
fn with(d: &Desk, changes: &[(usize, &[u32])]) -> Vec<u32> {
    let mut words = d.words[..d.sizes().total()].to_vec();
    for (at, put) in changes {
        words[*at..at + put.len()].copy_from_slice(put);
    }
    words
}

// Both jobs are done in the scratch: shelf, done and read masks and card; words past the total stay.
fn of_words(t: &mut Trials) {
    let mut d = Desk::fresh([1, 1, 1, 1]);
    save(&mut d, 1);
    d.call(&Call::Open(0, vec![0, 1, 0, 0, 1, 0]));
    let due = with(&d, &[(13, &[1, 1, 1]), (22, &[3, 1]), (48, &[1, 1, 1])]);
    for len in [59, 61, 200] {
        let (answer, scratch) = forecast(t, &mut d, len, 0);
        let past = scratch[59..].iter().all(|word| *word == 7);
        t.check("forecast, through", answer == [6] && scratch[..59] == due && past);
    }
    refused(t, "a word short", &mut d, (58, 0), 1);
    t.ok("forecast, step 0", &mut d, Call::Step(0, 0, 0), &[0, 0, 1]);
    t.ok("forecast, step 1", &mut d, Call::Step(0, 1, 0), &[1, 0, 0]);
    t.check("forecast, as the steps leave it", d.words[..59] == due);
    let (answer, scratch) = forecast(t, &mut d, 60, 0);
    t.check("forecast, no job left", answer == [6] && scratch[..59] == due && scratch[59] == 7);
}

// A break leaves the state in the scratch, a job turned down what the jobs before it left.
fn of_stops(t: &mut Trials) {
    let mut d = Desk::fresh([2, 1, 2, 1]);
    save(&mut d, 1);
    d.call(&Call::Fetch(0, 0));
    save(&mut d, 3);
    d.call(&Call::Open(0, vec![0, 1, 0, 1, 2, 0]));
    let read: [(usize, &[u32]); 3] = [(43, &[1]), (44, &[1]), (69, &[1, 1, 1])];
    let (answer, scratch) = forecast(t, &mut d, 91, 0);
    t.check("forecast, breaks", answer == [7, 1, 1]);
    t.check("forecast, a break's scratch", scratch == with(&d, &[&read[..], &[(41, &[2])]].concat()));
    d.call(&Call::Allow(1, 1));
    let (answer, scratch) = forecast(t, &mut d, 91, 0);
    t.check("forecast, 12", answer == [8, 1, 12] && scratch == with(&d, &read));
    d.call(&Call::MayHold(1, 1));
    let (answer, scratch) = forecast(t, &mut d, 91, 0);
    t.check("forecast, 13 before 12", answer == [8, 1, 13] && scratch == with(&d, &read));
    d.call(&Call::MayHold(0, 2));
    let (answer, scratch) = forecast(t, &mut d, 91, 0);
    t.check("forecast, the first job", answer == [8, 0, 13] && scratch == with(&d, &[]));
}

// With too short an answer slice nothing is done, to the scratch neither.
fn of_the_answer(t: &mut Trials) {
    let mut d = Desk::fresh([1, 1, 1, 1]);
    d.call(&Call::Open(0, vec![0, 0, 0]));
    let (before, mut scratch) = (d.words.clone(), vec![7; 59]);
    for room in [0, 1, 39] {
        let mut answer = vec![5; room];
        let count = library::forecast(&d.words[..d.len], &mut scratch, 0, &mut answer);
        let kept = scratch == [7; 59] && answer.iter().all(|word| *word == 5);
        t.check("forecast, a short answer slice", count == 0 && kept && d.words == before);
    }
}

// Eight jobs on the largest desk, each of all sheets: the scratch is what the steps leave.
fn of_the_largest(t: &mut Trials) {
    let mut d = Desk::fresh([32, 16, 8, 8]);
    let total = d.sizes().total();
    save(&mut d, u32::MAX);
    let jobs = (0..8).flat_map(|job| [job, u32::MAX, (1 << job) - 1]).collect();
    t.ok("largest, eight jobs", &mut d, Call::Open(7, jobs), &[8]);
    refused(t, "largest, a word short", &mut d, (total - 1, 7), 1);
    let (answer, scratch) = forecast(t, &mut d, total + 3, 7);
    t.check("largest, forecast", answer == [6] && scratch[total..] == [7; 3]);
    for job in 0..8 {
        let due = if job == 0 { [0, 0, u32::MAX] } else { [u32::MAX, 0, 0] };
        t.ok("largest, step", &mut d, Call::Step(7, job, 0), &due);
    }
    t.check("largest, its scratch", scratch[..total] == d.words[..total]);
}
