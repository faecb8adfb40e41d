//! Forecasts: of runs whose steps would go through, break or be turned down at a later job, which
//! are then stepped; and what a script has met of them.

use crate::desk::layout::{has, DONE};
use crate::desk::{forecast, in_form, Answer, Sizes, OPEN};
use crate::plots::{end_run, free_run, pair_elsewhere, publish, some_sheets, untied_pair};
use crate::rights;
use crate::small;
use crate::teller::Teller;
use crate::text::Call;

/// A run that is forecast before it starts, and stepped then.
pub fn forecast_a_run(t: &mut Teller) {
    rights::give_back_all(t, 70);
    match t.below(6) {
        0..=2 => breaks_later(t),
        3 | 4 => turned_later(t),
        _ => any_jobs(t),
    }
}

/// One office has an older version of a sheet than another sheet needs that a later job reads
/// elsewhere. Jobs that read nothing, or anything, may come before and between.
fn breaks_later(t: &mut Teller) {
    let s = t.sizes();
    let (a, b) = untied_pair(t);
    let here = t.below(s.n);
    let there = (here + t.below(s.n.max(2))) % s.n;
    publish(t, a, 0);
    t.tell("fetch", &[here as u32, a as u32]);
    let run = free_run(t);
    pair_elsewhere(t, run, a, b);
    let mut list = vec![run as u32];
    for (office, reads) in [(here, 1 << a), (there, 1 << b)] {
        if t.chance(30) {
            list.extend([there as u32, some_held(t, 15), 0]);
        }
        let waits = if list.len() > 1 && t.chance(50) { 1 } else { 0 };
        list.extend([office as u32, reads, waits]);
    }
    t.tell("open", &list);
    if t.chance(15) {
        t.tell("prepare", &[run as u32]);
    }
    t.tell("forecast", &[run as u32]);
    if t.chance(25) {
        // Another order may go through.
        let job = 1 + t.below((list.len() - 1) / 3 - 1) as u32;
        t.tell("step", &[run as u32, job]);
        t.tell("forecast", &[run as u32]);
    }
    step_in_order(t, run);
}

/// A later job reads what the master lacks, at an office without room or without a right.
fn turned_later(t: &mut Teller) {
    let (s, run) = (t.sizes(), free_run(t));
    let offices = [t.below(s.n), t.below(s.n)];
    let (first, wanted) = (some_held(t, 25), some_held(t, 35) | 1 << t.below(s.k));
    let any = some_sheets(t, 30);
    let second = if t.chance(40) { any } else { wanted };
    let (here, there) = (offices[0] as u32, offices[1] as u32);
    t.tell("open", &[run as u32, here, first, 0, there, second, 1]);
    match t.below(3) {
        0 => small::tighten(t, offices[1]),
        1 => {
            let mask = s.all_sheets() & !(second & second.wrapping_neg());
            t.tell("mayhold", &[there, mask]);
        }
        _ => {}
    }
    t.tell("forecast", &[run as u32]);
    if t.chance(40) {
        small::loosen(t, offices[1]);
        rights::give_back_all(t, 100);
        t.tell("forecast", &[run as u32]);
    }
    step_in_order(t, run);
    small::loosen(t, offices[1]);
    rights::give_back_all(t, 80);
}

/// Up to eight jobs; some runs are prepared, forked or joined, some rights changed.
fn any_jobs(t: &mut Teller) {
    let (s, run) = (t.sizes(), free_run(t));
    let mut list = vec![run as u32];
    for job in 0..1 + t.below(8) {
        let upstream = t.next() as u32 & ((1 << job) - 1) & t.next() as u32;
        list.extend([t.below(s.n) as u32, some_held(t, 25), upstream]);
    }
    t.tell("open", &list);
    if t.chance(20) {
        t.tell("prepare", &[run as u32]);
    }
    if t.chance(25) {
        t.tell("fork", &[run as u32]);
        t.tell("forecast", &[run as u32]);
        t.tell("step", &[run as u32, 0, 1]);
        t.tell("join", &[run as u32]);
    }
    if t.chance(40) {
        rights::change(t);
    }
    t.tell("forecast", &[run as u32]);
    step_in_order(t, run);
    rights::give_back_all(t, 70);
}

/// Some sheets that the master holds.
fn some_held(t: &mut Teller, percent: usize) -> u32 {
    let wanted = some_sheets(t, percent);
    (0..t.sizes().k).filter(|k| t.on_master(*k)).fold(0, |mask, k| mask | wanted & 1 << k)
}

/// What the forecast has told: the jobs not done, lowest first, up to one that isn't ok.
fn step_in_order(t: &mut Teller, run: usize) {
    let [state, jobs, done, _] = t.run_head(run);
    for job in (0..jobs).filter(|job| state == OPEN && !has(done, *job as usize)) {
        let answer = t.tell("step", &[run as u32, job]);
        if !matches!(answer, Some(Answer::Ok(_))) {
            break;
        }
        if t.chance(15) {
            t.tell("forecast", &[run as u32]);
        }
    }
    t.tell("forecast", &[run as u32]);
    end_run(t, run);
}

/// Forecasts by their answers; those that stop behind the first job, and those that go through
/// with fetches.
#[derive(Default)]
pub struct Met {
    through: u64,
    fetching: u64,
    breaks: u64,
    turned: [u64; 3],
    later: u64,
}

impl Met {
    pub fn names(&self) -> [(String, u64); 7] {
        [
            ("forecasts-through".into(), self.through),
            ("forecasts-fetching".into(), self.fetching),
            ("forecasts-break".into(), self.breaks),
            ("forecasts-turned-7".into(), self.turned[0]),
            ("forecasts-turned-12".into(), self.turned[1]),
            ("forecasts-turned-13".into(), self.turned[2]),
            ("forecasts-later".into(), self.later),
        ]
    }

    /// Takes in a call on a desk, and its answer.
    pub fn enter(&mut self, before: &[u32], call: &Call, answer: &Answer) {
        let (Call::Forecast(run), Some(s)) = (call, in_form(before)) else {
            return;
        };
        match answer {
            Answer::Through => {
                self.through += 1;
                self.fetching += u64::from(fetches(before, s, *run));
            }
            Answer::Breaks(job, _) => {
                self.breaks += 1;
                self.later += u64::from(is_later(before, s, *run, *job));
            }
            Answer::Turned(job, number) => {
                let place = [7, 12, 13].iter().position(|due| due == number);
                place.into_iter().for_each(|place| self.turned[place] += 1);
                self.later += u64::from(is_later(before, s, *run, *job));
            }
            _ => {}
        }
    }
}

/// Is a lower job to be stepped before this one?
fn is_later(words: &[u32], s: Sizes, run: u32, job: u32) -> bool {
    let done = words[s.run_at(run as usize) + DONE];
    (0..job).any(|lower| !has(done, lower as usize))
}

/// Would the steps change a shelf?
fn fetches(words: &[u32], s: Sizes, run: u32) -> bool {
    let mut scratch = words.to_vec();
    forecast(words, &mut scratch, run);
    scratch[s.shelves()..s.writers()] != words[s.shelves()..s.writers()]
}
