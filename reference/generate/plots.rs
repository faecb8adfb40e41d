//! Plots that steer: each is a short list of calls with a likely end.

use crate::booked;
use crate::branches;
use crate::chains;
use crate::desk::layout::has;
use crate::desk::version::needs;
use crate::desk::{Answer, FREE};
use crate::everyday;
use crate::foreseen;
use crate::odd;
use crate::rights;
use crate::rivals;
use crate::rounds;
use crate::small;
use crate::teller::Teller;

/// A plot of runs, by a number below 58.
pub fn of_runs(t: &mut Teller, number: usize) {
    match number {
        0..=16 => break_a_run(t),
        17 | 57 => foreseen::forecast_a_run(t),
        18..=20 | 49..=52 => branches::side_by_side(t),
        22..=24 => chains::explain_a_break(t),
        25..=36 => rivals::issue_rivals(t),
        37..=41 => rivals::rounds_of_rivals(t),
        21 | 42..=45 => everyday::prepared_run(t),
        46..=48 => booked::book_the_plotter(t),
        53..=55 => everyday::prepare_again(t),
        _ => everyday::plain_run(t),
    }
}

/// A plot on a desk that goes on: no new in it is accepted, if the desk has just its words.
pub fn without_new(t: &mut Teller) {
    match t.below(100) {
        22..=24 => break_a_run(t),
        number @ 0..=57 => of_runs(t, number),
        58..=62 => everyday::fetch_and_evict(t),
        63..=66 => small::small_shelf(t),
        67..=70 => rounds::dispatch(t),
        71..=75 => rights::joint_project(t),
        76..=89 => everyday::any_call(t),
        _ => odd::refused(t),
    }
}

/// A new desk, mostly small, so that sheets and writers meet often.
pub fn fresh_desk(t: &mut Teller) {
    let sizes = if t.chance(8) {
        const WIDE: [[u32; 4]; 4] = [[16, 6, 3, 3], [22, 4, 1, 3], [32, 1, 8, 2], [32, 2, 2, 2]];
        WIDE[t.below(4)]
    } else {
        [2 + t.below(6), 1 + t.below(6), 1 + t.below(4), 2 + t.below(3)].map(|n| n as u32)
    };
    t.tell("new", &sizes);
    // Most sheets get a first version, each from a writer of its own choice.
    for k in 0..t.sizes().k {
        if t.chance(60) {
            publish(t, k, 0);
        }
    }
}

/// Mostly a sheet has one writer: a writer's past ties all its sheets together, and runs
/// over tied sheets never break.
pub fn writer_of(t: &mut Teller, sheet: usize) -> usize {
    let w = t.sizes().w;
    if t.chance(85) {
        sheet % w
    } else {
        t.below(w)
    }
}

/// A free run; one in use is dropped if there is none.
pub fn free_run(t: &mut Teller) -> usize {
    let runs = t.sizes().p;
    let first = t.below(runs);
    for step in 0..runs {
        let run = (first + step) % runs;
        if t.run_head(run)[0] == FREE {
            return run;
        }
    }
    t.tell("drop", &[first as u32]);
    first
}

/// A run of one job that reads what it can of `reads`, then an issue of the sheet.
pub fn publish(t: &mut Teller, sheet: usize, reads: u32) {
    let (run, writer) = (free_run(t), writer_of(t, sheet));
    publish_by(t, run, writer, 1 << sheet, reads);
}

pub fn publish_by(t: &mut Teller, run: usize, writer: usize, sheets: u32, reads: u32) {
    let office = t.below(t.sizes().n);
    let can = (0..t.sizes().k).filter(|k| has(reads, *k) && t.on_master(*k));
    let reads = can.fold(0, |mask, k| mask | 1 << k);
    t.tell("open", &[run as u32, office as u32, reads, 0]);
    t.tell("step", &[run as u32, 0]);
    t.tell("issue", &[run as u32, writer as u32, sheets]);
}

pub fn some_sheets(t: &mut Teller, percent: usize) -> u32 {
    (0..t.sizes().k).fold(0, |mask, k| mask | (u32::from(t.chance(percent)) << k))
}

/// Two sheets of which the first doesn't need the second on the master, if some draws find
/// such a pair.
pub fn untied_pair(t: &mut Teller) -> (usize, usize) {
    let s = t.sizes();
    let mut pair = (0, s.k - 1);
    for _ in 0..20 {
        let (a, b) = (t.below(s.k), t.below(s.k));
        if a != b && !needs(s.words(&t.words, s.master_at(a)), s.w, a, b) {
            return (a, b);
        }
        pair = (a, b);
    }
    pair
}

/// "Read a sheet at one office, issue a pair, fetch the newer one at another office, read it
/// there."
pub fn break_a_run(t: &mut Teller) {
    let s = t.sizes();
    rights::give_back_all(t, 80);
    let (a, b) = untied_pair(t);
    let (here, there) = (t.below(s.n) as u32, t.below(s.n) as u32);
    if !t.on_master(a) {
        publish(t, a, 0);
    }
    let run = free_run(t) as u32;
    let upstream = u32::from(t.chance(50));
    let more = if t.chance(25) { some_sheets(t, 30) } else { 0 };
    let list = [run, here, 1 << a, 0, there, 1 << b | more, upstream, here, 1 << a | 1 << b, 0];
    let jobs = if t.chance(30) { 3 } else { 2 };
    t.tell("open", &list[..1 + 3 * jobs]);
    if t.chance(7) {
        t.tell("prepare", &[run]);
    }
    if t.chance(90) {
        t.tell("step", &[run, 0]);
    }
    let line = u32::from(t.chance(12) && t.tell("fork", &[run]) == Some(Answer::Ok(vec![0])));
    if t.chance(40) {
        // The step's fetch would take it again: a break leaves it, and its mark.
        t.tell("fetch", &[there, a as u32]);
    }
    pair_elsewhere(t, run as usize, a, b);
    if t.chance(60) {
        t.tell("fetch", &[there, b as u32]);
    } else {
        hide_a_break(t, run, there as usize, b);
    }
    if t.chance(30) {
        t.tell("forecast", &[run]);
    }
    for job in 1..jobs as u32 {
        if t.chance(40) {
            t.tell("explain", &[run, job, line]);
        }
        t.tell("step", &[run, job, line]);
    }
    if line == 1 {
        t.tell("join", &[run]);
    }
    end_run(t, run as usize);
}

/// A step whose fetch doesn't fit, or may not be, is refused before it breaks.
fn hide_a_break(t: &mut Teller, run: u32, office: usize, sheet: usize) {
    if t.chance(40) {
        small::tighten(t, office);
        t.tell("step", &[run, 1]);
        small::loosen(t, office);
    } else if t.chance(40) {
        rights::step_without(t, run, office, sheet);
    }
}

/// Through another run than this one: a new version of one sheet, and the other drawn
/// against it, or both in one issue.
pub fn pair_elsewhere(t: &mut Teller, run: usize, a: usize, b: usize) {
    let other = (run + 1) % t.sizes().p;
    if t.run_head(other)[0] != FREE {
        t.tell("drop", &[other as u32]);
    }
    if t.chance(70) {
        let writer = writer_of(t, a);
        publish_by(t, other, writer, 1 << a, 0);
        let office = t.below(t.sizes().n) as u32;
        let writer = writer_of(t, b) as u32;
        t.tell("fetch", &[office, a as u32]);
        t.tell("open", &[other as u32, office, 1 << a, 0]);
        t.tell("step", &[other as u32, 0]);
        t.tell("issue", &[other as u32, writer, 1 << b]);
    } else {
        let writer = writer_of(t, b);
        publish_by(t, other, writer, 1 << a | 1 << b, 0);
    }
}

/// Issues, drops or leaves a run.
pub fn end_run(t: &mut Teller, run: usize) {
    let sheet = t.below(t.sizes().k);
    let writer = writer_of(t, sheet) as u32;
    let sheets = if t.chance(25) { 0 } else { 1 << sheet };
    match t.below(10) {
        0..=5 => {
            let answer = t.tell("issue", &[run as u32, writer, sheets]);
            if matches!(answer, Some(Answer::Refused(_))) && t.chance(60) {
                t.tell("drop", &[run as u32]);
            }
        }
        6..=8 => {
            t.tell("drop", &[run as u32]);
        }
        _ => {}
    }
}
