//! Leaves calls out of a list, as many as it can, such that the answer of its last call stays.
//!
//! A pass goes from the last call to the first. Before the call that it has come to the list is
//! as it was, and behind it nothing changes any more (trial.rs). Passes follow until each
//! call that is left has been tried on the list as it is.

use super::log::Entry;
use super::number::{issued, Goal};
use super::replay::{changed, Replay};
use super::trial::Trial;
use crate::desk::Answer;
use crate::text::Call;

/// Behind so many calls it is guessed that the answer stays.
const AHEAD: usize = 1 << 10;

/// The calls that are left, by their places; the last one is always among them.
pub fn shrink(entries: &[Entry]) -> Vec<usize> {
    let last = entries.len() - 1;
    let (list, answer) = changing(entries);
    let goal = Goal::of(entries, answer);
    // The last call's own run comes last, so that the list is more likely the one that was meant.
    let run = entries[last].call.as_ref().and_then(Call::run);
    let opened = list.iter().rposition(|place| is_open(&entries[*place], run));
    let opened = opened.map_or(last, |at| list[at]);
    let others = |place: usize, call: &Call| place < opened || call.run() != run;
    let mut trial = Trial::of(&goal, list);
    if goal.number.least > 0 {
        untaken(&mut trial, others);
    }
    let gone = pass(&mut trial, usize::MAX, 0, others);
    let mut needed = gone.unwrap_or(last).min(opened);
    while let Some(place) = pass(&mut trial, 1, needed, |_, _| true) {
        needed = place;
    }
    let mut left = trial.list;
    left.push(last);
    left
}

/// An issue number may take thousands of issues: what none of them takes goes at once, and what
/// stands behind the last of them. It would take long to see of each part that goes that the
/// answer stays: that is guessed, and seen of what is left in the end.
fn untaken(trial: &mut Trial, may: impl Fn(usize, &Call) -> bool) {
    let (goal, list) = (trial.goal, trial.list.as_slice());
    let issue = |place: &&usize| goal.entries[**place].call.as_ref().and_then(issued).is_some();
    let seen = list.iter().filter(issue).nth(goal.number.least - 1).copied();
    let taken = taken(goal.entries, list);
    let free = |place: usize| Some(place) > seen || !taken[place];
    trial.ahead = AHEAD;
    pass(trial, usize::MAX, 0, |place, call| free(place) && may(place, call));
    trial.ahead = usize::MAX;
}

fn is_open(entry: &Entry, run: Option<u32>) -> bool {
    matches!(&entry.call, Some(Call::Open(opened, _)) if Some(*opened) == run)
}

/// Those of the calls before the last that change the desk, from the last accepted new on, and
/// the last one's answer.
fn changing(entries: &[Entry]) -> (Vec<usize>, Option<Answer>) {
    let mut replay = Replay::fresh();
    let mut left = Vec::new();
    let last = entries.len() - 1;
    for (place, entry) in entries[..last].iter().enumerate() {
        let (Some(call), Some(answer)) = (&entry.call, replay.make(entry)) else {
            continue;
        };
        if !changed(call, &answer) {
            continue;
        }
        if matches!(call, Call::New(_)) {
            left.clear();
        }
        left.push(place);
    }
    (left, replay.make(&entries[last]))
}

/// Which calls of a list, all of them accepted, an issue takes: the new, the issue itself, and
/// what opened its run, stepped it, forked and joined it.
fn taken(entries: &[Entry], list: &[usize]) -> Vec<bool> {
    let mut taken = vec![false; entries.len()];
    let mut runs = vec![Vec::new(); 8];
    for place in list {
        match &entries[*place].call {
            Some(Call::New(_)) => taken[*place] = true,
            Some(Call::Open(run, _)) => runs[*run as usize] = vec![*place],
            Some(Call::Step(run, ..) | Call::Fork(run) | Call::Join(run)) => {
                runs[*run as usize].push(*place)
            }
            Some(Call::Issue(run, _, mask)) if *mask != 0 => {
                runs[*run as usize].push(*place);
                runs[*run as usize].iter().for_each(|place| taken[*place] = true);
            }
            _ => {}
        }
    }
    taken
}

/// One pass over those calls of the list that may go, from its end. It leaves out up to `widest`
/// of them at once: more after a trial that went well, fewer after one that didn't. Until one
/// goes, those before `needed` are known to be needed. Gives the first call that is gone.
fn pass(
    trial: &mut Trial,
    widest: usize,
    needed: usize,
    may: impl Fn(usize, &Call) -> bool,
) -> Option<usize> {
    let goes = |at: &usize| {
        let call = trial.call(*at).filter(|_| !trial.needs(*at));
        call.is_some_and(|call| may(trial.list[*at], call))
    };
    let mut free = (0..trial.list.len()).filter(goes).collect::<Vec<usize>>();
    if trial.list[*free.last()?] < needed {
        return None;
    }
    trial.learn(free[0]);
    let (mut width, mut gone) = (widest.min(free.len()), false);
    while free.last().is_some_and(|at| gone || trial.list[*at] >= needed) {
        let from = free.len().saturating_sub(width);
        let tried = free.len() - from;
        if trial.without(&free[from..]) {
            gone = true;
            free.truncate(from);
            free.retain(|at| !trial.needs(*at));
            width = width.saturating_mul(2).min(widest);
        } else if tried == 1 {
            free.truncate(from);
        } else {
            width = tried / 2;
        }
    }
    trial.renew()
}
