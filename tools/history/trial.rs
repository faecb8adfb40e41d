//! A list without some of its calls, tried: is its last call answered as it was?
//!
//! Trials go from the list's end to its start, so that before the calls of a trial the list is
//! whole, and behind them it stays what it is. Hence desks of the whole list are kept to go on
//! from, and a desk that an earlier trial had at the same place ends as it did then.

use super::desks::Desks;
use super::log::Entry;
use super::number::{certain, issued, Bound, Goal};
use super::replay::Replay;
use crate::desk::Answer;
use crate::text::Call;
use std::collections::HashMap;

/// The way from a kept desk is cut into so many parts, and a desk kept behind each.
const PARTS: usize = 32;
/// No part is shorter, in calls.
const PART: usize = 4;
/// Desks are compared after so many calls, or more: one for so many of their words.
const GAP: usize = 16;
const WORDS: usize = 1 << 13;
/// Desks that are remembered for one list, at most.
const KNOWN: usize = 1 << 19;

/// A list with what is left of it.
pub struct Trial<'a> {
    pub goal: &'a Goal<'a>,
    pub list: Vec<usize>,
    left: Vec<bool>,
    replay: Replay,
    /// Desks of the whole list.
    desks: Desks,
    /// Whether the answer stays, by a place in the list and the desk before the call there.
    known: HashMap<(usize, u128), bool>,
    /// A trial goes well that makes so many calls behind its own: a guess.
    pub ahead: usize,
    guessed: bool,
    /// What went from the first guess on.
    guesses: Vec<Vec<usize>>,
    /// The issues that count.
    bound: Bound,
    /// Which calls no trial may leave out; empty until each issue that counts is needed.
    certain: Vec<bool>,
}

impl<'a> Trial<'a> {
    pub fn of(goal: &'a Goal<'a>, list: Vec<usize>) -> Trial<'a> {
        let replay = Replay::fresh();
        let mut trial = Trial {
            goal,
            left: vec![true; list.len()],
            list,
            desks: Desks::of(&replay),
            replay,
            known: HashMap::new(),
            ahead: usize::MAX,
            guessed: false,
            guesses: Vec::new(),
            bound: Bound::default(),
            certain: Vec::new(),
        };
        trial.settle();
        trial
    }

    /// Takes what is left as the list. Gives the first call that is gone.
    pub fn renew(&mut self) -> Option<usize> {
        self.confirm();
        let gone = self.left.iter().position(|left| !left);
        let place = gone.map(|at| self.list[at]);
        self.desks.cut(gone.unwrap_or(self.list.len()));
        let mut left = self.left.iter();
        self.list.retain(|_| left.next() == Some(&true));
        self.left = vec![true; self.list.len()];
        self.known.clear();
        self.certain.clear();
        self.settle();
        place
    }

    /// Puts back what went by guesses until the answer stays: from the last, more each time.
    fn confirm(&mut self) {
        let mut back = 1;
        while !self.guesses.is_empty() && !self.leads() {
            let kept = self.guesses.len().saturating_sub(back);
            let places = self.guesses.split_off(kept).concat();
            places.iter().for_each(|at| self.left[*at] = true);
            back *= 2;
        }
        self.guesses.clear();
        self.guessed = false;
    }

    /// Whether what is left leads to the answer.
    fn leads(&mut self) -> bool {
        let gone = self.left.iter().position(|left| !left).unwrap_or(0);
        for at in self.desks.restore(gone, &mut self.replay)..self.list.len() {
            if self.left[at] {
                self.replay.make(self.entry(at));
            }
        }
        self.replay.make(self.goal.last()) == self.goal.answer
    }

    /// Remembers desks of the whole list, and keeps some, for trials of calls from `first` on.
    pub fn learn(&mut self, first: usize) {
        self.reach(first);
        let part = ((self.list.len() - first) / PARTS).max(PART);
        for at in first..self.list.len() {
            if at % self.gap(0) == 0 {
                self.known.insert((at, self.replay.hash()), true);
            }
            self.replay.make(self.entry(at));
            if (at + 1 - first) % part == 0 {
                self.desks.keep(at + 1, &self.replay);
            }
        }
    }

    pub fn call(&self, at: usize) -> Option<&'a Call> {
        self.entry(at).call.as_ref()
    }

    /// Whether the call there can't go, whatever else does.
    pub fn needs(&self, at: usize) -> bool {
        self.certain.get(at) == Some(&true)
    }

    /// Leaves out the calls at these places in the list, if the answer stays without them. They
    /// stand before those of all trials before, unless those were tried in vain.
    pub fn without(&mut self, places: &[usize]) -> bool {
        self.mark(places, false);
        let stays = self.bound.issues >= self.goal.number.least && self.stays(places);
        if stays {
            if self.guessed {
                self.guesses.push(places.to_vec());
            }
            self.forget(places[0], places[places.len() - 1]);
            self.settle();
        } else {
            self.mark(places, true);
        }
        stays
    }

    /// Between calls that went together the whole list's desks don't count: what is left behind
    /// them was never tried on them.
    fn forget(&mut self, first: usize, last: usize) {
        if first < last {
            self.known.retain(|(at, _), _| *at <= first || *at > last);
        }
    }

    fn entry(&self, at: usize) -> &'a Entry {
        &self.goal.entries[self.list[at]]
    }

    fn mark(&mut self, places: &[usize], left: bool) {
        for at in places {
            self.left[*at] = left;
            if self.counts(*at) {
                let issues = &mut self.bound.issues;
                *issues = if left { *issues + 1 } else { *issues - 1 };
            }
        }
    }

    /// Whether it is an issue that counts.
    fn counts(&self, at: usize) -> bool {
        at < self.bound.until && self.call(at).is_some_and(|call| issued(call).is_some())
    }

    /// Bounds the issues that count, until no more of them are left than it takes: no smaller
    /// list can do with fewer, and each is needed.
    fn settle(&mut self) {
        let number = &self.goal.number;
        if number.least == 0 || !self.certain.is_empty() {
            return;
        }
        let call = |at: usize| self.call(at).map(|call| (at, call));
        let calls = (0..self.list.len()).filter(|at| self.left[*at]).filter_map(call);
        let bound = number.bound(calls.clone());
        if bound.issues == number.least {
            let mut needed = vec![false; self.list.len()];
            certain(calls.take_while(|(at, _)| *at < bound.until), &mut needed);
            self.certain = needed;
        }
        self.bound = bound;
    }

    /// Makes the calls that are left, from the first of the places on.
    fn stays(&mut self, places: &[usize]) -> bool {
        let (from, tried) = (places[0], places[places.len() - 1] + 1);
        // No later trial has calls behind these.
        self.desks.cut(tried);
        self.reach(from);
        let (mut issues, mut made) = (self.bound.issues, 0);
        let mut seen = Vec::new();
        let mut stays = None;
        for at in from..self.list.len() {
            if made > self.ahead {
                self.guessed = true;
                return true;
            }
            if at >= tried + GAP && at % self.gap(at - tried) == 0 {
                let key = (at, self.replay.hash());
                stays = self.known.get(&key).copied();
                seen.push(key);
            }
            let entry = self.entry(at);
            if stays.is_none() && self.left[at] {
                made += usize::from(at >= tried);
                let refused = matches!(self.replay.make(entry), Some(Answer::Refused(_)));
                if refused && self.counts(at) {
                    issues -= 1;
                    stays = (issues < self.goal.number.least).then_some(false);
                }
            }
            if stays.is_some() {
                break;
            }
        }
        let (last, answer) = (self.goal.last(), &self.goal.answer);
        let stays = stays.unwrap_or_else(|| self.replay.make(last) == *answer);
        if self.known.len() < KNOWN {
            self.known.extend(seen.into_iter().map(|key| (key, stays)));
        }
        stays
    }

    /// How far apart desks are compared behind so many calls: closest where they may soon be
    /// alike, and the wider the more words they have.
    fn gap(&self, behind: usize) -> usize {
        let gap = GAP.max(self.replay.words() / WORDS).max(behind / 8);
        gap.next_power_of_two()
    }

    /// Makes the desk that the whole list has before the call there, and keeps some on the way.
    fn reach(&mut self, from: usize) {
        let start = self.desks.restore(from, &mut self.replay);
        let part = ((from - start) / PARTS).max(PART);
        for at in start..from {
            self.replay.make(self.entry(at));
            if (at + 1 - start) % part == 0 {
                self.desks.keep(at + 1, &self.replay);
            }
        }
    }
}
