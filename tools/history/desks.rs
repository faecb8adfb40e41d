//! Desks of a list of calls, kept to go on from: by the place of the call that comes next.

use super::replay::Replay;
use std::collections::BTreeMap;

/// So many at a time, at most: some 100 MB of the largest.
const KEPT: usize = 96;

pub struct Desks {
    kept: BTreeMap<usize, Vec<u32>>,
    /// Room for others.
    spare: Vec<Vec<u32>>,
}

impl Desks {
    /// The desk before the first call.
    pub fn of(replay: &Replay) -> Desks {
        let mut desks = Desks { kept: BTreeMap::new(), spare: Vec::new() };
        desks.keep(0, replay);
        desks
    }

    /// Keeps the desk; every second one goes if they are too many.
    pub fn keep(&mut self, at: usize, replay: &Replay) {
        let mut room = self.spare.pop().unwrap_or_default();
        replay.keep(&mut room);
        self.kept.insert(at, room);
        if self.kept.len() > KEPT {
            let mut evens = [true, false].iter().cycle();
            self.kept.retain(|_, _| evens.next() == Some(&true));
        }
    }

    /// Goes back to the last desk up to a place. Gives the place that it has.
    pub fn restore(&self, at: usize, replay: &mut Replay) -> usize {
        let last = self.kept.range(..=at).next_back();
        last.map_or(0, |(at, desk)| {
            replay.restore(desk);
            *at
        })
    }

    /// Lets go of those behind a place.
    pub fn cut(&mut self, at: usize) {
        self.spare.extend(self.kept.split_off(&(at + 1)).into_values());
    }
}
