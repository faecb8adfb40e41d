//! Admitted saves: those that the rows of an admitted desk count.

use std::collections::BTreeMap;

/// A set of admitted saves. A row of sheet d counts the first so many saves of d by each writer;
/// the set has for sheet and writer how many of them are in it, if any.
#[derive(Clone, Default, PartialEq, Eq, Debug)]
pub struct Rows(BTreeMap<(usize, usize), u32>);

impl Rows {
    /// All that the rows of a past count, with w writers.
    pub fn of_past(past: &[u32], w: usize) -> Rows {
        let counts = past.iter().enumerate().filter(|(_, count)| **count != 0);
        Rows(counts.map(|(place, count)| ((place / w, place % w), *count)).collect())
    }

    pub fn is_empty(&self) -> bool {
        self.0.is_empty()
    }

    pub fn includes(&self, other: &Rows) -> bool {
        other.0.iter().all(|(place, count)| self.0.get(place).is_some_and(|mine| mine >= count))
    }

    pub fn join(&mut self, other: &Rows) {
        for (place, count) in &other.0 {
            let mine = self.0.entry(*place).or_insert(0);
            *mine = (*mine).max(*count);
        }
    }

    /// Those of one sheet, and those of all the others.
    pub fn parted(&self, sheet: usize) -> (Rows, Rows) {
        let counts = self.0.iter().map(|(place, count)| (*place, *count));
        let (own, others) = counts.partition(|((of, _), _)| *of == sheet);
        (Rows(own), Rows(others))
    }

    /// Sheet, writer and count of each.
    pub fn counts(&self) -> impl Iterator<Item = (usize, usize, u32)> + '_ {
        self.0.iter().map(|((sheet, writer), count)| (*sheet, *writer, *count))
    }
}
