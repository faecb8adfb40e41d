//! "Clocks, versions, cuts": clocks and versions as slices of words; the writers that lead a
//! merged version.

use super::layout::{has, LEADERS, NUMBER, PAST};
use std::sync::atomic::{AtomicU64, Ordering};

/// How one clock stands against another.
#[derive(Clone, Copy, PartialEq, Eq, Debug)]
pub enum Standing {
    Equal,
    Older,
    Newer,
    Rival,
}

/// "Comparing two clocks shall answer equal, older, newer or rival": p against q.
pub fn compare(p: &[u32], q: &[u32]) -> Standing {
    let larger = p.iter().zip(q).any(|(a, b)| a > b);
    let smaller = p.iter().zip(q).any(|(a, b)| a < b);
    match (larger, smaller) {
        (false, false) => Standing::Equal,
        (false, true) => Standing::Older,
        (true, false) => Standing::Newer,
        (true, true) => Standing::Rival,
    }
}

/// "0 equal, 1 older, 2 newer, 3 rival."
pub fn standing_number(standing: Standing) -> u32 {
    match standing {
        Standing::Equal => 0,
        Standing::Older => 1,
        Standing::Newer => 2,
        Standing::Rival => 3,
    }
}

/// "Clock p covers q if every count of p is at least that of q": it is equal or newer.
pub fn covers(p: &[u32], q: &[u32]) -> bool {
    matches!(compare(p, q), Standing::Equal | Standing::Newer)
}

/// "Two clocks are rivals if neither covers the other."
pub fn rivals(p: &[u32], q: &[u32]) -> bool {
    compare(p, q) == Standing::Rival
}

/// "An issue number (0 = not held)".
pub fn held(version: &[u32]) -> bool {
    version[NUMBER] != 0
}

/// Row d of the version's past, with w writers.
pub fn row(version: &[u32], w: usize, d: usize) -> &[u32] {
    &version[PAST + d * w..PAST + (d + 1) * w]
}

/// All words together, which is quicker than stopping at the first that isn't zero.
pub fn all_zero(words: &[u32]) -> bool {
    words.iter().fold(0, |all, word| all | word) == 0
}

/// Does this version of sheet k need sheet d? "Another row d that isn't all zero is a need."
pub fn needs(version: &[u32], w: usize, k: usize, d: usize) -> bool {
    d != k && !all_zero(row(version, w, d))
}

/// "A held version of d meets a need if its own row covers it."
pub fn meets(version: &[u32], w: usize, d: usize, need: &[u32]) -> bool {
    held(version) && covers(row(version, w, d), need)
}

/// Two versions of sheet k: "the larger count at each place of the past, the larger issue
/// number. With one side not held, the other", its mask too.
pub fn merge(into: &mut [u32], other: &[u32], w: usize, k: usize) {
    if !held(other) {
        return;
    }
    if !held(into) {
        into.copy_from_slice(other);
        return;
    }
    let sides = [&*into, other].map(|side| (side[LEADERS], row(side, w, k)));
    into[LEADERS] = leaders(sides[0], sides[1]);
    take_larger(&mut into[NUMBER..=NUMBER], &other[NUMBER..=NUMBER]);
    take_larger(&mut into[PAST..], &other[PAST..]);
}

/// How often a merge has named nobody: on desks from new none does, as the tests ask.
pub static NOBODY: AtomicU64 = AtomicU64::new(0);

/// The mask of leading writers of two held versions' merge; a side is its mask and its own row.
/// "If that names nobody, each writer with a count in the merged own row leads."
pub fn leaders(one: (u32, &[u32]), other: (u32, &[u32])) -> u32 {
    let named = named_leaders(one, other);
    if named != 0 {
        return named;
    }
    NOBODY.fetch_add(1, Ordering::Relaxed);
    let counts = one.1.iter().zip(other.1).enumerate();
    let counted = counts.filter(|(_, (mine, theirs))| **mine.max(theirs) != 0);
    counted.fold(0, |mask, (u, _)| mask | 1 << u)
}

/// "Writer u leads if it leads on both sides with the same count, or leads on one side with a
/// larger count than the other side has."
fn named_leaders((mask, row): (u32, &[u32]), (other_mask, other_row): (u32, &[u32])) -> u32 {
    let mut named = 0;
    for (u, (mine, theirs)) in row.iter().zip(other_row).enumerate() {
        let both = has(mask, u) && has(other_mask, u) && mine == theirs;
        let here = has(mask, u) && mine > theirs;
        let there = has(other_mask, u) && theirs > mine;
        if both || here || there {
            named |= 1 << u;
        }
    }
    named
}

/// The larger number at each place.
pub fn take_larger(into: &mut [u32], other: &[u32]) {
    for (mine, theirs) in into.iter_mut().zip(other) {
        if *theirs > *mine {
            *mine = *theirs;
        }
    }
}
