//! Evict: a sheet leaves a shelf.

use super::layout::{has, Sizes};
use super::sets::evict_set;
use super::stale::set_mark;
use super::version::held;
use super::{Answer, NOT_HELD, OUT_OF_RANGE};

/// Evict: "E leaves the shelf. Answers E."
pub fn evict(desk: &mut [u32], s: Sizes, office: u32, sheet: u32) -> Answer {
    if u64::from(office) >= s.n as u64 || u64::from(sheet) >= s.k as u64 {
        return Answer::Refused(OUT_OF_RANGE);
    }
    let (office, sheet) = (office as usize, sheet as usize);
    if !held(s.words(desk, s.shelf_at(office, sheet))) {
        return Answer::Refused(NOT_HELD);
    }
    Answer::Ok(vec![let_go(desk, s, office, 1 << sheet)])
}

/// E of these sheets leaves the shelf, and its mark follows. Answers E.
pub fn let_go(desk: &mut [u32], s: Sizes, office: usize, leaving: u32) -> u32 {
    let set = evict_set(desk, s, office, leaving);
    for k in 0..s.k {
        if has(set, k) {
            let at = s.shelf_at(office, k);
            desk[at..at + s.version()].fill(0);
        }
    }
    set_mark(desk, s, office);
    set
}
