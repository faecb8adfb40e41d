//! "A stale mark for each shelf": the stored word behind its versions.

use super::layout::Sizes;
use super::version::{compare, held, row, Standing};
use super::{Answer, OUT_OF_RANGE};

/// "The mask of held sheets whose own row isn't equal to the master's."
pub fn stale_mask(desk: &[u32], s: Sizes, office: usize) -> u32 {
    let mut mask = 0;
    for k in 0..s.k {
        let version = s.words(desk, s.shelf_at(office, k));
        let master = s.words(desk, s.master_at(k));
        let equal = compare(row(version, s.w, k), row(master, s.w, k)) == Standing::Equal;
        if held(version) && !equal {
            mask |= 1 << k;
        }
    }
    mask
}

/// The shelf's mark, after the shelf or the master has changed.
pub fn set_mark(desk: &mut [u32], s: Sizes, office: usize) {
    desk[s.stale_at(office)] = stale_mask(desk, s, office);
}

/// Stale: "a new call answers it". Changes nothing.
pub fn stale(desk: &[u32], s: Sizes, office: u32) -> Answer {
    if u64::from(office) >= s.n as u64 {
        return Answer::Refused(OUT_OF_RANGE);
    }
    Answer::Ok(vec![desk[s.stale_at(office as usize)]])
}
