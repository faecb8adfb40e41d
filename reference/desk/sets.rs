//! The least sets T, E and C: each starts with the sheets asked for and is gone over again
//! until nothing joins it.

use super::layout::{has, Sizes};
use super::version::{held, meets, needs, row};

/// Goes over the sheets until no sheet outside the set joins. `joins(t, d)` says that d
/// belongs to the set because t does.
fn least(k: usize, start: u32, joins: impl Fn(usize, usize) -> bool) -> u32 {
    let mut set = start;
    loop {
        let before = set;
        for t in 0..k {
            for d in 0..k {
                if has(set, t) && !has(set, d) && joins(t, d) {
                    set |= 1 << d;
                }
            }
        }
        if set == before {
            return set;
        }
    }
}

/// T: "if t is in T, d is needed by the master's t, the shelf doesn't meet that need and the
/// master holds d, then d is in T".
pub fn fetch_set(desk: &[u32], s: Sizes, office: usize, asked: u32) -> u32 {
    least(s.k, asked, |t, d| {
        let version = s.words(desk, s.master_at(t));
        needs(version, s.w, t, d)
            && !meets(s.words(desk, s.shelf_at(office, d)), s.w, d, row(version, s.w, d))
            && held(s.words(desk, s.master_at(d)))
    })
}

/// E: "a sheet held on the shelf that needs a member is a member". It starts with the sheets that
/// are to leave.
pub fn evict_set(desk: &[u32], s: Sizes, office: usize, leaving: u32) -> u32 {
    least(s.k, leaving, |member, u| {
        let version = s.words(desk, s.shelf_at(office, u));
        held(version) && needs(version, s.w, u, member)
    })
}

/// The office's version of a sheet as it stands once T is fetched.
pub fn shelf_after(desk: &[u32], s: Sizes, office: usize, fetched: u32, k: usize) -> &[u32] {
    if has(fetched, k) {
        s.words(desk, s.master_at(k))
    } else {
        s.words(desk, s.shelf_at(office, k))
    }
}

/// What step works from: its run and line, its office, those of its reads that the line's card
/// lacks, T of its fetch and the plan's sheets.
pub struct StepView {
    pub run: usize,
    pub line: usize,
    pub office: usize,
    pub off_card: u32,
    pub fetched: u32,
    pub plan: u32,
}

/// "d is a plan's sheet needed by the shelf's c, the card doesn't meet that need and the shelf
/// holds d".
pub fn leads(desk: &[u32], s: Sizes, view: &StepView, c: usize, d: usize) -> bool {
    let version = shelf_after(desk, s, view.office, view.fetched, c);
    let card = s.line_card_at(view.run, view.line, d);
    has(view.plan, d)
        && needs(version, s.w, c, d)
        && !meets(s.words(desk, card), s.w, d, row(version, s.w, d))
        && held(shelf_after(desk, s, view.office, view.fetched, d))
}

/// C: "the least set with every sheet of R that the card lacks" that has each d to which a c of
/// it leads.
pub fn card_set(desk: &[u32], s: Sizes, view: &StepView) -> u32 {
    least(s.k, view.off_card, |c, d| leads(desk, s, view, c, d))
}
