//! Admit: "A desk read back from disk".

use super::layout::{has, Sizes, COUNT, LAST_ISSUE, NUMBER, PAST};
use super::reads::plan;
use super::version::{covers, held, meets, needs, row};
use super::{Answer, LINES, NOT_ADMITTED};

/// "Admission writes nothing" and "answers 0"; "a desk in form that breaks one of these gets 11,
/// from admission alone, after 1".
pub fn admit(desk: &[u32], s: Sizes) -> Answer {
    let admitted = all_cuts(desk, s)
        && master_covers(desk, s)
        && counts_reached(desk, s)
        && numbers_reached(desk, s);
    if !admitted {
        return Answer::Refused(NOT_ADMITTED);
    }
    Answer::Ok(vec![0])
}

/// "Master and shelves are causal cuts, each card is a keyset-overlapping cut for its plan."
fn all_cuts(desk: &[u32], s: Sizes) -> bool {
    causal_cut(desk, s, |k| s.master_at(k))
        && (0..s.n).all(|office| causal_cut(desk, s, |k| s.shelf_at(office, k)))
        && (0..s.p).all(|run| (0..LINES).all(|line| card_cut(desk, s, run, line)))
}

/// A line's card, "a keyset-overlapping cut for its plan": admission treats "each line as a card".
fn card_cut(desk: &[u32], s: Sizes, run: usize, line: usize) -> bool {
    overlapping_cut(desk, s, plan(desk, s, run), |k| s.line_card_at(run, line, k))
}

/// "Every need of every held version is met by a held version."
fn causal_cut(desk: &[u32], s: Sizes, at: impl Fn(usize) -> usize) -> bool {
    (0..s.k).all(|k| (0..s.k).all(|d| need_met(desk, s, &at, k, d)))
}

/// "Only those sheets are held, and every need among them is met."
fn overlapping_cut(desk: &[u32], s: Sizes, sheets: u32, at: impl Fn(usize) -> usize) -> bool {
    let inside = |k: usize| has(sheets, k);
    let only_those = (0..s.k).all(|k| inside(k) || !held(s.words(desk, at(k))));
    let among = |k: usize, d: usize| inside(k) && inside(d);
    let met = |k: usize, d: usize| !among(k, d) || need_met(desk, s, &at, k, d);
    only_those && (0..s.k).all(|k| (0..s.k).all(|d| met(k, d)))
}

/// If the version of k that begins at `at(k)` is held and needs d, the one at `at(d)` meets that.
fn need_met(desk: &[u32], s: Sizes, at: &impl Fn(usize) -> usize, k: usize, d: usize) -> bool {
    let version = s.words(desk, at(k));
    let needed = held(version) && needs(version, s.w, k, d);
    !needed || meets(s.words(desk, at(d)), s.w, d, row(version, s.w, d))
}

/// "The master's own row of a sheet covers every row kept for that sheet anywhere, writers' pasts
/// included."
fn master_covers(desk: &[u32], s: Sizes) -> bool {
    pasts(desk, s).iter().all(|past| {
        past.chunks(s.w).enumerate().all(|(d, kept)| {
            let own = row(s.words(desk, s.master_at(d)), s.w, d);
            covers(own, kept)
        })
    })
}

/// "No count in a row exceeds that writer's count."
fn counts_reached(desk: &[u32], s: Sizes) -> bool {
    let count_of = |writer: usize| desk[s.writer_at(writer) + COUNT];
    pasts(desk, s).iter().all(|past| {
        let mut rows = past.chunks(s.w);
        rows.all(|row| row.iter().enumerate().all(|(writer, count)| *count <= count_of(writer)))
    })
}

/// "No version's issue number exceeds the last one."
fn numbers_reached(desk: &[u32], s: Sizes) -> bool {
    places(s).iter().all(|at| desk[at + NUMBER] <= desk[LAST_ISSUE])
}

/// Every past that the desk keeps: of the versions on master, shelves and cards, and the writers'.
fn pasts(desk: &[u32], s: Sizes) -> Vec<&[u32]> {
    let mut pasts = places(s).iter().map(|at| &s.words(desk, *at)[PAST..]).collect::<Vec<_>>();
    pasts.extend((0..s.w).map(|writer| s.writer_past(desk, writer)));
    pasts
}

/// Where the versions on master, shelves and both lines' cards begin.
fn places(s: Sizes) -> Vec<usize> {
    let mut places = Vec::new();
    for k in 0..s.k {
        places.push(s.master_at(k));
        places.extend((0..s.n).map(|office| s.shelf_at(office, k)));
        for line in 0..LINES {
            places.extend((0..s.p).map(|run| s.line_card_at(run, line, k)));
        }
    }
    places
}
