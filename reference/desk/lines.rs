//! "Two lines of one run": fork and join.

use super::layout::{has, Sizes, STATE};
use super::version::merge;
use super::*;

/// Fork: "the card and read mask are copied". "A second fork" is 14.
pub fn fork(desk: &mut [u32], s: Sizes, run: u32) -> Answer {
    if let Err(number) = marked(desk, s, run, NEVER_FORKED) {
        return Answer::Refused(number);
    }
    let run = run as usize;
    let card = s.line_card_at(run, 0, 0);
    desk.copy_within(card..card + s.card(), s.line_card_at(run, 1, 0));
    desk[s.read_at(run, 1)] = desk[s.read_at(run, 0)];
    desk[s.mark_at(run)] = FORKED;
    Answer::Ok(vec![0])
}

/// Join: "merges the cards sheet by sheet and unites the read masks if every sheet read on either
/// line stays the version that was read; otherwise only the state changes, and the answer is
/// broken with the mask of the sheets that moved". "A join when not forked" is 14.
pub fn join(desk: &mut [u32], s: Sizes, run: u32) -> Answer {
    if let Err(number) = marked(desk, s, run, FORKED) {
        return Answer::Refused(number);
    }
    let run = run as usize;
    let moved = moved(desk, s, run);
    if moved != 0 {
        desk[s.run_at(run) + STATE] = BROKEN;
        return Answer::Broken(moved);
    }
    for k in 0..s.k {
        let both = merged(desk, s, run, k);
        let at = s.line_card_at(run, 0, k);
        desk[at..at + s.version()].copy_from_slice(&both);
    }
    desk[s.read_at(run, 0)] |= desk[s.read_at(run, 1)];
    // Second read mask and second card: "these two zero unless the mark is 1".
    let second = s.read_at(run, 1);
    desk[second..second + 1 + s.card()].fill(0);
    desk[s.mark_at(run)] = JOINED;
    Answer::Ok(vec![0])
}

/// What fork and join turn down: each wants an open run with a mark.
fn marked(desk: &[u32], s: Sizes, run: u32, mark: u32) -> Result<(), u32> {
    if u64::from(run) >= s.p as u64 {
        return Err(OUT_OF_RANGE);
    }
    if desk[s.run_at(run as usize) + STATE] != OPEN {
        return Err(WRONG_STATE);
    }
    if desk[s.mark_at(run as usize)] != mark {
        return Err(WRONG_LINE);
    }
    Ok(())
}

/// The merge of the two lines' versions of a sheet.
fn merged(desk: &[u32], s: Sizes, run: usize, k: usize) -> Vec<u32> {
    let mut both = s.words(desk, s.line_card_at(run, 0, k)).to_vec();
    merge(&mut both, s.words(desk, s.line_card_at(run, 1, k)), s.w, k);
    both
}

/// The sheets that a line has read and whose merge isn't that line's version, in any word.
fn moved(desk: &[u32], s: Sizes, run: usize) -> u32 {
    let mut moved = 0;
    for line in 0..LINES {
        for k in 0..s.k {
            let version = s.words(desk, s.line_card_at(run, line, k));
            if has(desk[s.read_at(run, line)], k) && merged(desk, s, run, k) != version {
                moved |= 1 << k;
            }
        }
    }
    moved
}

/// "Line 1 on a run not forked, or a line above 1".
pub fn no_such_line(desk: &[u32], s: Sizes, run: usize, line: u32) -> bool {
    line > 1 || line == 1 && !is_forked(desk, s, run)
}

/// Forked and not joined.
pub fn is_forked(desk: &[u32], s: Sizes, run: usize) -> bool {
    desk[s.mark_at(run)] == FORKED
}
