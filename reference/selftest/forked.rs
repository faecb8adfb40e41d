//! Two lines of one run by words: what moves in a join, what form asks, and the calls' lines.

use crate::desk::layout::{DONE, JOBS, JOB_LIST, STATE};
use crate::desk::*;
use crate::forms::all_refuse;
use crate::marked::{fresh, put};
use crate::text::{read_line, Call};

/// A desk 2 2 1 1 with an open forked run of two jobs, of which the first is done: what each line
/// has of sheet 0, and what it has read. Sheet 1 is the same on both.
fn forked(versions: [[u32; 6]; 2], reads: [u32; 2]) -> (Vec<u32>, Sizes) {
    let (mut words, s) = fresh(2, 2, 1, 1);
    for (at, word) in [(STATE, OPEN), (JOBS, 2), (DONE, 1)] {
        words[s.run_at(0) + at] = word;
    }
    put(&mut words, s.run_at(0) + JOB_LIST, &[0, reads[0] | reads[1], 0, 0, 3, 0]);
    words[s.mark_at(0)] = FORKED;
    for line in 0..LINES {
        words[s.read_at(0, line)] = reads[line];
        put(&mut words, s.line_card_at(0, line, 0), &versions[line]);
        put(&mut words, s.line_card_at(0, line, 1), &[7, 1, 0, 0, 1, 0]);
    }
    assert!(in_form(&words).is_some());
    (words, s)
}

/// A version that was read moves if any word does: number, leading writers, own row or a need.
pub fn in_all_words() {
    let here = [5, 1, 2, 1, 1, 0];
    let others = [
        [6, 1, 2, 1, 1, 0],
        [5, 2, 2, 1, 1, 0],
        [5, 1, 3, 1, 1, 0],
        [5, 1, 2, 1, 1, 4],
        [5, 2, 1, 2, 1, 0],
    ];
    for other in others {
        // Whoever has read it: line 0, line 1, both, or nobody.
        for (reads, moves) in [([1, 2], 0), ([2, 1], 1), ([3, 3], 2), ([2, 2], 3)] {
            let (words, s) = forked([here, other], reads);
            let mut both = here;
            version::merge(&mut both, &other, 2, 0);
            let breaks = match moves {
                0 => both != here,
                1 => both != other,
                2 => true,
                _ => false,
            };
            one_join(words, s, u32::from(breaks), both);
        }
    }
    let (words, s) = forked([here, here], [3, 3]);
    one_join(words, s, 0, here);
}

/// A join that breaks with the mask, and writes the state alone; or none, and line 0 has all.
fn one_join(mut words: Vec<u32>, s: Sizes, moved: u32, both: [u32; 6]) {
    let mut due = words.clone();
    if moved != 0 {
        due[s.run_at(0) + STATE] = BROKEN;
        assert_eq!(join(&mut words, 0), Answer::Broken(moved));
    } else {
        put(&mut due, s.line_card_at(0, 0, 0), &both);
        due[s.read_at(0, 0)] |= due[s.read_at(0, 1)];
        due[s.mark_at(0)] = JOINED;
        let second = s.read_at(0, 1);
        due[second..second + 13].fill(0);
        assert_eq!(join(&mut words, 0), Answer::Ok(vec![0]));
    }
    assert_eq!(words, due);
}

/// What form asks of mark and lines, of open and of broken runs.
pub fn asked_by_form() {
    let (words, s) = forked([[5, 1, 2, 1, 1, 0], [6, 1, 3, 1, 1, 0]], [1, 2]);
    let (run, mark, second) = (s.run_at(0), s.mark_at(0), s.line_card_at(0, 1, 0));
    let stands = |changes: &[(usize, u32)], due: bool| {
        for state in [OPEN, BROKEN] {
            let mut words = words.clone();
            words[run + STATE] = state;
            changes.iter().for_each(|(at, word)| words[*at] = *word);
            assert_eq!(in_form(&words).is_some(), due, "{changes:?}");
            if !due {
                all_refuse(&mut words, 1);
            }
        }
    };
    let [one, other] = [0, 1].map(|line| s.read_at(0, line));
    stands(&[], true);
    for bad in [0, 2, 3, u32::MAX] {
        stands(&[(mark, bad)], false);
    }
    // Together the masks are what the done jobs read, and each is within its card.
    stands(&[(one, 3)], true);
    stands(&[(one, 0), (other, 3)], true);
    stands(&[(one, 0)], false);
    stands(&[(one, 7)], false);
    stands(&[(run + DONE, 0)], false);
    stands(&[(run + DONE, 0), (one, 0), (other, 0)], true);
    let cleared = (second..second + 6).map(|at| (at, 0)).collect::<Vec<_>>();
    stands(&cleared, true);
    stands(&[&cleared[..], &[(other, 3)]].concat(), false);
    // A line's version, and its sheet outside the plan.
    stands(&[(second + 1, 4)], false);
    stands(&[(second + 2, 0), (second + 3, 0)], false);
    let plan = [(run + JOB_LIST + 1, 2), (run + JOB_LIST + 4, 2), (one, 0)];
    stands(&plan, false);
    // The other marks want every word of the second line zero.
    let none = (other..second + 12).map(|at| (at, 0)).collect::<Vec<_>>();
    for free in [0, 2] {
        stands(&[&none[..], &[(mark, free), (one, 3)]].concat(), true);
        stands(&[&none[..], &[(mark, free), (one, 3), (second + 11, 1)]].concat(), false);
        stands(&[&none[..], &[(mark, free), (one, 3), (other, 2)]].concat(), false);
    }
    let (mut free, s) = fresh(2, 2, 1, 1);
    for at in [s.mark_at(0), s.read_at(0, 1), s.line_card_at(0, 1, 1) + 5] {
        let before = std::mem::replace(&mut free[at], 1);
        all_refuse(&mut free, 1);
        free[at] = before;
    }
}

/// A call has its line always; written back, line 0 is left out.
pub fn written_back() {
    for (line, call, back) in [
        ("step 3 4", Call::Step(3, 4, 0), "step 3 4"),
        ("step 3 4 0", Call::Step(3, 4, 0), "step 3 4"),
        ("step 3 0 1", Call::Step(3, 0, 1), "step 3 0 1"),
        ("explain 0 0", Call::Explain(0, 0, 0), "explain 0 0"),
        ("explain 0 0 7", Call::Explain(0, 0, 7), "explain 0 0 7"),
        ("fork 0", Call::Fork(0), "fork 0"),
        ("join 2", Call::Join(2), "join 2"),
    ] {
        assert_eq!(read_line(line.as_bytes()), Some(call.clone()));
        assert_eq!(call.line(), back);
    }
    assert_eq!(Call::Step(3, 4, 0).numbers(), [3, 4, 0]);
}
