//! Picks on the examples worked out for them.

use crate::desk::*;
use crate::forms::all_refuse;
use crate::lines::{works, works_on};
use crate::marked::fresh;
use crate::random::Draw;

/// Round the runs; the last picked one comes last. On a new desk run 0 is first.
pub fn in_turns() {
    works(&[
        "pick -> refused 1",
        "new 1 1 1 3",
        "pick -> nothing",
        "open 0 0 0 0 0 0 1",
        "open 2 0 0 0",
        "pick -> ok 0 0",
        "pick -> ok 2 0",
        "pick -> ok 0 0",
        "step 2 0",
        "pick -> ok 0 0",
        "step 0 0",
        "pick -> ok 0 1",
        "step 0 1",
        "pick -> nothing",
        "open 1 0 0 0",
        "pick -> ok 1 0",
        "new 1 1 1 3",
        "open 1 0 0 0",
        "open 0 0 0 0",
        "pick -> ok 0 0",
    ]);
}

/// ""Nothing to do" leaves it."
pub fn nothing_leaves_the_round() {
    works(&[
        "new 1 1 1 2",
        "open 0 0 0 0",
        "pick -> ok 0 0",
        "step 0 0",
        "pick -> nothing",
        "drop 0",
        "open 1 0 0 0",
        "open 0 0 0 0",
        "pick -> ok 1 0",
        "pick -> ok 0 0",
    ]);
}

/// Nothing is asked of shelves and master: the step may still be refused.
pub fn fetched_or_not() {
    works(&[
        "new 2 1 2 3",
        "open 2 0 1 0",
        "open 1 0 1 0 0 0 0",
        "pick -> ok 1 0",
        "step 1 0 -> refused 7",
        "pick -> ok 2 0",
        "pick -> ok 1 0",
        "drop 1",
        "pick -> ok 2 0",
    ]);
}

/// Job 2 would be ready.
pub fn not_of_a_broken_run() {
    works(&[
        "new 2 1 2 2",
        "save 0 0 1",
        "open 0 0 1 0 1 2 0 0 0 0",
        "step 0 0",
        "save 1 0 3",
        "pick -> ok 0 1",
        "step 0 1 -> broken 1",
        "pick -> nothing",
        "open 1 0 0 0",
        "pick -> ok 1 0",
        "pick -> ok 1 0",
    ]);
}

/// Job 2 waits for 0 and 1.
pub fn behind_all_upstreams() {
    works(&[
        "new 1 1 1 1",
        "open 0 0 0 0 0 0 0 0 0 3",
        "step 0 1",
        "pick -> ok 0 0",
        "step 0 0",
        "pick -> ok 0 2",
    ]);
}

/// "P - 1 on a new desk and below P in form." On the desk 2 2 1 1 it is word 100.
pub fn asked_by_form() {
    let (words, s) = fresh(2, 2, 1, 1);
    assert_eq!((s.round_at(), words[100]), (100, 0));
    let (mut words, s) = fresh(1, 1, 1, 3);
    assert_eq!(words[s.round_at()], 2);
    for last in [0, 1, 2] {
        words[s.round_at()] = last;
        works_on(&mut words, &["drop 5 -> refused 3", "pick -> nothing"]);
        assert_eq!(words[s.round_at()], last);
    }
    for last in [3, 4, u32::MAX] {
        words[s.round_at()] = last;
        all_refuse(&mut words, 1);
    }
}

/// "Picked within P picks, whatever becomes of other runs": from each last picked run, with the other
/// runs opened and dropped between at random.
pub fn within_as_many_picks() {
    let mut draw = Draw::new(1);
    for (last, run) in (0..8).flat_map(|last| (0..8).map(move |run| (last, run))) {
        let (mut words, s) = fresh(1, 1, 1, 8);
        words[s.round_at()] = last;
        works_on(&mut words, &[&format!("open {run} 0 0 0")]);
        let picked = (0..8).any(|_| {
            for other in (0..8).filter(|other| *other != run) {
                let _ = match draw.below(3) {
                    0 => drop_run(&mut words, other),
                    _ => open(&mut words, other, &[0, 0, 0]),
                };
            }
            pick(&mut words) == Answer::Ok(vec![run, 0])
        });
        assert!(picked, "run {run} behind {last}");
    }
}
