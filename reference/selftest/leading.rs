//! Leading writers on the examples worked out for them. A version is (number; mask; rows).

use crate::desk::layout::{JOBS, JOB_LIST, LEADERS, STATE};
use crate::desk::version::merge;
use crate::desk::*;
use crate::lines::{works, works_on};
use crate::marked::{fresh, put, put_marks};

/// Two writers that haven't read each other both lead; one that has read both leads alone.
pub fn visible() {
    works(&[
        "new 1 3 2 1",
        "save 0 0 1",
        "look 0 0 0 -> ok 1 1 1 0 0 0",
        "fetch 0 0",
        "save 0 1 1",
        "look 0 0 0 -> ok 2 3 1 1 0 0",
        "look 1 0 0 -> ok 1 1 1 0 0 1",
        "edit 0 1 1 2 1",
        "look 0 0 0 -> ok 3 4 1 1 1 0",
        "look 1 1 0 -> ok 2 3 1 1 0 1",
    ]);
}

/// A card of an older and a newer version: who leads in the older alone leads no more, and who
/// leads in both with the same count still does.
pub fn over_offices() {
    for (second, look) in [("edit 0 0 1 1 1", "2 2 1 1 0"), ("save 0 1 1", "2 3 1 1 0")] {
        works(&[
            "new 1 2 2 1",
            "save 0 0 1",
            "fetch 0 0",
            second,
            "fetch 1 0",
            "open 0 0 1 0 1 1 0",
            "prepare 0",
            &format!("look 2 0 0 -> ok {look}"),
        ]);
    }
}

/// A save stands behind another by a chain through sheet 1.
pub fn by_a_chain() {
    works(&[
        "new 2 3 1 1",
        "save 0 0 1",
        "edit 0 0 1 1 2",
        "edit 0 0 2 2 1",
        "look 0 0 0 -> ok 3 4 1 0 1 0",
    ]);
}

/// Merges of one sheet's versions with two writers, either way round.
pub fn on_words() {
    for (one, other, due) in [
        ([3, 1, 2, 0], [5, 2, 1, 3], [5, 3, 2, 3]),
        ([1, 1, 1, 1], [2, 2, 1, 1], [2, 3, 1, 1]),
        ([1, 1, 3, 0], [2, 1, 2, 0], [2, 1, 3, 0]),
    ] {
        for (mut into, from) in [(one, other), (other, one)] {
            merge(&mut into, &from, 2, 0);
            assert_eq!(into, due);
        }
    }
    // The own row decides, not row 0: sheet 1 of two.
    let mut into = [1, 1, 0, 9, 2, 0];
    merge(&mut into, &[2, 2, 9, 0, 1, 0], 2, 1);
    assert_eq!(into, [2, 1, 9, 9, 2, 0]);
}

/// A desk of one sheet and two writers: the master's version, one for each shelf, and an open run
/// with a job at each office that reads the sheet.
fn lent(master: [u32; 4], shelves: &[[u32; 4]]) -> Vec<u32> {
    let offices = shelves.len() as u32;
    let (mut words, s) = fresh(1, 2, offices, 1);
    put(&mut words, s.master_at(0), &master);
    for (office, version) in shelves.iter().enumerate() {
        put(&mut words, s.shelf_at(office, 0), version);
    }
    let run = s.run_at(0);
    (words[run + STATE], words[run + JOBS]) = (OPEN, offices);
    for office in 0..offices {
        put(&mut words, run + JOB_LIST + 3 * office as usize, &[office, 1, 0]);
    }
    put_marks(&mut words, s);
    assert!(in_form(&words).is_some());
    words
}

/// Offices in number order, and a merge with a side that isn't held.
pub fn on_lent_desks() {
    // Nobody is named by the first two with the third; from the right the mask would be 1.
    let version = |mask| [1, mask, 1, 1];
    let mut words = lent(version(1), &[1, 1, 2].map(version));
    works_on(&mut words, &["prepare 0 -> ok 1", "look 2 0 0 -> ok 1 3 1 1 0"]);
    // Writer 1 leads without a count: the rule for two held versions would name writer 0.
    let mut words = lent([1, 1, 1, 0], &[[1, 2, 1, 0]]);
    works_on(&mut words, &["prepare 0 -> ok 1", "look 2 0 0 -> ok 1 2 1 0 0"]);
}

/// "A held version's mask isn't zero and has no bit at W or above"; an unheld one's is zero.
pub fn masks_in_form() {
    for (w, mask, taken) in [
        (2, 1, true),
        (2, 2, true),
        (2, 3, true),
        (2, 0, false),
        (2, 4, false),
        (2, 7, false),
        (16, 32_768, true),
        (16, 65_536, false),
    ] {
        let (mut words, s) = fresh(1, w, 1, 1);
        put(&mut words, s.master_at(0), &[1, mask, 1]);
        assert_eq!(in_form(&words).is_some(), taken, "mask {mask} of {w} writers");
        let due = if taken { "ok 1" } else { "refused 1" };
        works_on(&mut words, &[&format!("fetch 0 0 -> {due}")]);
    }
    let (mut words, s) = fresh(1, 2, 1, 1);
    words[s.master_at(0) + LEADERS] = 1;
    works_on(&mut words, &["drop 5 -> refused 1"]);
}
