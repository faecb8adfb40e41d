//! Explain on the examples worked out for it, and on a path of all 32 sheets.

use crate::desk::layout::{DONE, JOBS, JOB_LIST, LEADERS, NUMBER, PAST, READ, STATE};
use crate::desk::*;
use crate::lines::works;
use crate::marked::{fresh, put, put_marks};

/// Sheet 2 needs an older 1; the fetched 1 is newer and needs the new 0.
pub fn through_newer() {
    let worked = |opened, ends: &[&str]| {
        let mut lines = vec!["new 3 4 2 2", "save 1 0 1", opened, "step 0 0", "save 1 1 2"];
        lines.extend(["edit 1 0 2 2 4", "edit 1 0 1 3 3"]);
        lines.extend(ends);
        works(&lines);
    };
    worked(
        "open 0 0 1 0 1 4 0 1 2 0",
        &[
            "explain 0 1 -> path 2 1 0",
            "explain 0 2 -> path 1 0",
            "look 1 1 2 -> refused 8",
            "step 0 1 -> broken 1",
            "explain 0 1 -> refused 4",
        ],
    );
    // Sheet 1 is not in the plan.
    worked("open 0 0 1 0 1 4 0", &["explain 0 1 -> clear", "step 0 1 -> ok 0 0 4"]);
}

/// Of equally short paths the smallest sheet by sheet, though another ends lower.
pub fn smallest() {
    works(&[
        "new 5 5 2 2",
        "save 1 0 1",
        "save 1 1 16",
        "open 0 0 17 0 1 8 0 1 6 0",
        "step 0 0",
        "save 1 2 2",
        "save 1 3 4",
        "edit 1 0 6 4 8",
        "edit 1 0 16 1 18",
        "edit 1 0 1 0 5",
        "explain 0 1 -> path 3 1 4",
        "explain 0 2 -> path 1 4",
        "step 0 1 -> broken 17",
    ]);
}

/// A shortest path, though a longer one begins lower.
pub fn shortest() {
    works(&[
        "new 4 5 2 2",
        "save 1 0 1",
        "open 0 0 1 0 1 12 0 1 2 0",
        "step 0 0",
        "save 1 1 2",
        "edit 1 0 2 2 4",
        "edit 1 0 1 3 3",
        "edit 1 0 1 4 9",
        "explain 0 1 -> path 3 0",
    ]);
}

/// Sheet 1 is carried, unread and too old.
pub fn over_carried() {
    works(&[
        "new 4 5 2 2",
        "save 1 0 1",
        "save 1 1 2",
        "edit 1 0 2 2 8",
        "open 0 0 1 0 0 8 0 1 4 0 1 2 0",
        "step 0 0",
        "step 0 1",
        "save 1 1 2",
        "edit 1 1 2 3 4",
        "edit 1 0 1 4 3",
        "fetch 1 1",
        "explain 0 2 -> path 2 1 0",
        "explain 0 3 -> clear",
        "step 0 3 -> ok 2 0 0",
        "explain 0 2 -> path 2 1",
        "step 0 2 -> broken 3",
    ]);
}

/// What step refuses, by the same numbers.
pub fn refusals() {
    works(&[
        "explain 9 9 -> refused 1",
        "new 2 2 1 2",
        "explain 0 7 -> refused 4",
        "explain 0 8 -> refused 3",
        "explain 2 0 -> refused 3",
        "open 0 0 1 0 0 2 1",
        "explain 0 0 -> refused 7",
        "explain 0 1 -> refused 6",
        "explain 0 2 -> refused 3",
        "open 1 0 0 0",
        "explain 1 0 -> clear",
        "step 1 0",
        "issue 1 0 1",
        "explain 0 0 -> clear",
        "step 0 0",
        "explain 0 0 -> refused 6",
        "explain 0 1 -> refused 7",
    ]);
}

/// Each sheet needs the next one, and sheet 31 was read too old: the path has all sheets.
pub fn all_sheets() {
    let (mut words, s) = fresh(32, 1, 1, 1);
    for k in 0..32 {
        let mut version = [0; 34];
        (version[NUMBER], version[LEADERS]) = (1, 1);
        version[PAST + k] = 2;
        if k < 31 {
            version[PAST + k + 1] = 2;
        }
        put(&mut words, s.shelf_at(0, k), &version);
    }
    let (run, last) = (s.run_at(0), 1 << 31);
    for (at, word) in [(STATE, OPEN), (JOBS, 3), (DONE, 1), (READ, last)] {
        words[run + at] = word;
    }
    put(&mut words, run + JOB_LIST, &[0, last, 0, 0, 1, 0, 0, !last & !1, 0]);
    let at = s.card_at(0, 31);
    put(&mut words, at, &[1, 1]);
    words[at + PAST + 31] = 1;
    put_marks(&mut words, s);
    assert!(in_form(&words).is_some());
    assert_eq!(explain(&words, 0, 1, 0), Answer::Path((0..32).collect()));
    assert_eq!(explain(&words, 0, 2, 0), Answer::Path(vec![30, 31]));
    assert_eq!(step(&mut words, 0, 1, 0), Answer::Broken(2_147_483_648));
}
