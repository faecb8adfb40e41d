//! Two lines of one run on the examples worked out for them. A version is (number; mask; rows).

use crate::desk::layout::{COUNT, LAST_ISSUE, STATE};
use crate::desk::*;
use crate::forms::all_refuse;
use crate::lines::{works, works_admitted, works_on};
use crate::marked::{fresh, put, put_marks};
use crate::text::read_line;

/// A join that goes through, and what is 14.
pub fn joined() {
    works(&[
        "new 2 2 2 1 -> ok 119",
        "save 0 0 3",
        "fetch 0 0",
        "fetch 1 1",
        "open 0 0 1 0 1 2 0",
        "fork 0 -> ok 0",
        "step 0 0 -> ok 0 1 0",
        "step 0 1 1 -> ok 0 2 0",
        "issue 0 1 1 -> refused 14",
        "prepare 0 -> refused 14",
        "join 0 -> ok 0",
        "fork 0 -> refused 14",
        "join 0 -> refused 14",
        "step 0 0 1 -> refused 14",
        "issue 0 1 1 -> ok 2",
    ]);
}

/// One sheet in two versions.
pub fn two_versions() {
    works(&[
        "new 2 1 2 2 -> ok 137",
        "save 0 0 1",
        "fetch 0 0",
        "save 0 0 1",
        "fetch 1 0",
        "open 0 0 1 0 1 1 0",
        "fork 0",
        "step 0 0 -> ok 0 1 0",
        "step 0 1 1 -> ok 0 1 0",
        "join 0 -> broken 1",
        "look 2 0 0 -> ok 1 1 1 1",
        "join 0 -> refused 4",
        "drop 0",
        "open 0 0 1 0",
        "fork 0 -> ok 0",
    ]);
}

/// Line 0's version of 0 meets every need, and the join breaks all the same; without fork both
/// steps go through.
pub fn by_the_rule() {
    let before = ["new 2 1 2 1", "save 0 0 1", "fetch 0 0", "edit 0 0 1 0 2", "save 0 0 1"];
    let worked = |lines: &[&str]| {
        let opened = ["fetch 1 1 -> ok 3", "open 0 0 1 0 1 2 0"];
        works(&[&before[..], &opened, lines].concat());
    };
    worked(&[
        "fork 0",
        "step 0 0 0 -> ok 0 1 0",
        "step 0 1 1 -> ok 0 2 0",
        "join 0 -> broken 1",
    ]);
    worked(&["step 0 0 -> ok 0 1 0", "step 0 1 -> ok 0 2 0"]);
}

/// A line breaks by its own reads, those before the fork among them.
pub fn own_reads() {
    works(&[
        "new 3 1 2 1",
        "save 0 0 1",
        "fetch 0 0",
        "save 0 0 3",
        "fetch 1 1",
        "open 0 0 1 0 1 2 0 0 4 0",
        "fork 0",
        "step 0 0 1 -> ok 0 1 0",
        "explain 0 1 1 -> path 1 0",
        "explain 0 1 0 -> clear",
        "step 0 1 0 -> ok 0 2 0",
        "join 0 -> broken 1",
        "drop 0",
        "open 0 0 1 0 1 2 0",
        "step 0 0",
        "fork 0",
        "step 0 1 1 -> broken 1",
        "step 0 1 0 -> refused 4",
    ]);
}

/// The order of refusals, and a line left out: 0, whatever an earlier call had.
pub fn left_out() {
    works(&[
        "new 2 2 2 2",
        "step 0 0 7 -> refused 4",
        "step 0 8 7 -> refused 3",
        "open 0 0 0 0 0 0 1",
        "step 0 2 7 -> refused 3",
        "step 0 1 7 -> refused 14",
        "look 2 0 1 -> refused 8",
        "step 0 1 -> refused 6",
        "fork 0",
        "step 0 0 1 -> ok 0 0 0",
        "step 0 0 -> refused 6",
        "pick -> ok 0 1",
        "step 0 1 -> ok 0 0 0",
        "fork 1 -> refused 4",
        "fork 2 -> refused 3",
    ]);
    assert_eq!(read_line(b"step 0 0 0 0"), None);
}

/// A forked run word by word, and words that aren't in form there.
pub fn words() {
    let (mut words, s) = fresh(1, 1, 1, 1);
    let lines = ["save 0 0 1", "open 0 0 1 0 0 1 0", "fork 0", "step 0 0 1 -> ok 0 0 1"];
    works_on(&mut words, &lines);
    let mut due = vec![1, 2, 1, 0, 0, 1, 0, 0, 1, 0];
    due.extend([0; 18]);
    due.extend([0, 0, 0, 1, 1, 1, 1, 1]);
    assert_eq!(words[20..56], due);
    assert_eq!((s.mark_at(0), s.read_at(0, 1), s.line_card_at(0, 1, 0)), (51, 52, 53));
    for (at, word) in [(51, 0), (51, 2), (51, 3), (23, 1), (52, 0)] {
        let mut bad = words.clone();
        bad[at] = word;
        all_refuse(&mut bad, 1);
    }
}

/// Rows are equal, but the merge has leaders 3.
pub fn by_leaders_alone() {
    let mut words = vec![1, 2, 1, 1, 2, 10, 14, 20, 26, 68];
    words.extend([2, 3, 1, 1, 2, 3, 1, 1, 0, 1, 1, 1, 0, 1, 0, 0]);
    words.extend([1, 2, 3, 1, 0, 1, 0, 0, 1, 0]);
    words.extend([0; 18]);
    words.extend([2, 1, 1, 1, 1, 1, 2, 2, 1, 1, 0, 1, 1, 1]);
    assert_eq!(words.len(), 68);
    let mut due = words.clone();
    due[26 + STATE] = BROKEN;
    works_admitted(&mut words, &["join 0 -> broken 1"]);
    assert_eq!(words, due);
}

/// Lists that a later count hides: on both lines 0 is one version, its copies list other saves.
pub fn lists_hidden() {
    let (mut words, s) = fresh(4, 1, 2, 3);
    words[LAST_ISSUE] = 9;
    let versions = [[1, 1, 1, 1, 0, 0], [2, 1, 0, 2, 0, 0], [3, 1, 1, 0, 1, 0]];
    for (k, version) in versions.iter().enumerate() {
        put(&mut words, s.master_at(k), version);
        put(&mut words, s.shelf_at(0, k), version);
    }
    put(&mut words, s.shelf_at(0, 0), &[1, 1, 1, 2, 0, 0]);
    words[s.writer_at(0) + COUNT] = 2;
    put_marks(&mut words, s);
    let before = ["save 2 0 3", "save 2 0 8", "open 0 0 4 0 1 8 0 0 1 0 1 1 0", "fork 0"];
    let steps = [
        "step 0 0 -> ok 0 4 0",
        "step 0 1 -> ok 0 0 8",
        "step 0 2 -> ok 1 0 0",
        "step 0 3 1 -> ok 0 1 0",
    ];
    let forked = [&before[..], &steps].concat();
    works_admitted(&mut words.clone(), &[&forked[..], &["join 0 -> ok 0"]].concat());
    works_on(&mut words, &forked);
    for line in 0..LINES {
        assert_eq!(s.words(&words, s.line_card_at(0, line, 0)), [10, 1, 3, 3, 0, 0]);
    }
}

/// Admission asks both lines: the card of line 1 alone is no cut.
pub fn both_admitted() {
    let mut words = vec![2, 1, 1, 1, 2, 10, 18, 28, 31, 80, 1, 1, 1, 0, 2, 1, 1, 2];
    words.extend([0, 0, 0, 0, 0, 0, 0, 0, 0, 2, 2, 1, 2, 1, 1, 0, 0, 0, 3, 0]);
    words.extend([0; 29]);
    words.extend([1, 0, 0, 0, 0, 0, 2, 1, 1, 2, 0, 3, 3]);
    assert_eq!((words.len(), words[67]), (80, 1));
    works_on(&mut words, &["admit -> refused 11"]);
    let mut carried = words.clone();
    carried[69..72].fill(1);
    works_on(&mut carried, &["admit -> ok 0"]);
    words[36] = 2;
    works_on(&mut words, &["admit -> ok 0"]);
}
