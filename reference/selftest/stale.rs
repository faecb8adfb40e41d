//! Stale marks on the examples worked out for them. A version is (number; mask; rows).

use crate::desk::layout::{COUNT, DONE, JOBS, LAST_ISSUE, STATE, WRITER_PAST};
use crate::desk::*;
use crate::forms::all_refuse;
use crate::lines::{works, works_on};
use crate::marked::{fresh, put, put_marks};

/// By issue, fetch, evict and prepare, which doesn't fetch again what is held.
pub fn kept() {
    works(&[
        "new 3 2 2 2",
        "stale 0 -> ok 0",
        "stale 2 -> refused 3",
        "save 0 0 3",
        "fetch 0 0",
        "fetch 1 1",
        "stale 0 -> ok 0",
        "edit 0 0 1 1 1",
        "stale 0 -> ok 1",
        "stale 1 -> ok 1",
        "evict 1 0 -> ok 3",
        "stale 1 -> ok 0",
        "fetch 1 1",
        "stale 1 -> ok 0",
        "open 0 0 3 0",
        "prepare 0",
        "stale 0 -> ok 1",
        "save 1 0 4",
        "stale 0 -> ok 1",
        "stale 1 -> ok 0",
    ]);
}

/// The step's fetch would have cleared the mark.
pub fn kept_by_a_break() {
    works(&[
        "new 2 2 2 2",
        "save 1 0 1",
        "fetch 1 0",
        "open 0 0 1 0 1 2 0",
        "step 0 0",
        "edit 1 0 1 1 3",
        "stale 1 -> ok 1",
        "explain 0 1 -> path 1 0",
        "step 0 1 -> broken 1",
        "stale 1 -> ok 1",
        "fetch 1 1 -> ok 3",
        "stale 1 -> ok 0",
    ]);
}

/// A sheet comes again through T.
pub fn kept_by_a_step() {
    works(&[
        "new 2 2 1 2",
        "save 1 0 1",
        "fetch 0 0",
        "edit 1 0 1 1 3",
        "stale 0 -> ok 1",
        "open 0 0 2 0",
        "step 0 0 -> ok 0 0 2",
        "stale 0 -> ok 0",
    ]);
}

/// An issue that brings the master up to the shelf, a sheet that only the shelf holds, and
/// versions that are equal in their own row alone.
pub fn on_lent_desks() {
    let (mut words, s) = fresh(1, 2, 1, 1);
    words[LAST_ISSUE] = 5;
    put(&mut words, s.master_at(0), &[1, 1, 1, 0]);
    put(&mut words, s.shelf_at(0, 0), &[2, 1, 2, 0]);
    words[s.writer_at(0) + COUNT] = 1;
    words[s.writer_at(0) + WRITER_PAST] = 1;
    for (at, word) in [(STATE, OPEN), (JOBS, 1), (DONE, 1)] {
        words[s.run_at(0) + at] = word;
    }
    put_marks(&mut words, s);
    works_on(&mut words, &["stale 0 -> ok 1", "issue 0 0 1 -> ok 6", "stale 0 -> ok 0"]);
    assert_eq!(s.words(&words, s.master_at(0)), [6, 1, 2, 0]);

    let (mut words, s) = fresh(1, 2, 1, 1);
    put(&mut words, s.shelf_at(0, 0), &[2, 1, 2, 0]);
    put_marks(&mut words, s);
    works_on(&mut words, &["stale 0 -> ok 1"]);

    let (mut words, s) = fresh(2, 2, 1, 1);
    put(&mut words, s.master_at(0), &[1, 1, 1, 0, 0, 0]);
    put(&mut words, s.shelf_at(0, 0), &[2, 2, 1, 0, 3, 4]);
    works_on(&mut words, &["stale 0 -> ok 0"]);
}

/// "Form asks it": on the desk 2 2 1 1 it is word 34.
pub fn asked_by_form() {
    let (mut words, s) = fresh(2, 2, 1, 1);
    assert_eq!(s.stale_at(0), 34);
    works_on(&mut words, &["drop 5 -> refused 3"]);
    for bad in [1, 2, 3, 4, u32::MAX] {
        words[34] = bad;
        all_refuse(&mut words, 1);
        works_on(&mut words, &["drop 5 -> refused 1"]);
    }
    // Two sheets are behind: no part of their mask will do.
    put(&mut words, s.shelf_at(0, 0), &[1, 1, 1, 0, 0, 0]);
    put(&mut words, s.shelf_at(0, 1), &[1, 1, 0, 0, 1, 0]);
    for mark in 0..5 {
        words[34] = mark;
        assert_eq!(in_form(&words).is_some(), mark == 3);
    }
}
