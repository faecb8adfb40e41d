//! Admission on the examples worked out for it, the later calls by the book that begins there too.
//! A version is (number; mask; rows).

use crate::desk::layout::{COUNT, DONE, JOBS, JOB_LIST, LAST_ISSUE, READ, STATE, WRITER_PAST};
use crate::desk::*;
use crate::lines::{works, works_admitted, works_on};
use crate::marked::{fresh, put, put_marks};

/// By text alone: in the program admit follows new.
pub fn in_the_program() {
    works(&["admit -> refused 1", "new 2 1 1 1", "admit -> ok 0"]);
}

/// The desk 2 1 1 1 that is taken; the card's need of sheet 0 lies outside the plan.
fn taken() -> (Vec<u32>, Sizes) {
    let (mut words, s) = fresh(2, 1, 1, 1);
    words[LAST_ISSUE] = 2;
    for at in [s.master_at(0), s.shelf_at(0, 0)] {
        put(&mut words, at, &[1, 1, 1, 0, 2, 1, 1, 2]);
    }
    put(&mut words, s.writer_at(0), &[2, 1, 2]);
    put(&mut words, s.run_at(0), &[1, 1, 0, 0, 0, 2, 0]);
    put(&mut words, s.card_at(0, 1), &[2, 1, 1, 2]);
    works_on(&mut words, &["admit -> ok 0"]);
    (words, s)
}

/// The desk word by word, and what one change each makes of it. "11, from admission alone": a fetch
/// is answered all the same.
pub fn one_change_each() {
    let (words, s) = taken();
    let mut due = vec![2, 1, 1, 1, 2, 10, 18, 28, 31, 80, 1, 1, 1, 0, 2, 1, 1, 2];
    due.extend([1, 1, 1, 0, 2, 1, 1, 2, 0, 2, 2, 1, 2, 1, 1, 0, 0, 0, 2, 0]);
    due.extend([0; 21]);
    due.extend([0, 0, 0, 0, 2, 1, 1, 2]);
    due.extend([0; 10]);
    due.extend([0, 3, 3]);
    assert_eq!(words, due);
    let (last, own) = (LAST_ISSUE, s.master_at(0) + 2);
    let (shelf, stale, card) = (s.shelf_at(0, 0), s.stale_at(0), s.card_at(0, 1));
    let (count, past) = (s.writer_at(0) + COUNT, s.writer_at(0) + WRITER_PAST);
    let (state, reads) = (s.run_at(0) + STATE, s.run_at(0) + JOB_LIST + 1);
    let changes: [(&[(usize, u32)], u32); 14] = [
        (&[(last, 1)], 11),
        (&[(last, 3)], 0),
        (&[(count, 1)], 11),
        (&[(past, 2)], 11),
        (&[(past, 0)], 0),
        (&[(shelf, 0), (shelf + 1, 0), (shelf + 2, 0)], 11),
        (&[(reads, 3)], 11),
        (&[(reads, 3), (state, 2)], 11),
        (&[(card, 3)], 11),
        (&[(card + 2, 2)], 11),
        (&[(shelf, 2)], 0),
        (&[(stale, 1)], 1),
        (&[(own, 2), (stale, 1)], 0),
        (&[(own, 3), (stale, 1)], 11),
    ];
    for (change, refusal) in changes {
        let mut words = words.clone();
        change.iter().for_each(|(at, word)| words[*at] = *word);
        let due = if refusal == 0 { Answer::Ok(vec![0]) } else { Answer::Refused(refusal) };
        assert_eq!(admit(&words), due, "{change:?}");
        if refusal == 11 {
            works_on(&mut words, &["fetch 0 0 -> ok 1"]);
        }
    }
}

/// A desk 3 1 1 1 whose open run has read an old sheet 0; sheet 2 is as given.
fn read_an_old_one(two: [u32; 5]) -> Vec<u32> {
    let (mut words, s) = fresh(3, 1, 1, 1);
    words[LAST_ISSUE] = 3;
    put(&mut words, s.master_at(0), &[2, 1, 2, 0, 0]);
    put(&mut words, s.master_at(1), &[3, 1, 2, 1, 0]);
    put(&mut words, s.master_at(2), &two);
    words[s.writer_at(0) + COUNT] = 2;
    for (at, word) in [(STATE, OPEN), (JOBS, 2), (DONE, 1), (READ, 1)] {
        words[s.run_at(0) + at] = word;
    }
    put(&mut words, s.run_at(0) + JOB_LIST, &[0, 1, 0, 0, 4, 0]);
    put(&mut words, s.card_at(0, 0), &[1, 1, 1, 0, 0]);
    words
}

/// Lists "aren't chained through another copy's list": sheet 2 lists 1 alone, and the master's 1
/// needs a newer 0 than was read.
pub fn not_chained() {
    let mut words = read_an_old_one([1, 1, 0, 1, 1]);
    works_admitted(
        &mut words,
        &[
            "explain 0 1 -> clear",
            "step 0 1 -> ok 0 0 4",
            "look 2 0 0 -> ok 1 1 1 1",
            "issue 0 0 2 -> ok 4",
            "admit -> ok 0",
        ],
    );
    let s = Sizes::of(3, 1, 1, 1).unwrap();
    assert_eq!(s.words(&words, s.master_at(1))[2..], [2, 3, 1]);
    assert_eq!(s.writer_past(&words, 0), [1, 3, 1]);
    let mut listed = read_an_old_one([1, 1, 2, 1, 1]);
    works_admitted(&mut listed, &["explain 0 1 -> path 2 0", "step 0 1 -> broken 1"]);
}

/// "Behind a writer's next issue also those in that writer's past", and nobody else's.
pub fn behind_the_next_issue() {
    let (mut words, s) = fresh(2, 2, 1, 1);
    words[LAST_ISSUE] = 3;
    put(&mut words, s.master_at(0), &[3, 1, 2, 0, 0, 0]);
    words[s.writer_at(0) + COUNT] = 2;
    put(&mut words, s.writer_at(1), &[1, 2, 0]);
    put_marks(&mut words, s);
    works_admitted(&mut words.clone(), &["save 0 1 2", "fetch 0 1 -> ok 3"]);
    works_admitted(
        &mut words,
        &["save 0 0 2", "look 0 0 1 -> ok 4 1 3 0 0", "fetch 0 1 -> ok 2"],
    );
}
