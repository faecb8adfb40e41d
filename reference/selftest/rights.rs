//! Rights on the examples worked out for them. A version is (number; mask; rows).

use crate::desk::layout::{DONE, JOBS, LAST_ISSUE, STATE};
use crate::desk::*;
use crate::forms::all_refuse;
use crate::lines::{works, works_on};
use crate::marked::{fresh, put, put_marks};
use crate::text::read_line;

/// "By the evict rule": both sheets needed 0. A barred sheet in T stops the fetch.
pub fn taken_from_a_shelf() {
    works(&[
        "new 3 1 2 1",
        "save 0 0 1",
        "edit 0 0 1 0 2",
        "save 0 0 4",
        "fetch 0 2 -> ok 6",
        "fetch 1 0 -> ok 1",
        "mayhold 0 6 -> ok 0",
        "look 1 0 2 -> refused 8",
        "look 1 0 1 -> refused 8",
        "look 1 1 0 -> ok 1 1 1 0",
        "mayhold 0 8 -> refused 3",
        "mayhold 2 0 -> refused 3",
        "fetch 0 1 -> refused 13",
        "fetch 0 0 -> refused 13",
        "mayhold 0 7 -> ok 0",
        "fetch 0 1 -> ok 3",
    ]);
}

/// 13 of any job comes before 7 of another, and 13 before 12.
pub fn before_the_master() {
    works(&[
        "new 2 1 1 1",
        "mayhold 0 2 -> ok 0",
        "fetch 0 0 -> refused 13",
        "fetch 0 1 -> refused 7",
        "fetch 0 2 -> refused 3",
        "open 0 0 2 0 0 1 0",
        "prepare 0 -> refused 13",
        "step 0 0 -> refused 7",
        "step 0 1 -> refused 13",
        "drop 0",
        "allow 0 0 -> ok 0",
        "save 0 0 3",
        "fetch 0 1 -> refused 13",
        "mayhold 0 3 -> ok 0",
        "fetch 0 1 -> refused 12",
        "allow 0 2 -> ok 0",
        "fetch 0 1 -> ok 3",
    ]);
}

/// The master lacks 0; 1 draws in 2, which the job doesn't read.
pub fn of_sheets_in_t() {
    works(&[
        "new 3 1 1 1",
        "save 0 0 6",
        "mayhold 0 3 -> ok 0",
        "open 0 0 3 0",
        "step 0 0 -> refused 13",
        "prepare 0 -> refused 13",
        "mayhold 0 7 -> ok 0",
        "step 0 0 -> refused 7",
        "prepare 0 -> refused 7",
    ]);
}

/// The second office's right; the first takes nothing either, and may hold both.
pub fn of_any_office() {
    works(&[
        "new 2 1 2 1",
        "save 0 0 3",
        "mayhold 1 1 -> ok 0",
        "open 0 0 3 0 1 2 0",
        "prepare 0 -> refused 13",
        "look 1 0 0 -> refused 8",
        "step 0 0 -> ok 0 0 3",
        "step 0 1 -> refused 13",
        "drop 0",
        "open 0 0 3 0 1 0 0",
        "prepare 0 -> ok 3",
        "new 2 1 2 1",
        "save 0 0 3",
        "fetch 1 1 -> ok 3",
    ]);
}

/// "A card may carry it from elsewhere; a job may not read it at that office, even from the card."
pub fn even_from_the_card() {
    works(&[
        "new 2 1 2 1",
        "save 0 0 1",
        "open 0 0 1 0 1 1 0",
        "step 0 0",
        "mayhold 1 2 -> ok 0",
        "look 2 0 0 -> ok 1 1 1 0",
        "explain 0 1 -> refused 13",
        "step 0 1 -> refused 13",
        "mayhold 1 1 -> ok 0",
        "step 0 1 -> ok 1 0 0",
    ]);
}

/// 6 before 13; nothing needs no right; a sheet that it may not save, it may read.
pub fn to_save() {
    works(&[
        "new 2 2 1 1",
        "maysave 0 2 -> ok 0",
        "maysave 2 0 -> refused 3",
        "maysave 0 4 -> refused 3",
        "open 0 0 0 0",
        "issue 0 0 1 -> refused 6",
        "step 0 0",
        "issue 0 0 1 -> refused 13",
        "issue 0 0 3 -> refused 13",
        "issue 0 0 0 -> ok 0",
        "save 0 1 1",
        "open 0 0 1 0",
        "step 0 0",
        "issue 0 0 2 -> ok 2",
    ]);
}

/// K = 32: a mask of all bits.
pub fn of_all_sheets() {
    works(&[
        "new 32 1 1 1 -> ok 4430",
        "mayhold 0 2147483647 -> ok 0",
        "save 0 0 2147483648",
        "fetch 0 31 -> refused 13",
        "mayhold 0 4294967295 -> ok 0",
        "fetch 0 31 -> ok 2147483648",
        "mayhold 0 2147483647 -> ok 0",
        "look 1 0 31 -> refused 8",
        "maysave 0 2147483647 -> ok 0",
        "open 0 0 0 0",
        "step 0 0",
        "issue 0 0 2147483648 -> refused 13",
    ]);
    assert_eq!(read_line(b"mayhold 0 4294967296"), None);
    let (words, s) = fresh(32, 16, 8, 8);
    assert!(words[s.round_at() + 1..].iter().all(|mask| *mask == u32::MAX));
}

/// On a shelf that is no cut (1 is held and needs 0, which isn't) only held sheets start E: 1
/// stays. With 1 barred it leaves, and its mark.
pub fn of_held_sheets_alone() {
    let (mut words, s) = fresh(2, 2, 1, 1);
    put(&mut words, s.shelf_at(0, 1), &[1, 1, 1, 0, 1, 0]);
    put_marks(&mut words, s);
    let mut due = words.clone();
    due[s.mayhold_at(0)] = 2;
    works_on(&mut words, &["stale 0 -> ok 2", "mayhold 0 2 -> ok 0"]);
    assert_eq!(words, due);
    works_on(&mut words, &["mayhold 0 1 -> ok 0", "stale 0 -> ok 0"]);
    let mut due = fresh(2, 2, 1, 1).0;
    due[s.mayhold_at(0)] = 1;
    assert_eq!(words, due);
}

/// 13 before 9 and 10, and none of them for an issue of nothing.
pub fn after_the_turn() {
    let (mut words, s) = fresh(2, 2, 1, 1);
    words[LAST_ISSUE] = u32::MAX;
    words[s.writer_at(0)] = u32::MAX;
    for (at, word) in [(STATE, OPEN), (JOBS, 1), (DONE, 1)] {
        words[s.run_at(0) + at] = word;
    }
    let lines = ["maysave 0 1 -> ok 0", "issue 0 0 2 -> refused 13", "issue 0 0 1 -> refused 9"];
    works_on(&mut words, &lines);
    works_on(&mut words, &["maysave 0 0 -> ok 0", "issue 0 0 0 -> ok 0"]);
}

/// "All sheets on a new desk; the words follow the round's, offices first": on the desk 2 2 1 1
/// words 101, 102 and 103. A bit at K, or a held sheet that is barred, isn't in form.
pub fn asked_by_form() {
    let (mut words, s) = fresh(2, 2, 1, 1);
    assert_eq!((s.mayhold_at(0), s.maysave_at(0), s.maysave_at(1)), (101, 102, 103));
    assert_eq!(words[100..], [0, 3, 3, 3]);
    for at in 101..104 {
        for mask in [0, 1, 2, 3, 4, 7, 1 << 31, u32::MAX] {
            words[at] = mask;
            assert_eq!(in_form(&words).is_some(), mask <= 3, "word {at} set to {mask}");
            if mask > 3 {
                all_refuse(&mut words, 1);
            }
        }
        words[at] = 3;
    }
    // The second office holds sheet 1.
    let (mut words, s) = fresh(2, 2, 2, 1);
    put(&mut words, s.shelf_at(1, 1), &[1, 1, 0, 0, 1, 0]);
    put_marks(&mut words, s);
    for (one, other) in (0..4).flat_map(|one| (0..4).map(move |other| (one, other))) {
        words[s.mayhold_at(0)] = one;
        words[s.mayhold_at(1)] = other;
        assert_eq!(in_form(&words).is_some(), other >= 2);
        if other < 2 {
            all_refuse(&mut words, 1);
        }
    }
}
