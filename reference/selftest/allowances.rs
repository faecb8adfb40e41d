//! Shelf allowances on the examples worked out for them.

use crate::desk::*;
use crate::forms::all_refuse;
use crate::lines::{works, works_on};
use crate::marked::{fresh, put, put_marks};

/// "The choice that decides a break is looked for only when the fetch fits."
pub fn before_a_break() {
    works(&[
        "new 2 1 2 2",
        "save 0 0 1",
        "open 0 0 1 0 1 2 0",
        "step 0 0 -> ok 0 0 1",
        "save 1 0 3",
        "allow 1 1 -> ok 0",
        "explain 0 1 -> refused 12",
        "step 0 1 -> refused 12",
        "fetch 1 1 -> refused 12",
        "allow 1 2 -> ok 0",
        "explain 0 1 -> path 1 0",
        "step 0 1 -> broken 1",
        "look 1 1 1 -> refused 8",
    ]);
}

/// What would be held counts, and not T: a sheet of T that is held takes no further place.
pub fn held_sheets() {
    works(&[
        "new 3 1 1 2",
        "save 0 0 3",
        "save 0 0 4",
        "allow 0 4 -> refused 3",
        "allow 1 0 -> refused 3",
        "allow 0 1 -> ok 0",
        "fetch 0 0 -> refused 12",
        "allow 0 2 -> ok 0",
        "fetch 0 0 -> ok 3",
        "fetch 0 0 -> ok 1",
        "fetch 0 2 -> refused 12",
        "allow 0 1 -> refused 12",
        "allow 0 2 -> ok 0",
        "evict 0 1 -> ok 3",
        "allow 0 0 -> ok 0",
    ]);
}

/// Each job alone would fit; and 7 comes before 12.
pub fn of_all_jobs() {
    works(&[
        "new 4 2 2 2",
        "save 0 0 1",
        "save 0 1 2",
        "allow 0 1 -> ok 0",
        "open 0 0 1 0 0 2 0",
        "prepare 0 -> refused 12",
        "look 1 0 0 -> refused 8",
        "step 0 0 -> ok 0 0 1",
        "step 0 1 -> refused 12",
        "evict 0 0",
        "step 0 1 -> ok 0 0 2",
        "open 1 0 4 0 0 3 0",
        "prepare 1 -> refused 7",
        "fetch 0 3 -> refused 7",
    ]);
}

/// "Any shelf": the first office takes nothing either. New sets the allowances back.
pub fn of_any_shelf() {
    works(&[
        "new 2 1 2 1",
        "save 0 0 3",
        "allow 1 1 -> ok 0",
        "open 0 0 3 0 1 3 0",
        "prepare 0 -> refused 12",
        "look 1 0 0 -> refused 8",
        "allow 1 2 -> ok 0",
        "prepare 0 -> ok 3",
        "new 2 1 2 1",
        "allow 0 0 -> ok 0",
        "new 2 1 2 1",
        "save 0 0 1",
        "fetch 0 0 -> ok 1",
    ]);
}

/// An allowance above K, or below the number held, isn't in form. On the desk 2 2 1 1 it is word 35.
pub fn asked_by_form() {
    let (mut words, s) = fresh(2, 2, 1, 1);
    assert_eq!((s.allowance_at(0), words[35]), (35, 2));
    for (held, least) in [(0, 0), (1, 1), (2, 2)] {
        for k in 0..held {
            put(&mut words, s.shelf_at(0, k), &[1, 1, 1, 0, 1, 0]);
        }
        put_marks(&mut words, s);
        for allowance in [0, 1, 2, 3, u32::MAX] {
            words[35] = allowance;
            let stands = (least..=2).contains(&allowance);
            assert_eq!(in_form(&words).is_some(), stands, "{held} held, allowed {allowance}");
            if !stands {
                all_refuse(&mut words, 1);
            }
        }
        words[35] = 2;
        works_on(&mut words, &["drop 5 -> refused 3"]);
    }
}
