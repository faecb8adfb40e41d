//! How two clocks stand, and look's last number on desks that no list of calls leads to.

use crate::desk::layout::{JOBS, JOB_LIST, LAST_ISSUE, STATE};
use crate::desk::version::{compare, covers, rivals, standing_number, Standing};
use crate::desk::*;
use crate::marked::{fresh, put, put_marks};

/// All pairs of clocks of three counts below 3, against document 01's sentences.
pub fn compared() {
    let clocks = (0..27).map(|n: u32| [n / 9, n / 3 % 3, n % 3]).collect::<Vec<[u32; 3]>>();
    for p in &clocks {
        for q in &clocks {
            // "Clock p covers q if every count of p is at least that of q."
            let p_covers = p[0] >= q[0] && p[1] >= q[1] && p[2] >= q[2];
            let q_covers = q[0] >= p[0] && q[1] >= p[1] && q[2] >= p[2];
            let standing = compare(p, q);
            assert_eq!(standing == Standing::Equal, p == q);
            assert_eq!(standing == Standing::Older, q_covers && !p_covers);
            assert_eq!(standing == Standing::Newer, p_covers && !q_covers);
            assert_eq!(standing == Standing::Rival, !p_covers && !q_covers);
            assert_eq!(covers(p, q), p_covers);
            assert_eq!(rivals(p, q), !p_covers && !q_covers);
            assert_eq!(compare(q, p), other_way(standing));
        }
    }
    let numbers = [Standing::Equal, Standing::Older, Standing::Newer, Standing::Rival];
    assert_eq!(numbers.map(standing_number), [0, 1, 2, 3]);
}

/// Older and newer change places.
fn other_way(standing: Standing) -> Standing {
    match standing {
        Standing::Older => Standing::Newer,
        Standing::Newer => Standing::Older,
        same => same,
    }
}

/// A desk of 2 sheets and 2 writers whose master holds sheet 0 at (1,1), and a shelf.
fn lent(shelf: [[u32; 6]; 2]) -> (Vec<u32>, Sizes) {
    let (mut words, s) = fresh(2, 2, 1, 1);
    words[LAST_ISSUE] = 9;
    put(&mut words, s.master_at(0), &[3, 2, 1, 1, 0, 0]);
    put(&mut words, s.shelf_at(0, 0), &shelf[0]);
    put(&mut words, s.shelf_at(0, 1), &shelf[1]);
    put_marks(&mut words, s);
    assert!(in_form(&words).is_some());
    (words, s)
}

/// A look that is answered `ok` with these numbers and changes nothing.
fn looks(words: &[u32], place: u32, sheet: u32, answer: [u32; 5]) {
    let mut after = words.to_vec();
    assert_eq!(look(&mut after, place, 0, sheet), Answer::Ok(answer.to_vec()));
    assert_eq!(after, words);
}

/// A rival, a version of a sheet that the master lacks, and the master itself; then own rows
/// that are equal, newer and older, whatever number, leaders and needs go with them.
pub fn looked() {
    const NONE: [u32; 6] = [0; 6];
    let (words, _) = lent([[7, 1, 2, 0, 0, 5], [1, 3, 0, 0, 0, 1]]);
    looks(&words, 1, 0, [7, 1, 2, 0, 3]);
    looks(&words, 1, 1, [1, 3, 0, 1, 2]);
    looks(&words, 0, 0, [3, 2, 1, 1, 0]);
    for (shelf, answer) in [
        ([7, 1, 1, 1, 4, 5], [7, 1, 1, 1, 0]),
        ([1, 2, 2, 1, 0, 0], [1, 2, 2, 1, 2]),
        ([9, 3, 0, 1, 0, 0], [9, 3, 0, 1, 1]),
    ] {
        let (words, _) = lent([shelf, NONE]);
        looks(&words, 1, 0, answer);
    }
}

/// A card is compared with the master too, and each sheet with the master's version of it.
pub fn looked_at_card() {
    let (mut words, s) = lent([[3, 2, 1, 1, 0, 0], [6, 2, 0, 0, 0, 4]]);
    put(&mut words, s.master_at(1), &[5, 1, 7, 7, 1, 2]);
    put_marks(&mut words, s);
    let run = s.run_at(0);
    words[run + STATE] = OPEN;
    words[run + JOBS] = 1;
    put(&mut words, run + JOB_LIST, &[0, 3, 0]);
    put(&mut words, s.card_at(0, 0), &[4, 2, 0, 1, 0, 0]);
    put(&mut words, s.card_at(0, 1), &[4, 3, 0, 0, 1, 2]);
    looks(&words, 0, 1, [5, 1, 1, 2, 0]);
    looks(&words, 1, 0, [3, 2, 1, 1, 0]);
    looks(&words, 1, 1, [6, 2, 0, 4, 3]);
    looks(&words, 2, 0, [4, 2, 0, 1, 1]);
    looks(&words, 2, 1, [4, 3, 1, 2, 0]);
}
