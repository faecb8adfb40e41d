//! The paper's numbers and "Readings that mislead".

use crate::desk::layout::{DONE, JOBS, JOB_LIST, READ, STATE};
use crate::desk::version::{covers, meets, merge, rivals, row};
use crate::desk::*;
use crate::lines::works;

/// A fresh desk of just its total.
pub fn fresh(k: u32, w: u32, n: u32, p: u32) -> (Vec<u32>, Sizes) {
    let s = Sizes::of(k, w, n, p).unwrap();
    let mut words = vec![0; s.total()];
    assert_eq!(new(&mut words, k, w, n, p), Answer::Ok(vec![s.total() as u32]));
    assert_eq!(in_form(&words), Some(s));
    (words, s)
}

pub fn put(words: &mut [u32], at: usize, version: &[u32]) {
    words[at..at + version.len()].copy_from_slice(version);
}

/// Each shelf's mark as form asks it: the held sheets whose own row isn't that of the master.
pub fn put_marks(words: &mut [u32], s: Sizes) {
    for office in 0..s.n {
        let behind = (0..s.k).filter(|k| {
            let shelf = s.words(words, s.shelf_at(office, *k));
            let master = s.words(words, s.master_at(*k));
            shelf[0] != 0 && row(shelf, s.w, *k) != row(master, s.w, *k)
        });
        words[s.stale_at(office)] = behind.fold(0, |mask, k| mask | 1 << k);
    }
}

pub fn sizes() {
    let (words, _) = fresh(2, 2, 1, 1);
    assert_eq!(words[..10], [2, 2, 1, 1, 0, 10, 22, 36, 46, 104]);
    assert_eq!(Sizes::of(32, 16, 8, 8).unwrap().total(), 419_699);
    let total = |k, w, n, p| Sizes::of(k, w, n, p).unwrap().total();
    assert_eq!(total(2, 2, 2, 1), 119);
    assert_eq!(total(2, 1, 1, 1), 80);
    let offsets = |k, w, n, p| Sizes::of(k, w, n, p).unwrap().offsets();
    assert_eq!(offsets(2, 2, 2, 1), [10, 22, 50, 60, 119]);
    assert_eq!(offsets(3, 2, 2, 2), [10, 34, 86, 100, 261]);
    assert_eq!(offsets(1, 1, 1, 1), [10, 13, 18, 20, 59]);
    assert_eq!(offsets(32, 16, 8, 8), [10, 16_458, 148_058, 156_266, 419_699]);
    // No desk takes all that the program lends: the largest that fits, and the next larger one.
    assert_eq!(total(11, 6, 4, 8), 16_379);
    assert_eq!(total(19, 7, 3, 1), 16_385);
    assert_eq!(total(32, 1, 8, 2), 14_273);
    works(&["new 11 6 4 8 -> ok 16379", "new 19 7 3 1 -> refused 1"]);
    works(&["new 32 1 8 2 -> ok 14273", "new 32 1 8 3 -> refused 1"]);
}

/// Marked 1 to 5.
pub fn clocks() {
    assert!(!covers(&[1, 0], &[0, 1]) && !covers(&[0, 1], &[1, 0])); // 1
    assert!(rivals(&[1, 0], &[0, 1]));
    assert!(covers(&[1, 1], &[1, 0]) && covers(&[1, 1], &[0, 1])); // 2
    assert!(covers(&[1, 0], &[1, 0])); // 3
    let mut version = [1, 1, 2, 0];
    merge(&mut version, &[2, 2, 1, 3], 2, 0);
    assert_eq!(version, [2, 3, 2, 3]); // 4
    merge(&mut version, &[0; 4], 2, 0);
    assert_eq!(version, [2, 3, 2, 3]); // 5
    let mut unheld = [0; 4];
    merge(&mut unheld, &version, 2, 0);
    assert_eq!(unheld, [2, 3, 2, 3]);
}

/// Marked 6: u = 0, e = 1, k = 2; u needs e at (1,0), the newer e needs k.
pub fn evict_six() {
    let (mut words, s) = fresh(3, 2, 1, 1);
    put(&mut words, s.shelf_at(0, 0), &[1, 1, 1, 0, 1, 0, 0, 0]);
    put(&mut words, s.shelf_at(0, 1), &[3, 1, 0, 0, 2, 0, 1, 0]);
    put(&mut words, s.shelf_at(0, 2), &[2, 1, 0, 0, 0, 0, 1, 0]);
    put_marks(&mut words, s);
    assert_eq!(evict(&mut words, 0, 2), Answer::Ok(vec![7]));
    assert_eq!(words, fresh(3, 2, 1, 1).0);
}

/// Sheet 0 on the card at (1,0), on the shelf at (2,0), and sheet 1 that needs sheet 0.
fn step_case(need: u32, read: bool) -> (Vec<u32>, Sizes) {
    let (mut words, s) = fresh(2, 2, 1, 1);
    let run = s.run_at(0);
    words[run + STATE] = OPEN;
    words[run + JOBS] = 2;
    words[run + DONE] = u32::from(read);
    words[run + READ] = u32::from(read);
    put(&mut words, run + JOB_LIST, &[0, 1, 0, 0, 2, 0]);
    put(&mut words, s.card_at(0, 0), &[1, 1, 1, 0, 0, 0]);
    put(&mut words, s.shelf_at(0, 0), &[2, 1, 2, 0, 0, 0]);
    put(&mut words, s.shelf_at(0, 1), &[3, 1, need, 0, 3, 0]);
    put_marks(&mut words, s);
    assert!(in_form(&words).is_some());
    (words, s)
}

/// Marked 7: goes through. Marked 8: broken with mask 1. Marked 9: carried, no break.
pub fn steps_seven_to_nine() {
    let (mut words, s) = step_case(1, true);
    assert_eq!(step(&mut words, 0, 1, 0), Answer::Ok(vec![0, 2, 0]));
    assert_eq!(s.words(&words, s.card_at(0, 0)), [1, 1, 1, 0, 0, 0]);
    assert_eq!(s.words(&words, s.card_at(0, 1)), [3, 1, 1, 0, 3, 0]);
    let (mut words, s) = step_case(2, true);
    let mut after = words.clone();
    after[s.run_at(0) + STATE] = BROKEN;
    assert_eq!(step(&mut words, 0, 1, 0), Answer::Broken(1));
    assert_eq!(words, after);
    let (mut words, s) = step_case(2, false);
    assert_eq!(step(&mut words, 0, 1, 0), Answer::Ok(vec![0, 2, 0]));
    assert_eq!(s.words(&words, s.card_at(0, 0)), [2, 1, 2, 0, 0, 0]);
}

/// The card takes the merge, and not a copy: from new the two are the same.
pub fn step_merges() {
    let (mut words, s) = step_case(2, false);
    put(&mut words, s.card_at(0, 0), &[9, 2, 1, 5, 0, 4]);
    assert_eq!(step(&mut words, 0, 1, 0), Answer::Ok(vec![0, 2, 0]));
    assert_eq!(s.words(&words, s.card_at(0, 0)), [9, 3, 2, 5, 0, 4]);
    // A rival on the shelf doesn't meet the need, and is taken all the same.
    let (mut words, s) = step_case(2, false);
    put(&mut words, s.shelf_at(0, 0), &[2, 2, 0, 7, 0, 0]);
    put_marks(&mut words, s);
    assert_eq!(step(&mut words, 0, 1, 0), Answer::Ok(vec![0, 2, 0]));
    assert_eq!(s.words(&words, s.card_at(0, 0)), [2, 3, 1, 7, 0, 0]);
    // A shelf that doesn't hold the needed sheet adds nothing.
    let (mut words, s) = step_case(2, true);
    put(&mut words, s.shelf_at(0, 0), &[0; 6]);
    put_marks(&mut words, s);
    assert_eq!(step(&mut words, 0, 1, 0), Answer::Ok(vec![0, 2, 0]));
    assert_eq!(s.words(&words, s.card_at(0, 0)), [1, 1, 1, 0, 0, 0]);
}

/// The shelf takes a copy of the master's version, and no merge; T has only sheets that the
/// master holds.
pub fn fetch_copies() {
    let (mut words, s) = fresh(3, 1, 1, 1);
    put(&mut words, s.shelf_at(0, 0), &[9, 1, 9, 0, 8]);
    put(&mut words, s.master_at(0), &[2, 1, 3, 4, 0]);
    put_marks(&mut words, s);
    assert_eq!(fetch(&mut words, 0, 0), Answer::Ok(vec![1]));
    assert_eq!(s.words(&words, s.shelf_at(0, 0)), [2, 1, 3, 4, 0]);
    put(&mut words, s.master_at(1), &[1, 1, 0, 1, 5]);
    assert_eq!(fetch(&mut words, 0, 0), Answer::Ok(vec![3]));
    assert_eq!(fetch(&mut words, 0, 2), Answer::Refused(7));
}

/// Marked 10.
pub fn unheld_ten() {
    assert!(!meets(&[0; 4], 2, 0, &[1, 0]));
    assert!(meets(&[1, 1, 1, 0], 2, 0, &[1, 0]));
}

/// New's range, and the jobs of open and step.
pub fn new_and_open() {
    let mut words = vec![7; 420_000];
    for bad in [[0, 1, 1, 1], [33, 1, 1, 1], [1, 17, 1, 1], [1, 1, 9, 1], [1, 1, 1, 9]] {
        let [k, w, n, p] = bad;
        assert_eq!(new(&mut words, k, w, n, p), Answer::Refused(2));
        assert_eq!(new(&mut [], k, w, n, p), Answer::Refused(2)); // 2 before 1
    }
    assert!(words.iter().all(|word| *word == 7));
    assert_eq!(new(&mut words, 1, 1, 1, 1), Answer::Ok(vec![59]));
    assert_eq!(new(&mut words, 32, 16, 8, 8), Answer::Ok(vec![419_699]));
    assert!(words[419_699..].iter().all(|word| *word == 7));
    assert_eq!(new(&mut words[..419_698], 32, 16, 8, 8), Answer::Refused(1));
    assert_eq!(step(&mut words, 0, 0, 0), Answer::Refused(4));
    assert_eq!(open(&mut words, 0, &[0; 27]), Answer::Refused(5));
    assert_eq!(open(&mut words, 0, &[0; 24]), Answer::Ok(vec![8]));
    assert_eq!(issue(&mut words, 0, 0, u32::MAX), Answer::Refused(6)); // K = 32: all bits
}
