//! "A desk is in form": what is tested, what is free, and refusals 9 and 10.

use crate::desk::layout::{DONE, JOBS, JOB_LIST, LAST_ISSUE, LEADERS, PAST, READ, STATE};
use crate::desk::*;
use crate::marked::fresh;

/// A desk of 2 sheets, 2 writers, 2 offices and 2 runs; run 0 has done its first job.
fn worked() -> (Vec<u32>, Sizes) {
    let (mut words, s) = fresh(2, 2, 2, 2);
    assert_eq!(open(&mut words, 0, &[0, 0, 0]), Answer::Ok(vec![1]));
    assert_eq!(step(&mut words, 0, 0, 0), Answer::Ok(vec![0, 0, 0]));
    assert_eq!(issue(&mut words, 0, 0, 3), Answer::Ok(vec![1]));
    assert_eq!(open(&mut words, 0, &[0, 1, 0, 1, 2, 1]), Answer::Ok(vec![2]));
    assert_eq!(step(&mut words, 0, 0, 0), Answer::Ok(vec![0, 0, 1]));
    (words, s)
}

/// Words that a desk in form may have with any number in them.
pub fn free_words() {
    let (mut words, s) = worked();
    words[LAST_ISSUE] = 77;
    words[s.writers()..s.runs()].fill(9);
    words[s.master_at(0)] = 1_000_000;
    words[s.run_at(0) + STATE] = BROKEN;
    // What is on a card may be barred, and what was saved too.
    words[s.mayhold_at(1)] = 0;
    words[s.maysave_at(0)] = 0;
    assert_eq!(in_form(&words), Some(s));
    // A writer may lead without a count.
    for mask in [1, 2, 3] {
        words[s.master_at(0) + LEADERS] = mask;
        words[s.card_at(0, 0) + LEADERS] = mask;
        assert_eq!(in_form(&words), Some(s));
    }
    // A done job's upstream need not be done.
    let run = s.run_at(0);
    words[run + DONE] = 2;
    words[run + READ] = 2;
    assert_eq!(in_form(&words), Some(s));
    words.extend_from_slice(&[5, 5, 5]);
    assert_eq!(in_form(&words), Some(s));
}

/// Each change of one word takes the form away, and then every call but new gives 1.
pub fn bad_words() {
    let (words, s) = worked();
    let (run, second, row) = (s.run_at(0), s.run_at(1), PAST + s.w);
    let mut changes = vec![(0, 0), (0, 33), (1, 17), (2, 9), (3, u32::MAX), (0, 3), (9, 0)];
    changes.extend((5..10).map(|place| (place, words[place] + 1)));
    changes.extend([(s.master_at(0), 0), (s.master_at(1) + row, 0), (s.shelf_at(1, 0) + 4, 1)]);
    changes.extend([(s.shelf_at(1, 1), 5), (second + STATE, 1), (second + STATE, 3)]);
    changes.extend([(second + READ, 1), (s.card_at(1, 1), 1), (run + STATE, 0), (run + STATE, 3)]);
    changes.extend([(run + JOBS, 0), (run + JOBS, 1), (run + JOBS, 9), (run + JOBS, u32::MAX)]);
    changes.extend([(run + DONE, 5), (run + DONE, 0), (run + READ, 0), (run + READ, 3)]);
    changes.extend([(run + JOB_LIST, 2), (run + JOB_LIST + 1, 4), (run + JOB_LIST + 2, 1)]);
    changes.extend([(run + JOB_LIST + 5, 2), (run + JOB_LIST + 6, 1), (run + 27, 1)]);
    changes.extend([(run + JOB_LIST + 1, 0), (s.card_at(0, 0), 0), (run + JOB_LIST + 4, 0)]);
    let [card, next] = [0, 1].map(|k| s.card_at(0, k));
    changes.extend([(card + PAST, 0), (next, 0), (next + row, 0)]);
    // Masks of held versions, then of unheld ones.
    for at in [s.master_at(1), s.shelf_at(0, 0), s.card_at(0, 0)] {
        changes.extend([0, 4, 7, 1 << 31].map(|mask| (at + LEADERS, mask)));
    }
    for at in [s.shelf_at(1, 0), s.card_at(1, 0)] {
        changes.push((at + LEADERS, 1));
    }
    changes.extend([(s.stale_at(0), 1), (s.stale_at(0), u32::MAX), (s.stale_at(1), 2)]);
    for (at, word) in changes {
        let mut bad = words.clone();
        bad[at] = word;
        assert_eq!(in_form(&bad), None, "word {at} set to {word}");
        all_refuse(&mut bad, 1);
    }
    let mut bad = words.clone();
    bad[s.card_at(0, 0)..s.card_at(0, 1)].fill(0); // read, but not on the card
    assert_eq!(in_form(&bad), None);
    all_refuse(&mut bad, 1);
    assert_eq!(in_form(&words[..s.total() - 1]), None);
    all_refuse(&mut words[..9].to_vec(), 1);
    all_refuse(&mut [], 1);
}

/// Every call but new is refused with the number, whatever it asks, and changes nothing.
pub fn all_refuse(words: &mut [u32], number: u32) {
    let before = words.to_vec();
    let far = u32::MAX;
    for x in [0, far] {
        assert_eq!(open(words, x, &[]), Answer::Refused(number));
        assert_eq!(fetch(words, x, x), Answer::Refused(number));
        assert_eq!(evict(words, x, x), Answer::Refused(number));
        assert_eq!(prepare(words, x), Answer::Refused(number));
        assert_eq!(step(words, x, x, x), Answer::Refused(number));
        assert_eq!(issue(words, x, x, x), Answer::Refused(number));
        assert_eq!(drop_run(words, x), Answer::Refused(number));
        assert_eq!(look(words, x, x, x), Answer::Refused(number));
        assert_eq!(explain(words, x, x, x), Answer::Refused(number));
        assert_eq!(stale(words, x), Answer::Refused(number));
        assert_eq!(admit(words), Answer::Refused(number));
        assert_eq!(allow(words, x, x), Answer::Refused(number));
        assert_eq!(pick(words), Answer::Refused(number));
        assert_eq!(mayhold(words, x, x), Answer::Refused(number));
        assert_eq!(maysave(words, x, x), Answer::Refused(number));
        assert_eq!(fork(words, x), Answer::Refused(number));
        assert_eq!(join(words, x), Answer::Refused(number));
        assert_eq!(forecast(words, &mut [0; 2000], x), Answer::Refused(number));
    }
    assert_eq!(words, before);
}

/// Refusals 9 and 10, and 9 before 10; an empty mask skips both.
pub fn spent_counts() {
    let (mut words, s) = worked();
    assert_eq!(step(&mut words, 0, 1, 0), Answer::Ok(vec![2, 0, 0]));
    let ready = words.clone();
    words[LAST_ISSUE] = u32::MAX;
    words[s.writer_at(1)] = u32::MAX;
    let spent = words.clone();
    assert_eq!(issue(&mut words, 0, 1, 1), Answer::Refused(9));
    assert_eq!(words, spent);
    words[LAST_ISSUE] = u32::MAX - 1;
    assert_eq!(issue(&mut words, 0, 1, 1), Answer::Refused(10));
    assert_eq!(issue(&mut words.clone(), 0, 0, 1), Answer::Ok(vec![u32::MAX]));
    assert_eq!(issue(&mut spent.clone(), 0, 1, 0), Answer::Ok(vec![0]));
    words = ready;
    words[s.writer_at(1)] = u32::MAX - 1;
    assert_eq!(issue(&mut words, 0, 1, 2), Answer::Ok(vec![2]));
    assert_eq!(words[s.writer_at(1)], u32::MAX);
    // Both sheets were read at (1,0): that went into the writer's past.
    assert_eq!(s.writer_past(&words, 1), [1, 0, 1, u32::MAX]);
    assert_eq!(s.words(&words, s.master_at(1)), [2, 2, 1, 0, 1, u32::MAX]);
}
