//! Audit: its refusal, what it answers, and that record, desk and the answer's other words stay.

use crate::library;
use crate::text::Call;
use crate::trials::{Desk, Trials, ANSWER, GUARD, MARK};

pub fn of_all(t: &mut Trials) {
    of_examples(t);
    of_parts(t);
    of_the_answer(t);
    of_any_desk(t);
    of_words(t);
    of_a_long_one(t);
}

const REFUSED: [u32; 2] = [2, 15];

// Lends so many words of a record, with an answer slice that has more than it needs.
fn told(t: &mut Trials, what: &str, record: &[u32], len: usize, due: &[u32]) {
    let mut words = record.to_vec();
    words.extend([MARK; GUARD]);
    let (before, mut answer) = (words.clone(), vec![MARK; ANSWER + GUARD]);
    let count = library::audit(&words[..len], &mut answer) as usize;
    let kept = answer[count..].iter().all(|word| *word == MARK) && words == before;
    if &answer[..count] != due {
        println!("  {record:?}: {:?}", &answer[..count]);
    }
    t.check(&format!("audit, {what}"), &answer[..count] == due && kept);
}

fn whole(t: &mut Trials, what: &str, record: &[u32], due: &[u32]) {
    told(t, what, record, record.len(), due);
}

// Case A's record.
const CASE_A: [u32; 18] = [2, 2, 2, 1, 7, 15, 18, 0, 3, 0, 0, 1, 2, 0, 1, 0, 1, 0];
// One sheet, two writers; writer 1 had read the save that the last read lacks.
const LACKS: [u32; 25] = [1, 2, 3, 2, 7, 19, 25, 0, 1, 0, 0, 1, 1, 0, 1, 0, 1, 1, 1, 0, 1, 0, 0, 0, 1];
// A chain of two issues that aren't read.
const CHAIN: [u32; 43] = [
    3, 3, 5, 4, 7, 27, 43, 0, 1, 0, 0, 0, 1, 0, 0, 1, 2, 0, 1, 2, 4, 1, 1, 0, 1, 2, 2, 0, 2, 0, 0, 1, 0, 1, 0, 2, 0, 0, 1, 0, 1,
    0, 0,
];

// The record with this word at this place.
fn with(record: &[u32], at: usize, word: u32) -> Vec<u32> {
    let mut words = record.to_vec();
    words[at] = word;
    words
}

fn of_examples(t: &mut Trials) {
    whole(t, "case A", &CASE_A, &[0, 0]);
    whole(t, "no issue", &[1, 1, 0, 0, 7, 7, 7], &[0, 0]);
    whole(t, "no issue, words behind it", &[1, 1, 0, 0, 7, 7, 7, 99, 99], &[0, 0]);
    whole(t, "a save lacks", &LACKS, &[0, 3]);
    whole(t, "none lacks", &with(&LACKS, 23, 1), &[0, 0]);
    whole(t, "a chain", &CHAIN, &[0, 5]);
    whole(t, "a chain, all read", &with(&CHAIN, 40, 2), &[0, 0]);
    whole(t, "unlike counts of rivals", &[1, 2, 3, 2, 7, 19, 25, 0, 1, 0, 0, 1, 1, 0, 0, 0, 1, 0, 2, 0, 1, 0, 0, 0, 1], &[0, 3]);
    whole(t, "equal counts", &[1, 1, 3, 2, 7, 19, 23, 0, 1, 0, 0, 0, 1, 0, 0, 0, 1, 0, 2, 0, 1, 0, 1], &[0, 0]);
    whole(t, "one issue's two sheets", &[2, 1, 3, 2, 7, 19, 23, 0, 1, 0, 0, 0, 3, 0, 0, 0, 1, 0, 2, 0, 1, 1, 2], &[0, 3]);
    let later = [2, 1, 4, 2, 7, 23, 27, 0, 1, 0, 0, 0, 3, 0, 0, 0, 1, 0, 2, 0, 0, 2, 0, 0, 1, 1, 2];
    whole(t, "a fault behind an issue that is no snapshot", &later, &REFUSED);
    whole(t, "without the fault", &with(&later, 20, 1), &[0, 3]);
}

// All its words are there, or it is refused, though the rest lies behind what is lent.
fn of_parts(t: &mut Trials) {
    for record in [&CASE_A[..], &LACKS, &CHAIN, &[1, 1, 0, 0, 7, 7, 7]] {
        for len in 0..record.len() {
            told(t, "15, lent in part", record, len, &REFUSED);
        }
    }
}

// With too short an answer slice nothing is written.
fn of_the_answer(t: &mut Trials) {
    for record in [&CASE_A[..], &LACKS, &[]] {
        for room in [0, 1, 2, 39] {
            let mut answer = vec![5; room];
            let count = library::audit(record, &mut answer);
            t.check("audit, a short answer slice", count == 0 && answer == vec![5; room]);
        }
        let mut answer = vec![5; ANSWER];
        t.check("audit, an answer slice of 40 words", library::audit(record, &mut answer) == 2 && answer[2..] == [5; 38]);
    }
}

// It is answered the same on any desk and none, and leaves it.
fn of_any_desk(t: &mut Trials) {
    for desk in &mut [Desk::of(0, 7), Desk::of(300, 0), Desk::of(300, u32::MAX), Desk::fresh([2, 2, 2, 1])] {
        t.told("audit, any desk", desk, Call::Audit(LACKS.to_vec()), &[0, 3]);
        t.refused("audit 15, any desk", desk, Call::Audit(vec![]), 15);
    }
}

// One word of case A's record changed, such that it is readable no more.
fn of_words(t: &mut Trials) {
    let changes = [
        // K, W, issues, reads, offsets and total.
        (0, 0), (0, 1), (0, 33), (0, u32::MAX), (1, 0), (1, 1), (1, 3), (1, 17), (2, 1), (2, 3), (2, 2 + (1 << 30)), (3, 0), (3, 2),
        (3, u32::MAX), (4, 6), (4, 8), (5, 14), (5, 16), (6, 17), (6, 19), (6, 0),
        // The first issue, then the second: writer, saved mask, first read, number of reads.
        (7, 2), (7, u32::MAX), (8, 0), (8, 2), (8, 4), (8, 1 << 31), (9, 1), (9, u32::MAX), (10, 1), (10, u32::MAX),
        (11, 2), (12, 0), (12, 5), (13, 1), (14, 0), (14, 2), (14, u32::MAX),
        // The read: a sheet that there isn't, zeros only, beyond the writers' issues.
        (15, 2), (15, u32::MAX), (16, 0), (16, 2), (16, u32::MAX), (17, 1),
    ];
    for (at, word) in changes {
        whole(t, &format!("15, word {at} is {word}"), &with(&CASE_A, at, word), &REFUSED);
    }
    // The sheet is another one of the counted issue; then one that this hasn't saved.
    whole(t, "the other sheet", &with(&CASE_A, 15, 1), &[0, 0]);
    let alone = with(&CASE_A, 8, 1);
    whole(t, "one sheet saved", &alone, &[0, 0]);
    whole(t, "15, a sheet that wasn't saved", &with(&alone, 15, 1), &REFUSED);
    // Would fit if sums wrapped.
    for head in [[1, 1, 1 << 30, 0, 7, 7, 7], [1, 3, 0, 1 << 30, 7, 7, 7], [1, 15, 0, 1 << 28, 7, 7, 7], [1, 1, 0, 1 << 31, 7, 7, 7]] {
        whole(t, "15, no wrap", &head, &REFUSED);
    }
    let half = 1 << 31;
    whole(t, "15, no wrap of all", &[1, 1, 1, half, 7, 11, 11, 0, 1, 0, half], &REFUSED);
    whole(t, "15, no wrap of reads", &[1, 1, 2, 0, 7, 15, 15, 0, 1, 0, half, 0, 1, half, half], &REFUSED);
    // The largest counts.
    let mut wide = vec![32, 16, 2, 1, 7, 15, 32, 15, 1 << 31, 0, 0, 0, u32::MAX, 0, 1, 31];
    wide.extend([0; 15].into_iter().chain([1]));
    whole(t, "32 sheets, 16 writers", &wide, &[0, 0]);
    whole(t, "15, 31 sheets", &with(&wide, 0, 31), &REFUSED);
}

// Issues one after the other, each with all saves before it in its read; the last but one may have fewer.
fn of_a_long_one(t: &mut Trials) {
    let issues: u32 = 2000;
    let (from, total) = (7 + 4 * issues, 7 + 4 * issues + 3 * (issues - 1));
    let mut words = vec![1, 2, issues, issues - 1, 7, from, total];
    words.extend((0..issues).flat_map(|at| [at % 2, 1, at.saturating_sub(1), u32::from(at > 0)]));
    words.extend((1..issues).flat_map(|at| [0, at.div_ceil(2), at / 2]));
    whole(t, "a long record", &words, &[0, 0]);
    // The read of issue 1999 has the issue before it, not the one that this had read.
    let at = words.len() - 5;
    whole(t, "a long record, too little read", &with(&words, at, words[at] - 1), &[0, 1999]);
    // Without the issue before it, it is an older snapshot.
    whole(t, "a long record, an older snapshot", &with(&words, at + 1, words[at + 1] - 1), &[0, 0]);
    told(t, "15, a long record in part", &words, words.len() - 1, &REFUSED);
}
