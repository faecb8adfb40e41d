//! Forecasts on the examples worked out for them, and what the scratch holds.

use crate::desk::*;
use crate::forms::all_refuse;
use crate::lines::{works, works_on};
use crate::text::{read_line, Call, ANSWERS};

/// The break is told, not the job that would be turned down behind it; another order goes through,
/// and the forecast has fetched nothing. Then a job is turned down before the break.
pub fn in_order() {
    works(&[
        "new 3 1 2 1 -> ok 127",
        "save 0 0 1",
        "fetch 0 0",
        "save 0 0 3",
        "open 0 0 1 0 1 2 0 1 4 0",
        "forecast 0 -> breaks 1 1",
        "step 0 1 -> ok 0 0 2",
        "forecast 0 -> turned 2 7",
        "step 0 0 -> ok 1 0 0",
        "drop 0",
        "open 0 1 4 0 0 1 0 1 2 0",
        "forecast 0 -> turned 0 7",
    ]);
}

/// A prepared run, rights, no job left, and what is refused.
pub fn refused() {
    works(&[
        "forecast 0 -> refused 1",
        "new 2 1 2 2",
        "save 0 0 1",
        "fetch 0 0",
        "save 0 0 3",
        "open 0 0 1 0 1 2 1",
        "prepare 0 -> ok 3",
        "forecast 0 -> through",
        "mayhold 1 0",
        "forecast 0 -> turned 1 13",
        "mayhold 1 3",
        "step 0 0",
        "step 0 1",
        "forecast 0 -> through",
        "issue 0 0 0",
        "forecast 0 -> refused 4",
        "forecast 2 -> refused 3",
        "open 0 0 3 0",
        "fork 0",
        "forecast 0 -> refused 14",
        "join 0",
        "forecast 0 -> through",
        "allow 0 1",
        "forecast 0 -> turned 0 12",
    ]);
    assert_eq!([read_line(b"forecast"), read_line(b"forecast 0 0")], [None, None]);
    assert_eq!(read_line(b"forecast 7"), Some(Call::Forecast(7)));
    assert_eq!(ANSWERS[6..], ["through", "breaks", "turned"]);
    assert_eq!(Answer::Through.words(), [6]);
    assert_eq!(Answer::Breaks(1, 5).words(), [7, 1, 5]);
    assert_eq!(Answer::Turned(2, 13).words(), [8, 2, 13]);
}

/// The desk with these words put at these places.
fn with(desk: &[u32], changes: &[(usize, &[u32])]) -> Vec<u32> {
    let mut words = desk.to_vec();
    for (at, put) in changes {
        words[*at..at + put.len()].copy_from_slice(put);
    }
    words
}

/// A scratch of 61 words, all 7: the last two stay. One of 58 is too short and stays whole.
pub fn words() {
    let mut words = vec![0; 59];
    works_on(&mut words, &["new 1 1 1 1 -> ok 59", "save 0 0 1", "open 0 0 1 0 0 1 0"]);
    let one: &[u32] = &[1, 1, 1];
    let due = with(&words, &[(13, one), (22, &[3, 1]), (48, one)]);
    let mut scratch = vec![7; 61];
    let before = words.clone();
    assert_eq!(forecast(&words, &mut scratch, 0), Answer::Through);
    assert_eq!((&scratch[..59], &scratch[59..]), (&due[..], &[7, 7][..]));
    let mut short = vec![7; 58];
    assert_eq!(forecast(&words, &mut short, 0), Answer::Refused(1));
    assert_eq!(short, [7; 58]);
    let mut just = vec![7; 59];
    assert_eq!(forecast(&words, &mut just, 0), Answer::Through);
    assert_eq!(just, due);
    // The lent words may go on past the total: the scratch need not.
    words.extend([5, 5, 5]);
    let mut just = vec![7; 59];
    assert_eq!(forecast(&words, &mut just, 0), Answer::Through);
    assert_eq!((just, &words[..59]), (due, &before[..]));
    // Refused: every word of the scratch stays.
    for (run, number) in [(1, 3), (u32::MAX, 3)] {
        let mut scratch = vec![7; 61];
        assert_eq!(forecast(&words, &mut scratch, run), Answer::Refused(number));
        assert_eq!(scratch, [7; 61]);
        assert_eq!(forecast(&words, &mut [], run), Answer::Refused(1));
    }
}

/// A break leaves state 2 in the scratch, a job turned down what the jobs before it left.
pub fn stopped() {
    let mut words = vec![0; 91];
    let lines = ["new 2 1 2 1", "save 0 0 1", "fetch 0 0", "save 0 0 3", "open 0 0 1 0 1 2 0"];
    works_on(&mut words, &lines);
    let read: [(usize, &[u32]); 3] = [(43, &[1]), (44, &[1]), (69, &[1, 1, 1])];
    let mut scratch = vec![9; 91];
    assert_eq!(forecast(&words, &mut scratch, 0), Answer::Breaks(1, 1));
    assert_eq!(scratch, with(&with(&words, &read), &[(41, &[2])]));
    works_on(&mut words, &["forecast 0 -> breaks 1 1", "allow 1 1"]);
    assert_eq!(forecast(&words, &mut scratch, 0), Answer::Turned(1, 12));
    assert_eq!(scratch, with(&words, &read));
    works_on(&mut words, &["forecast 0 -> turned 1 12"]);
    // A desk that isn't in form, with a scratch of any length.
    words[41] = 3;
    all_refuse(&mut words, 1);
    for length in [0, 90, 91, 200] {
        let mut scratch = vec![9; length];
        assert_eq!(forecast(&words, &mut scratch, 0), Answer::Refused(1));
        assert_eq!(scratch, vec![9; length]);
    }
}
