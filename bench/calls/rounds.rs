//! Rounds of timing: both sides in turns, each on fresh copies of the desk.

use crate::desk::{self, Answer};
use crate::desks::Case;
use crate::library;
use crate::text::{self, Call};
use crate::walked;
use std::hint::black_box;
use std::time::Instant;

/// Median nanoseconds of a call on each side, and the ratio's least, median and largest.
pub struct Cost {
    pub library: f64,
    pub reference: f64,
    pub ratio: [f64; 3],
}

/// Copies of a desk that are worked in one go, so that the clock is read seldom: as many as
/// fit in 64 Ki words, at least 2.
fn copies(words: &[u32]) -> usize {
    (65_536 / words.len()).clamp(2, 512)
}

fn time(desks: &mut [Vec<u32>], case: &Case, mut call: impl FnMut(&mut [u32])) -> f64 {
    for desk in desks.iter_mut() {
        desk.copy_from_slice(&case.words);
    }
    let start = Instant::now();
    for desk in desks.iter_mut() {
        call(black_box(desk));
    }
    start.elapsed().as_nanos() as f64 / desks.len() as f64
}

/// What is lent beside the desk: the words of an answer, and of a forecast's scratch.
pub struct Lent {
    pub answer: [u32; 40],
    scratch: Vec<u32>,
}

impl Lent {
    pub fn beside(words: &[u32]) -> Lent {
        Lent { answer: [0; 40], scratch: vec![0; words.len()] }
    }
}

/// The words of the last answer.
pub fn by_library(words: &mut [u32], case: &Case, lent: &mut Lent) -> u32 {
    let Lent { answer, scratch } = lent;
    let made = case.calls.iter().map(|call| match call {
        Call::Forecast(run) => library::forecast(words, scratch, *run, black_box(answer)),
        call => library::call(words, call, black_box(answer)),
    });
    made.last().unwrap_or(0)
}

/// The last answer.
pub fn by_reference(words: &mut [u32], case: &Case, lent: &mut Lent) -> Answer {
    let made = case.calls.iter().map(|call| match call {
        Call::Forecast(run) => desk::forecast(words, &mut lent.scratch, *run),
        Call::Audit(record) => walked::audit(record),
        call => text::run(words, call),
    });
    made.last().unwrap_or(Answer::Nothing)
}

pub fn middle(values: &mut [f64]) -> f64 {
    values.sort_by(f64::total_cmp);
    values[values.len() / 2]
}

/// So many rounds; a round is the better of some turns of each side, to shut out what else
/// runs on the machine.
pub fn measure(case: &Case, rounds: usize) -> Cost {
    check(case);
    let mut desks = vec![case.words.clone(); copies(&case.words)];
    let mut lent = Lent::beside(&case.words);
    let (mut mine, mut theirs, mut ratios) = (Vec::new(), Vec::new(), Vec::new());
    for _ in 0..rounds {
        let (mut library, mut reference) = (f64::MAX, f64::MAX);
        for _ in 0..3 {
            library = library.min(time(&mut desks, case, |words| {
                black_box(by_library(words, case, &mut lent));
            }));
            reference = reference.min(time(&mut desks, case, |words| {
                black_box(by_reference(words, case, &mut lent));
            }));
        }
        mine.push(library);
        theirs.push(reference);
        ratios.push(library / reference);
    }
    let middle_ratio = middle(&mut ratios);
    let ratio = [ratios[0], middle_ratio, ratios[ratios.len() - 1]];
    Cost { library: middle(&mut mine), reference: middle(&mut theirs), ratio }
}

/// Both sides must do the same, and answer ok, a path or through: a refused call would measure
/// nothing.
pub fn check(case: &Case) {
    let (mut mine, mut theirs) = (case.words.clone(), case.words.clone());
    let [mut one, mut other] = [Lent::beside(&mine), Lent::beside(&mine)];
    let count = by_library(&mut mine, case, &mut one) as usize;
    let (name, due) = (case.name(), by_reference(&mut theirs, case, &mut other));
    let good = matches!(due, Answer::Ok(_) | Answer::Path(_) | Answer::Through);
    assert!(good, "{name}: not answered ok");
    assert!(one.answer[..count] == due.words() && mine == theirs, "{name}");
    assert!(one.scratch == other.scratch, "{name}: the scratch");
}
