//! "All small histories": every script of one to three calls after `new 2 2 2 1`, with its answers.
//! Takes no arguments and prints a line for each script.
#![allow(dead_code)]

mod desk;
mod text;

use std::io::{self, BufWriter, Write};

const NEW: &str = "new 2 2 2 1";
const SHEETS: u32 = 2;
const WRITERS: u32 = 2;
const OFFICES: u32 = 2;
const RUNS: u32 = 1;
const MASKS: u32 = 1 << SHEETS;
const ONLY_ZERO: u32 = 1;

/// "Fetch, evict, `open 0` with one job of upstream 0, `step 0 0`, issue and drop, all numbers in
/// range": each kind, in the order just named, with what its numbers are below.
const KINDS: [(&str, &[u32]); 6] = [
    ("fetch", &[OFFICES, SHEETS]),
    ("evict", &[OFFICES, SHEETS]),
    ("open", &[ONLY_ZERO, OFFICES, MASKS, ONLY_ZERO]),
    ("step", &[ONLY_ZERO, ONLY_ZERO]),
    ("issue", &[RUNS, WRITERS, MASKS]),
    ("drop", &[RUNS]),
];

/// A call as its place among the kinds and its numbers. Compared in that order, and number by
/// number "from the left".
type Drawn = (usize, Vec<u32>);

/// All calls to draw from.
fn calls() -> Vec<Drawn> {
    let mut calls = Vec::new();
    for (kind, (_, below)) in KINDS.iter().enumerate() {
        calls.extend(all_numbers(below).into_iter().map(|numbers| (kind, numbers)));
    }
    calls
}

/// Every list of numbers that are below these, place by place.
fn all_numbers(below: &[u32]) -> Vec<Vec<u32>> {
    below.iter().fold(vec![Vec::new()], |lists, limit| {
        let longer = |list: &Vec<u32>| {
            (0..*limit).map(|number| [&list[..], &[number]].concat()).collect::<Vec<_>>()
        };
        lists.iter().flat_map(longer).collect()
    })
}

/// "Every script of one to three calls. Shorter scripts come first; of equal lengths the first
/// differing call decides. Each stands there just once."
fn scripts() -> Vec<Vec<Drawn>> {
    let calls = calls();
    let mut scripts = Vec::new();
    for last in &calls {
        scripts.push(vec![last.clone()]);
        for middle in &calls {
            scripts.push(vec![middle.clone(), last.clone()]);
            for first in &calls {
                scripts.push(vec![first.clone(), middle.clone(), last.clone()]);
            }
        }
    }
    scripts.sort_by(|one, other| (one.len(), one).cmp(&(other.len(), other)));
    assert!(scripts.windows(2).all(|pair| pair[0] != pair[1]));
    for (length, count) in [(1, 26), (2, 676), (3, 17_576)] {
        assert_eq!(scripts.iter().filter(|script| script.len() == length).count(), count);
    }
    scripts
}

/// A call as the program reads it.
fn line_of((kind, numbers): &Drawn) -> String {
    let words = numbers.iter().map(|number| format!(" {number}"));
    format!("{}{}", KINDS[*kind].0, words.collect::<String>())
}

/// A line's answer as the program prints it.
fn answer(words: &mut [u32], line: &str) -> String {
    let call = text::read_line(line.as_bytes()).expect("each line is a call");
    text::print(&text::run(words, &call))
}

fn main() -> io::Result<()> {
    let mut output = BufWriter::new(io::stdout().lock());
    for script in scripts() {
        let mut words = vec![0; text::LENT];
        answer(&mut words, NEW);
        let lines = script.iter().map(line_of).collect::<Vec<String>>();
        let answers = lines.iter().map(|line| answer(&mut words, line)).collect::<Vec<String>>();
        writeln!(output, "{}: {}", lines.join("; "), answers.join("; "))?;
    }
    output.flush()
}
