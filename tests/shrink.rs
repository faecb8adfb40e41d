//! Shrinking on generated scripts, held against both implementations: `shrink SCRIPT..`.
//!
//! For each script some lines are taken in turn: of each kind of answer the last one. What is left must be a part of the
//! script that ends with the line; on the library and on the reference its answer must be the one that the whole script
//! leads to, and leaving out any one call must change it. Prints what was tried and exits 1 if a claim fails.
//!
//! `shrink --left SCRIPT LINE LEFT STEP`: the same of the calls in LEFT, what is left of the script for the line, on the
//! library alone, which has room for any desk; of the calls each STEP-th is left out.
#![allow(dead_code)]

#[path = "../embed/sheetdesk.rs"]
mod embed;
#[path = "../embed/library.rs"]
mod library;
#[path = "../reference"]
mod reference {
    pub mod desk;
    pub mod text;
}
#[path = "../tools/history"]
mod parts {
    pub mod desks;
    pub mod log;
    pub mod names;
    pub mod number;
    pub mod replay;
    pub mod shrink;
    pub mod trial;
}

use parts::log::{self, Entry, Log};
use parts::replay::{printed, Replay};
use parts::shrink::shrink;
use reference::{desk, text};
use std::process::exit;

/// What the calls end in on the library.
fn by_library(entries: &[&Entry]) -> String {
    let mut replay = Replay::fresh();
    printed(&entries.iter().fold(None, |_, entry| replay.make(entry)))
}

/// The same on the reference, with the words that the program lends.
fn by_reference(entries: &[&Entry]) -> String {
    let mut words = vec![0; text::LENT];
    let run = |entry: &&Entry| entry.call.as_ref().map(|call| text::run(&mut words, call));
    printed(&entries.iter().map(run).last().flatten())
}

/// A script as a log, with the reference's answers.
fn answered(script: &[u8]) -> Log {
    let mut words = vec![0; text::LENT];
    let mut log = Vec::new();
    for line in script.split_inclusive(|byte| *byte == b'\n').map(text::without_end) {
        let call = text::read_line(line);
        let answer = printed(&call.map(|call| text::run(&mut words, &call)));
        log.extend_from_slice(&[line, b"\n", answer.as_bytes(), b"\n"].concat());
    }
    log::read(&log)
}

/// The last entry of each kind: a call's word and an answer's first.
fn last_of_each(log: &Log) -> Vec<usize> {
    let mut found = Vec::<(String, usize)>::new();
    for (place, entry) in log.entries.iter().enumerate().filter(|(_, entry)| entry.call.is_some()) {
        let word = |text: &str| text.split(' ').next().unwrap_or("").to_string();
        let answer = entry.recorded.clone().unwrap_or_default();
        let answer = if answer.starts_with("refused") { answer } else { word(&answer) };
        let kind = format!("{} {answer}", word(&entry.shown()));
        match found.iter_mut().find(|known| known.0 == kind) {
            Some(known) => known.1 = place,
            None => found.push((kind, place)),
        }
    }
    found.into_iter().map(|known| known.1).collect()
}

/// Why what is left for the line isn't as it must be.
fn fault(entries: &[Entry], left: &[usize]) -> Option<String> {
    let last = &entries[entries.len() - 1];
    let due = last.recorded.clone().unwrap_or_default();
    if left.last() != Some(&(entries.len() - 1)) || !left.windows(2).all(|pair| pair[0] < pair[1]) {
        return Some(format!("{left:?} is no part of the script that ends with the line"));
    }
    let list = left.iter().map(|place| &entries[*place]).collect::<Vec<&Entry>>();
    for (name, given) in [("library", by_library(&list)), ("reference", by_reference(&list))] {
        if given != due {
            return Some(format!("the {name} answers {given}, due {due}"));
        }
    }
    for out in 0..list.len() - 1 {
        let mut less = list.clone();
        let gone = less.remove(out);
        for (name, given) in [("library", by_library(&less)), ("reference", by_reference(&less))] {
            if given == due {
                return Some(format!("the {name} still answers {due} without line {}", gone.line));
            }
        }
    }
    (shrink(entries) != left).then(|| String::from("a second time it leaves other calls"))
}

/// Why the calls left for a line of a script aren't as they must be, each `step`-th left out.
fn unlike(script: &str, line: &str, left: &str, step: &str) -> Option<String> {
    let read = |name: &str| log::read(&std::fs::read(name).expect("the script can be read")).entries;
    let number = |text: &str| text.parse::<usize>().expect("a number");
    let (whole, left) = (read(script), read(left));
    let (whole, left) = (whole.iter().collect::<Vec<_>>(), left.iter().collect::<Vec<_>>());
    let due = by_library(&whole[..number(line)]);
    let given = by_library(&left);
    if given != due {
        return Some(format!("what is left answers {given}, due {due}"));
    }
    let needed = |out: &usize| by_library(&[&left[..*out], &left[out + 1..]].concat()) != due;
    let out = (0..left.len() - 1).step_by(number(step)).find(|out| !needed(out))?;
    Some(format!("line {} of what is left isn't needed", out + 1))
}

fn main() {
    let scripts = std::env::args().skip(1).collect::<Vec<String>>();
    if let [option, script, line, left, step] = scripts.as_slice() {
        if option == "--left" {
            if let Some(fault) = unlike(script, line, left, step) {
                println!("shrink: {script}, line {line}: {fault}");
                exit(1);
            }
            return;
        }
    }
    let (mut lists, mut calls, mut broken, mut longest) = (0, 0, 0, 0);
    for name in &scripts {
        let log = answered(&std::fs::read(name).expect("the script can be read"));
        for place in last_of_each(&log) {
            let left = shrink(&log.entries[..=place]);
            if let Some(fault) = fault(&log.entries[..=place], &left) {
                println!("shrink: {name}, line {} of its log: {fault}", log.entries[place].line);
                exit(1);
            }
            let answer = log.entries[place].recorded.as_deref().unwrap_or_default();
            (lists, calls) = (lists + 1, calls + place + 1);
            if answer.starts_with("broken") || answer.starts_with("path") {
                (broken, longest) = (broken + 1, longest.max(left.len()));
            }
        }
    }
    println!(
        "shrink: {lists} answers of {} scripts, {broken} of them broken or path: kept and minimal on library and \
         reference; {} calls before each, at most {longest} left for a break",
        scripts.len(),
        calls / lists.max(1)
    );
    if broken < scripts.len() / 2 || lists < 10 * scripts.len() {
        println!("shrink: too few answers, or too few breaks");
        exit(1);
    }
}
