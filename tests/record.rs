//! A script's calls through the Rust wrapper, over as many words as the program lends: `record` writes what is handed over to
//! standard output; `record large` does so over the words of the largest desk; `record off` makes the calls and records
//! nothing. Lines that are no call are left out (over 400 bytes only if not large), and opens that aren't a list of jobs.
//! With `text ROOM` behind it, `record on text ROOM` and so on, the calls are made as a text, with so many bytes for answers, which
//! go to standard error; it exits 1 if they leave other words than the calls one by one.

mod calls;
#[path = "../embed/sheetdesk.rs"]
mod sheetdesk;

use calls::call;
use sheetdesk::{Desk, MOST_WORDS};
use std::io::{stderr, stdin, stdout, Read, Write};
use std::process::exit;

/// A desk goes to another thread, recorded or not.
fn moves(_: impl Send + Sync) {}

fn one_by_one(desk: &mut Desk, script: &[u8], most: usize) {
    for line in script.split(|byte| *byte == b'\n').filter(|line| line.len() <= most) {
        call(desk, &String::from_utf8_lossy(line));
    }
}

/// As the wrapper shows it; the last line gets its line feed.
fn as_text(desk: &mut Desk, mut script: Vec<u8>, room: usize) {
    if script.last().is_some_and(|byte| *byte != b'\n') {
        script.push(b'\n');
    }
    let (mut out, mut scratch) = (vec![0; room], vec![0; desk.words().len()]);
    let mut rest = script.as_slice();
    while !rest.is_empty() {
        let ran = desk.run(rest, &mut out, &mut scratch);
        if ran.taken == 0 {
            exit(2);
        }
        stderr().write_all(&out[..ran.put]).expect("standard error takes it");
        rest = &rest[ran.taken..];
    }
}

fn main() {
    let mut script = Vec::new();
    stdin().read_to_end(&mut script).expect("standard input can be read");
    let words: Vec<String> = std::env::args().collect();
    let mode = words.get(1).map_or("", |word| word);
    let (lent, most) = if mode == "large" { (MOST_WORDS, usize::MAX) } else { (16384, 400) };
    let (mut room, mut other) = (vec![0; lent], vec![0; lent]);
    let mut desk = Desk::lend(&mut room);
    let take = |text: &str| stdout().write_all(text.as_bytes()).expect("standard output takes it");
    if mode != "off" {
        desk.record(Some(&take));
    }
    if let Some(room) = words.get(3).and_then(|word| word.parse().ok()) {
        as_text(&mut desk, script.clone(), room);
        let mut second = Desk::lend(&mut other);
        one_by_one(&mut second, &script, most);
        exit(if desk.words() == second.words() { 0 } else { 1 });
    }
    one_by_one(&mut desk, &script, most);
    desk.record(None);
    call(&mut desk, "new 1 1 1 1");
    moves(desk);
}
