//! A history of calls had again over the library: replayed, shrunk, shown as a page, its breaks
//! told for tickets, the bill of a set, and the desk as it stood at a line.
//!
//! `history MODE NAME [LINE]` reads a script or a log from standard input; NAME is what messages
//! and the page call it. MODE is replay, shrink, page, whole (the page of all calls), breaks, set
//! (both also with -json behind them), or at: that one reads the log from descriptor 3, and then
//! answers the calls on standard input. `./sheetdesk --replay` and so on run it. `history desk
//! FILE` and `history check FILE` are about a desk in a file (history/saved.rs).
//! Exit status: 0 done; 1 replay: an answer isn't the log's; 2 something is wrong with the input,
//! and standard error says what, with its line. What can be done all the same is done.
#![allow(dead_code)]

#[path = "../embed/sheetdesk.rs"]
mod embed;
#[path = "../embed/library.rs"]
mod library;
#[path = "../embed/sheetdesk_file.rs"]
mod sheetdesk_file;
#[path = "../embed/sheetdesk_format.rs"]
mod sheetdesk_format;
#[path = "../embed/sheetdesk_places.rs"]
mod sheetdesk_places;
#[path = "../embed/sheetdesk_why.rs"]
mod sheetdesk_why;
#[path = "../reference"]
mod reference {
    pub mod desk;
    pub mod text;
}
#[path = "history"]
mod parts {
    pub mod bill;
    pub mod breaks;
    pub mod copies;
    pub mod desks;
    pub mod draw;
    pub mod forks;
    pub mod had;
    pub mod head;
    pub mod json;
    pub mod log;
    pub mod marks;
    pub mod moves;
    pub mod names;
    pub mod number;
    pub mod page;
    pub mod remedy;
    pub mod replay;
    pub mod route;
    pub mod rows;
    pub mod said;
    pub mod saved;
    pub mod shrink;
    pub mod story;
    pub mod tickets;
    pub mod told;
    pub mod trial;
    pub mod versions;
    pub mod words;
}

// What those files call it.
use embed as sheetdesk;
use parts::bill;
use parts::had::{fail, History};
use parts::head::Head;
use parts::page;
use parts::replay::{printed, Replay};
use parts::{names, story, tickets};
use reference::{desk, text};

use std::io::{BufRead, ErrorKind, Read, Write};
use std::process::exit;

/// The calls that a page shows without leaving any out.
const SHOWN: usize = 200;

const USAGE: &str = "usage: history MODE NAME [LINE]; see tools/history.rs";

fn main() {
    let arguments = std::env::args().skip(1).collect::<Vec<String>>();
    let (mode, name, line) = match arguments.as_slice() {
        [mode, file, rest @ ..] if mode == "desk" || mode == "check" => {
            parts::saved::main(mode, file, rest)
        }
        [mode, name] => (mode, name, None),
        [mode, name, line] => (mode, name, Some(line)),
        _ => fail(USAGE),
    };
    let line = line.map(|line| match line.parse::<usize>() {
        Ok(number) if number > 0 => number,
        _ => fail(&format!("LINE is the number of a line, from 1: {line}")),
    });
    let history = History::of(name, &read(name, mode == "at"));
    if history.log.entries.is_empty() && mode != "page" && mode != "whole" {
        fail(&format!("{name} is empty: there is no call"));
    }
    match (mode.as_str(), line) {
        ("replay", None) => replayed(&history),
        ("shrink", _) => shrunk(&history, line),
        ("page", _) => shown(&history, line, SHOWN),
        ("whole", None) => shown(&history, None, usize::MAX),
        ("breaks", None) => broken(&history, false),
        ("breaks-json", None) => broken(&history, true),
        ("set", Some(line)) => billed(&history, line, false),
        ("set-json", Some(line)) => billed(&history, line, true),
        ("at", Some(line)) => answered_at(&history, line),
        _ => fail(USAGE),
    }
}

/// All bytes of standard input, or of descriptor 3.
fn read(name: &str, beside: bool) -> Vec<u8> {
    let mut bytes = Vec::new();
    let found = match beside {
        true => std::fs::File::open("/dev/fd/3").and_then(|mut file| file.read_to_end(&mut bytes)),
        false => std::io::stdin().lock().read_to_end(&mut bytes),
    };
    if let Err(error) = found {
        fail(&format!("{name} wasn't read to its end: {error}"));
    }
    bytes
}

/// Writes it all; whoever takes it may have gone.
fn put(text: &str) {
    let mut output = std::io::stdout().lock();
    match output.write_all(text.as_bytes()).and_then(|_| output.flush()) {
        Err(error) if error.kind() == ErrorKind::BrokenPipe => exit(141),
        Err(error) => fail(&format!("not all was written: {error}")),
        Ok(()) => {}
    }
}

fn replayed(history: &History) {
    if !history.log.is_log {
        let (name, ends) = (&history.name, history.line_ends());
        fail(&format!("{name} has no answers: a log has one behind each call{ends}"));
    }
    let lost = history.told_lost();
    let differs = history.differs();
    if let Some(said) = &differs {
        eprintln!("sheetdesk: {said}");
    }
    if lost || differs.is_some() {
        exit(if lost { 2 } else { 1 });
    }
    let answered = history.log.entries.iter().filter(|entry| entry.recorded.is_some()).count();
    put(&format!("{answered} calls, each answered as the log has it\n"));
}

fn shrunk(history: &History, line: Option<usize>) {
    let (left, said) = history.shrunk(line);
    let status = history.told_faults();
    let mut replay = Replay::fresh();
    let mut text = Vec::new();
    for entry in &left {
        text.extend_from_slice(&entry.text);
        text.push(b'\n');
        if history.log.is_log {
            text.extend_from_slice(printed(&replay.make(entry)).as_bytes());
            text.push(b'\n');
        }
    }
    put(&String::from_utf8_lossy(&text));
    eprintln!("sheetdesk: {said}");
    exit(status);
}

/// The page: of more calls than `most`, what is left for the one in question.
fn shown(history: &History, line: Option<usize>, most: usize) {
    let status = history.told_faults();
    let entries = &history.log.entries;
    let answered = entries.iter().map(|entry| entry.line).zip(history.answers.iter());
    let (name, answered) = (&history.name, answered.collect());
    let mut head = Head { name, answered, shrunk: None, most: most.max(page::MOST) };
    let parts = if line.is_some() || entries.len() > most {
        let (left, said) = history.shrunk(line);
        let whole = &entries[..=history.in_question(line)];
        head.shrunk = Some(said);
        story::kept(story::tell(whole), &left)
    } else {
        story::tell(entries)
    };
    put(&page::page(&head, &parts));
    if entries.is_empty() {
        fail(&format!("{} is empty: the page shows no call", history.name));
    }
    exit(status);
}

/// Every break, for tickets.
fn broken(history: &History, json: bool) {
    let status = history.told_faults();
    let parts = story::tell(&history.log.entries);
    match json {
        true => put(&format!("{}\n", tickets::json(history, &parts))),
        false => put(&names::applied_to_lines(&tickets::text(history, &parts))),
    }
    exit(status);
}

/// The bill of the run that the line's call is about.
fn billed(history: &History, line: usize, json: bool) {
    let status = history.told_faults();
    let entries = &history.log.entries[..=history.in_question(Some(line))];
    let Some(bill) = bill::bill(entries) else {
        fail(&format!("line {line} is no call of a run: name a step, an issue or the like"));
    };
    match json {
        true => put(&format!("{}\n", bill.json())),
        false => put(&bill.text()),
    }
    exit(status);
}

/// Answers the calls on standard input, on the desk as the line left it.
fn answered_at(history: &History, line: usize) {
    let status = history.told_faults();
    let mut replay = Replay::fresh();
    for entry in &history.log.entries[..=history.in_question(Some(line))] {
        replay.make(entry);
    }
    let mut input = std::io::stdin().lock();
    loop {
        let mut line = Vec::new();
        match input.read_until(b'\n', &mut line) {
            Ok(0) => exit(status),
            Ok(_) if line.starts_with(b"#") => {}
            Ok(_) => {
                let call = text::read_line(text::without_end(&line));
                put(&format!("{}\n", printed(&call.map(|call| replay.ask(&call)))));
            }
            Err(error) => fail(&format!("not all calls were read: {error}")),
        }
    }
}
