//! A desk in a file: calls are answered on it, and it is saved once at their end; or it is told
//! what the file holds.

use super::had::fail;
use super::replay::{call_on, printed};
use crate::embed::MOST_WORDS;
use crate::sheetdesk_file::{read, save, Lock};
use crate::sheetdesk_format::{opened, unpack, Fault};
use crate::sheetdesk_places::{Place, Places};
use crate::sheetdesk_why::refused;
use crate::text::{self, Call};
use std::io::{BufRead, ErrorKind, Write};
use std::path::Path;
use std::process::exit;
use std::time::Duration;

/// One byte more than the longest line has: what is longer is unread, whatever it holds.
const KEPT: usize = 401;

const HINT: &str = "(the cause is a hint, found by looking; the verdict is the library's)";

/// `desk FILE [ROOM [WHOLE]]` or `check FILE`. ROOM is how many words are lent, for tests; any if it
/// is no number. WHOLE is a file that whoever hands the script over makes when that was read whole.
pub fn main(mode: &str, file: &str, rest: &[String]) -> ! {
    match (mode, rest) {
        ("desk", []) => answered(file, MOST_WORDS, None),
        ("desk", [room]) => answered(file, room.parse().unwrap_or(MOST_WORDS), None),
        ("desk", [_, whole]) => answered(file, MOST_WORDS, Some(Path::new(whole))),
        ("check", []) => checked(file),
        _ => fail("usage: history desk FILE [ROOM [WHOLE]], history check FILE"),
    }
}

/// Says what is wrong with the file.
fn wrong(file: &str, fault: &Fault) -> ! {
    fail(&format!("{file}: {fault}"))
}

/// Takes the lock, and says so if another has it.
fn locked(file: &str) -> Lock {
    let wait = std::env::var("SHEETDESK_WAIT").ok().and_then(|wait| wait.parse().ok());
    let wait = Duration::from_secs(wait.unwrap_or(60));
    let taken = Lock::take(file, Duration::ZERO).or_else(|fault| match fault {
        Fault::Locked(None) if !wait.is_zero() => {
            eprintln!("sheetdesk: {file}: another process has its lock; waiting for it");
            Lock::take(file, wait)
        }
        _ => Err(fault),
    });
    taken.unwrap_or_else(|fault| wrong(file, &fault))
}

/// Answers the calls on standard input on the file's desk, or on none where there is no file.
fn answered(file: &str, room: usize, whole: Option<&Path>) -> ! {
    let _lock = locked(file);
    let saved = match read(Path::new(file)).and_then(|bytes| unpack(&bytes)) {
        Err(Fault::Unread(error)) if error.kind() == ErrorKind::NotFound => Vec::new(),
        found => found.unwrap_or_else(|fault| wrong(file, &fault)),
    };
    let mut words = saved.clone();
    words.resize(room.max(saved.len()), 0);
    let before = words.clone();
    if let Err(error) = answer_all(&mut words) {
        eprintln!("sheetdesk: {file} is as it was: {error}");
        exit(if error.kind() == ErrorKind::BrokenPipe { 141 } else { 2 });
    }
    if whole.map_or(false, |whole| !whole.exists()) {
        fail(&format!("{file} is as it was: the script wasn't read to its end"));
    }
    if words != before {
        save(file, &words).unwrap_or_else(|fault| wrong(file, &fault));
    }
    exit(0)
}

/// Answers line by line, and hands the answers over before each read.
fn answer_all(words: &mut [u32]) -> std::io::Result<()> {
    let (mut input, mut line) = (std::io::stdin().lock(), Vec::new());
    let mut output = std::io::BufWriter::new(std::io::stdout().lock());
    loop {
        output.flush()?;
        let chunk = match input.fill_buf() {
            Err(error) if error.kind() == ErrorKind::Interrupted => continue,
            found => found?,
        };
        let length = chunk.len();
        if length == 0 {
            break;
        }
        for part in chunk.split_inclusive(|byte| *byte == b'\n') {
            let rest = text::without_end(part);
            line.extend_from_slice(&rest[..rest.len().min(KEPT)]);
            line.truncate(KEPT);
            if rest.len() < part.len() {
                output.write_all(answer(words, &line).as_bytes())?;
                line.clear();
            }
        }
        input.consume(length);
    }
    if !line.is_empty() {
        output.write_all(answer(words, &line).as_bytes())?;
    }
    output.flush()
}

fn answer(words: &mut [u32], line: &[u8]) -> String {
    let call = text::read_line(line);
    printed(&call.map(|call| call_on(words, &call))) + "\n"
}

/// Tells what the file holds, and the verdict.
fn checked(file: &str) -> ! {
    let bytes = match read(Path::new(file)) {
        Err(fault) => wrong(file, &fault),
        Ok(bytes) => bytes,
    };
    let (told, status) = match (opened(&bytes), unpack(&bytes)) {
        (Err(fault), _) => (format!("{file}: {} bytes\nnot taken: {fault}\n", bytes.len()), 1),
        (Ok(words), Err(fault)) => (format!("{}{fault}\n{HINT}\n", holds(file, &words)), 1),
        (Ok(mut words), Ok(_)) => (format!("{}admitted\n", described(file, &mut words)), 0),
    };
    let mut output = std::io::stdout().lock();
    match output.write_all(told.as_bytes()).and_then(|_| output.flush()) {
        Err(error) if error.kind() == ErrorKind::BrokenPipe => exit(141),
        Err(error) => fail(&format!("not all was written: {error}")),
        Ok(()) => exit(status),
    }
}

/// Layout and counts; of a desk in form what it holds too.
fn holds(file: &str, words: &[u32]) -> String {
    match refused(words) {
        Some(1) | None => head(file, words),
        _ => described(file, &mut words.to_vec()),
    }
}

fn head(file: &str, words: &[u32]) -> String {
    let counts = words.get(..5).unwrap_or(&[0; 5]);
    format!(
        "{file}: layout {}, {} words\nsheets {}, writers {}, offices {}, runs {}, last issue {}\n",
        crate::embed::LAYOUT, words.len(), counts[0], counts[1], counts[2], counts[3], counts[4],
    )
}

/// The same with what master and shelves hold, what is stale, and which runs are open, broken,
/// forked or joined.
fn described(file: &str, words: &mut [u32]) -> String {
    let mut told = head(file, words);
    let mut marks = Vec::new();
    for office in 0..words[2] {
        marks.push(printed(&Some(call_on(words, &Call::Stale(office)))));
    }
    let Some(at) = Places::of(words) else {
        return told;
    };
    told += &format!("master: {}\n", listed(|k| at.holds(Place::Master, k), at.sheets));
    for (office, mark) in marks.iter().enumerate() {
        let held = listed(|k| at.holds(Place::Shelf(office), k), at.sheets);
        let mask = mark.strip_prefix("ok ").and_then(|mask| mask.parse::<u32>().ok()).unwrap_or(0);
        let stale = listed(|k| mask >> k & 1 == 1, at.sheets);
        told += &format!("office {office}: {held}; stale: {stale}\n");
    }
    for run in 0..at.runs {
        let (state, jobs, done) = (at.run(run)[0], at.run(run)[1], at.run(run)[2].count_ones());
        let named = ["free", "open", "broken"].get(state as usize).unwrap_or(&"?");
        let lines = ["", ", forked", ", joined"].get(at.mark(run) as usize).unwrap_or(&"");
        told += &match state {
            0 => format!("run {run}: free\n"),
            _ => format!("run {run}: {named}{lines}, {done} of {jobs} jobs done\n"),
        };
    }
    told
}

/// The sheets for which the test holds.
fn listed(test: impl Fn(usize) -> bool, sheets: usize) -> String {
    let held = (0..sheets).filter(|k| test(*k)).map(|k| k.to_string()).collect::<Vec<String>>();
    if held.is_empty() {
        return "none".into();
    }
    held.join(" ")
}
