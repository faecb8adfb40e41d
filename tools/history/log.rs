//! A script or a log, read: a script has a call a line; a log has behind each call a line with
//! its answer, as the wrappers record them.

use super::names::Names;
use crate::text::{self, Call};

/// A line that isn't an answer.
#[derive(Clone)]
pub struct Entry {
    /// Its number in the file, from 1.
    pub line: usize,
    pub text: Vec<u8>,
    /// Nothing if the line is none of the calls' forms.
    pub call: Option<Call>,
    /// The answer that a log has behind it.
    pub recorded: Option<String>,
    /// The line of that answer, or its own.
    pub ends: usize,
}

pub struct Log {
    pub entries: Vec<Entry>,
    /// Whether it has answers behind its calls.
    pub is_log: bool,
    /// How many lines the file has.
    pub lines: usize,
    /// Whether the last line has its line end.
    pub ends: bool,
    pub names: Names,
}

/// A line is an answer if it stands behind a call that has none yet. A file is a script if its
/// first two lines have no form of an answer and few others do: in it such a line is unread, as
/// the program takes it. A line that begins with `#` is a comment, and so is the program's unread
/// behind one.
pub fn read(bytes: &[u8]) -> Log {
    let lines = bytes.split_inclusive(|byte| *byte == b'\n').map(text::without_end);
    let lines = lines.collect::<Vec<&[u8]>>();
    let calls = lines.iter().filter(|line| !line.starts_with(b"#"));
    let answers = calls.clone().filter(|line| is_answer(line)).count();
    let begins = calls.clone().take(2).any(|line| is_answer(line));
    let is_log = begins || answers * 4 > calls.count();
    let (mut entries, mut names) = (Vec::<Entry>::new(), Names::default());
    for (place, line) in lines.iter().enumerate() {
        let behind_comment = place > 0 && lines[place - 1].starts_with(b"#");
        if line.starts_with(b"#") {
            names.take(&String::from_utf8_lossy(line));
            continue;
        }
        if is_log && is_answer(line) {
            if let Some(last) = entries.last_mut().filter(|last| last.recorded.is_none()) {
                last.recorded = Some(String::from_utf8_lossy(line).into_owned());
                last.ends = place + 1;
                continue;
            }
            if behind_comment && *line == b"unread" {
                continue;
            }
        }
        let (call, line, text) = (text::read_line(line), place + 1, line.to_vec());
        entries.push(Entry { line, text, call, recorded: None, ends: line });
    }
    Log { entries, is_log, lines: lines.len(), ends: bytes.ends_with(b"\n"), names }
}

/// One of the words, then numbers.
pub fn is_answer(line: &[u8]) -> bool {
    let mut words = line.split(|byte| *byte == b' ');
    let first = words.next().unwrap_or(b"");
    let mut known = text::ANSWERS.iter().chain(&["unread"]);
    known.any(|known| known.as_bytes() == first)
        && words.all(|word| !word.is_empty() && word.iter().all(u8::is_ascii_digit))
}

impl Log {
    /// The place of the entry that stands on the line, or whose answer does.
    pub fn at_line(&self, line: usize) -> Option<usize> {
        let place = self.entries.iter().rposition(|entry| entry.line <= line)?;
        let entry = &self.entries[place];
        (line <= entry.ends).then_some(place)
    }
}

impl Log {
    /// What a log has lost, by its lines; `answers` are those had again. Of a script nothing.
    pub fn lost(&self, answers: &[String]) -> Vec<String> {
        let last = self.entries.len().saturating_sub(1);
        let faults = self.entries.iter().enumerate().filter_map(|(place, entry)| {
            let is_cut = place == last && !self.ends;
            let said = entry.lost(&answers[place], is_cut)?;
            Some(format!("line {}: {}: {said}", entry.line, entry.shown()))
        });
        faults.filter(|_| self.is_log).collect()
    }
}

impl Entry {
    /// What a log has lost at this line: `answer` is the one had again, and the file may be cut
    /// off behind the entry.
    fn lost(&self, answer: &str, is_cut: bool) -> Option<&'static str> {
        match (&self.call, &self.recorded) {
            (Some(_), None) => Some("no answer stands behind it"),
            (None, None) if is_answer(&self.text) => {
                Some("no call stands in front of this answer")
            }
            (None, None) => Some("neither a call nor an answer"),
            (None, Some(recorded)) if recorded != "unread" => {
                Some("no call, and yet it has an answer")
            }
            (Some(_), Some(recorded)) if is_cut && recorded != answer => {
                answer.starts_with(recorded.as_str()).then_some("its answer is cut off")
            }
            _ => None,
        }
    }

    /// The line for a reader: what can't be printed as its number.
    pub fn shown(&self) -> String {
        let mut shown = String::new();
        for byte in self.text.iter().take(64) {
            match byte {
                b'\r' => shown.push_str("\\r"),
                b' '..=b'~' => shown.push(char::from(*byte)),
                _ => shown.push_str(&format!("\\x{byte:02x}")),
            }
        }
        if self.text.len() > 64 {
            shown.push_str("..");
        }
        shown
    }
}
