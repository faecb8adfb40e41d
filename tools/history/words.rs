//! Calls in plain words, for a reader who doesn't know the calls.

use super::log::is_answer;
use super::versions::{sheets, Version};
use crate::desk::Answer;
use crate::text::Call;

/// "0", "0 and 2", "0, 1 and 4".
pub fn listed(items: &[String]) -> String {
    match items {
        [] => String::from("none"),
        [one] => one.clone(),
        [first @ .., last] => format!("{} and {last}", first.join(", ")),
    }
}

/// The numbers of a mask, those that follow each other as one pair: first and last.
pub fn ranges(mask: u32) -> Vec<(usize, usize)> {
    let mut ranges = Vec::<(usize, usize)>::new();
    for k in sheets(mask) {
        match ranges.last_mut() {
            Some(range) if range.1 + 1 == k => range.1 = k,
            _ => ranges.push((k, k)),
        }
    }
    ranges
}

/// "sheet 0", "sheets 0 and 2", "sheets 0 to 5 and 9".
pub fn sheet_list(mask: u32) -> String {
    let mut items = Vec::new();
    for (from, to) in ranges(mask) {
        match to - from {
            0 | 1 => items.extend((from..=to).map(|k| k.to_string())),
            _ => items.push(format!("{from} to {to}")),
        }
    }
    let noun = if mask.count_ones() == 1 { "sheet" } else { "sheets" };
    format!("{noun} {}", listed(&items))
}

/// What stale answers.
pub fn stale(office: u32, sheets: u32) -> String {
    match sheets {
        0 => format!("No sheet on the shelf of office {office} is stale."),
        _ => format!("Stale on the shelf of office {office}: {}.", sheet_list(sheets)),
    }
}

/// What a forecast answers that isn't refused.
pub fn foretold(run: u32, answer: &Answer) -> String {
    match answer {
        Answer::Through => format!("The jobs of run {run} that aren't done would go through."),
        Answer::Breaks(job, mask) => format!(
            "Job {job} of run {run} would break the run: {} would change, which the run would \
             have read.",
            sheet_list(*mask)
        ),
        Answer::Turned(job, number) => format!(
            "Job {job} of run {run} would be refused: {}.",
            refusal(&Call::Step(run, *job, 0), *number)
        ),
        _ => String::new(),
    }
}

/// What an audit answers that isn't refused.
pub fn audited(number: u32) -> String {
    match number {
        0 => String::from("Each issue of the record has read a snapshot."),
        _ => format!(
            "Issue {number} of the record, counted from 1, is the first whose reads are no \
             snapshot."
        ),
    }
}

/// What an office may hold or a writer may save, of so many sheets.
pub fn right(mask: u32, count: usize) -> String {
    match mask.count_ones() as usize {
        0 => String::from("no sheet"),
        all if all == count => String::from("all sheets"),
        _ => sheet_list(mask),
    }
}

/// "1 and 2".
pub fn numbers(issues: &[u32]) -> String {
    listed(&issues.iter().map(u32::to_string).collect::<Vec<String>>())
}

/// "issue 1", "the rival issues 1 and 2".
pub fn issue_list(issues: &[u32]) -> String {
    match issues.len() {
        1 => format!("issue {}", numbers(issues)),
        _ => format!("the rival issues {}", numbers(issues)),
    }
}

/// "sheet 0 of issue 1".
pub fn version(version: &Version) -> String {
    version_list(std::slice::from_ref(version))
}

/// "sheets 0 and 1 of issue 1, sheet 2 of issue 3": sheets of the same issues together.
pub fn version_list(versions: &[Version]) -> String {
    let said = |(issues, mask): &(&[u32], u32)| {
        format!("{} of {}", sheet_list(*mask), issue_list(issues))
    };
    grouped(versions).iter().map(said).collect::<Vec<String>>().join(", ")
}

/// The same with "and" before the last.
pub fn version_series(versions: &[Version]) -> String {
    let said = |(issues, mask): &(&[u32], u32)| {
        format!("{} of {}", sheet_list(*mask), issue_list(issues))
    };
    listed(&grouped(versions).iter().map(said).collect::<Vec<String>>())
}

/// The sheets that have the same issues, as a mask.
fn grouped(versions: &[Version]) -> Vec<(&[u32], u32)> {
    let mut groups = Vec::<(&[u32], u32)>::new();
    for version in versions {
        match groups.iter_mut().find(|group| group.0 == version.issues) {
            Some(group) => group.1 |= 1 << version.sheet,
            None => groups.push((&version.issues, 1 << version.sheet)),
        }
    }
    groups
}

/// A sentence more for an issue after which sheets have rival saves.
pub fn rivals(versions: &[Version]) -> String {
    let said = |(issues, mask): &(&[u32], u32)| {
        let drawn = match issues.len() {
            2 => "neither was drawn from the other",
            _ => "none was drawn from another",
        };
        let (have, issues) =
            (if mask.count_ones() == 1 { "has" } else { "have" }, numbers(issues));
        let sheets = sentence(&sheet_list(*mask));
        format!(" {sheets} now {have} rival saves, of issues {issues}: {drawn}.")
    };
    grouped(versions).iter().map(said).collect()
}

/// "1 sheet", "3 sheets".
pub fn counted(count: usize, noun: &str) -> String {
    format!("{count} {noun}{}", if count == 1 { "" } else { "s" })
}

/// The first letter as a capital.
pub fn sentence(text: &str) -> String {
    let mut letters = text.chars();
    let first = letters.next().map_or(String::new(), |letter| letter.to_uppercase().to_string());
    format!("{first}{}", letters.as_str())
}

/// The jobs of an open, a clause each.
pub fn jobs(list: &[u32]) -> String {
    let clause = |(job, words): (usize, &[u32])| {
        let reads = match words[1] {
            0 => String::from("reads nothing"),
            reads => format!("reads {}", sheet_list(reads)),
        };
        let after = sheets(words[2]).map(|job| job.to_string()).collect::<Vec<String>>();
        let after = match after.len() {
            0 => String::new(),
            1 => format!(", after job {}", after[0]),
            _ => format!(", after jobs {}", listed(&after)),
        };
        format!("job {job} at office {} {reads}{after}", words[0])
    };
    list.chunks(3).enumerate().map(clause).collect::<Vec<String>>().join("; ")
}

/// Why a line is no call, in the words of `--echo`.
pub fn unread(line: &[u8]) -> &'static str {
    if line.len() > 400 {
        "the line has over 400 bytes"
    } else if line.ends_with(b"\r") {
        "the line ends with a carriage return; see LINE ENDS in --man"
    } else if is_answer(line) {
        "the line is an answer, as logs have them; see --replay in --man"
    } else if line.starts_with(b"#") {
        "the line is a comment, which the program doesn't know; see COMMENTS in --man"
    } else if line.ends_with(b" ") {
        "the line ends with a space"
    } else if line.starts_with(b" ") || line.windows(2).any(|two| two == b"  ") {
        "words and numbers stand one space apart"
    } else if line.split(|byte| *byte == b' ').skip(1).any(is_large) {
        "a number is over 4294967295"
    } else {
        "the line is none of the calls' forms"
    }
}

/// Whether it is a number of more than 32 bits.
fn is_large(word: &[u8]) -> bool {
    let digits = String::from_utf8_lossy(word);
    let is_number = !digits.is_empty() && digits.bytes().all(|byte| byte.is_ascii_digit());
    is_number && digits.parse::<u128>().map_or(true, |number| number > u128::from(u32::MAX))
}

/// The table of reasons, as the header for C has it: a row is one line.
const REASONS: &str = include_str!("../../embed/sheetdesk_reason.h");

/// Why some call is refused with the number: the row that is for all.
pub fn reason(number: u32) -> &'static str {
    let begins = format!("{{{number}, \"\", \"");
    let found = REASONS.lines().find_map(|line| line.trim_start().strip_prefix(&begins));
    found.and_then(|row| row.strip_suffix("\"},")).unwrap_or("for a cause without words here")
}

/// Why a call is refused, in the words of `--echo`: the first row with the number that is for it.
pub fn refusal(call: &Call, number: u32) -> &'static str {
    let (line, number) = (call.line() + " ", number.to_string());
    let row = |line: &'static str| {
        let row = line.trim_start().strip_prefix('{')?.strip_suffix("\"},")?;
        let (of, rest) = row.split_once(", \"")?;
        rest.split_once("\", \"").filter(|_| of == number)
    };
    let is_for = |calls: &str| {
        let begins = |name: &str| line.starts_with(&format!("{name} "));
        calls.is_empty() || calls == "*" || calls.split(',').any(begins)
    };
    let found = REASONS.lines().filter_map(row).find(|row| is_for(row.0));
    found.map_or("for a cause that this page has no words for", |row| row.1)
}
