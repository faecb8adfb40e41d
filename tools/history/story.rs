//! What each call did: the library's answers, and the desk's copies before and after it.

use super::breaks::{Broken, Chain};
use super::log::Entry;
use super::replay::{printed, Replay};
use super::told::Told;
use super::versions::{Issues, Version};
use super::words;
use crate::desk::Answer;
use crate::text::Call;

/// The calls from one accepted new to the next; the first part may have no desk.
#[derive(Default)]
pub struct Part {
    /// Sheets, writers, offices, runs.
    pub sizes: Option<[usize; 4]>,
    pub rows: Vec<Row>,
    pub issues: Issues,
}

/// A call with its answer, what it moved, and how things stand behind it.
#[derive(Default)]
pub struct Row {
    pub line: usize,
    pub call: String,
    pub answer: String,
    /// What a log has, if that is another answer.
    pub recorded: Option<String>,
    pub words: String,
    /// The lane that it is about.
    pub lane: Option<Lane>,
    /// It changes nothing, whatever the answer is.
    pub only_answers: bool,
    pub arrows: Vec<Arrow>,
    /// The issue that it makes.
    pub issue: Option<u32>,
    /// The sheets of that issue whose master version now has rival saves.
    pub rivals: Vec<Version>,
    /// The versions that it moved or showed.
    pub versions: Vec<Version>,
    /// For each sheet that a break would move, explain's own path first; of a join without path.
    pub chains: Vec<Chain>,
    pub broken: Option<Broken>,
    pub shelves: Vec<Shelf>,
    pub runs: Vec<State>,
}

#[derive(Clone, Copy, PartialEq, Eq, Debug)]
pub enum Lane {
    Master,
    Office(usize),
    Run(usize),
}

/// What moves, and how it is drawn.
#[derive(Clone, Copy, PartialEq, Eq, Debug)]
pub enum Kind {
    Fetch,
    Evict,
    Read,
    /// From the card: nothing moves.
    Card,
    Issue,
    Break,
}

/// Sheets on their way from one lane to another.
pub struct Arrow {
    pub kind: Kind,
    pub from: Lane,
    pub to: Lane,
    pub sheets: u32,
}

/// The sheets that a shelf holds, and those of them that are stale.
#[derive(Clone, Copy, PartialEq, Eq, Default)]
pub struct Shelf {
    pub held: u32,
    pub stale: u32,
}

#[derive(Clone, Copy, PartialEq, Eq, Default, Debug)]
pub enum State {
    #[default]
    Free,
    Open,
    Broken,
}

/// Makes the calls and tells what each did.
pub fn tell(entries: &[Entry]) -> Vec<Part> {
    tell_on(entries).0
}

/// The same, and the desk as it stands then; its issues are in the last part.
pub fn tell_on(entries: &[Entry]) -> (Vec<Part>, Option<Told>) {
    let mut replay = Replay::fresh();
    let mut parts = vec![Part::default()];
    let mut told = None::<Told>;
    for entry in entries {
        let path = path_of(&mut replay, entry);
        let answer = replay.make(entry);
        if let (Some(Call::New(sizes)), Some(Answer::Ok(_))) = (&entry.call, &answer) {
            enter_issues(&mut parts, told.replace(Told::new(*sizes)).as_mut());
            let sizes = Some(sizes.map(|count| count as usize));
            parts.push(Part { sizes, ..Part::default() });
        }
        let mut row = one_row(told.as_mut(), entry, &answer, path);
        mark_rivals(&mut replay, &mut row);
        if let Some(part) = parts.last_mut() {
            mark_stale(&mut replay, &mut row, part.rows.last());
            part.rows.push(row);
        }
    }
    enter_issues(&mut parts, told.as_mut());
    parts.retain(|part| !part.rows.is_empty());
    (parts, told)
}

/// Of a list that was told whole the rows that are left for its last call, and those that the
/// last call names: the saves, and the steps that had read.
pub fn kept(mut parts: Vec<Part>, left: &[Entry]) -> Vec<Part> {
    let (mut issues, mut reads) = (Vec::new(), Vec::new());
    let last = parts.last().and_then(|part| part.rows.last());
    let moved = last.iter().flat_map(|row| &row.versions);
    issues.extend(moved.flat_map(|version| version.issues.clone()));
    for chain in last.iter().flat_map(|row| &row.chains) {
        let links = chain.links.iter().flat_map(|link| [&link.from, &link.needs]);
        let others = chain.other.iter().map(|other| &other.version).chain([&chain.read]);
        issues.extend(links.chain(others).flat_map(|version| version.issues.clone()));
        reads.push(chain.read_at);
    }
    let count = parts.len();
    for (place, part) in parts.iter_mut().enumerate() {
        part.rows.retain(|row| {
            let named = row.issue.is_some_and(|issue| issues.contains(&issue));
            left.binary_search_by_key(&row.line, |entry| entry.line).is_ok()
                || place + 1 == count && (named || reads.contains(&row.line))
        });
    }
    parts.retain(|part| !part.rows.is_empty());
    parts
}

/// The last part is told: its issues.
fn enter_issues(parts: &mut [Part], told: Option<&mut Told>) {
    if let (Some(part), Some(told)) = (parts.last_mut(), told) {
        part.issues = std::mem::take(&mut told.issues);
    }
}

/// The path that explain gives for the job that the entry steps or explains.
fn path_of(replay: &mut Replay, entry: &Entry) -> Option<Vec<u32>> {
    let Some(Call::Step(run, job, line) | Call::Explain(run, job, line)) = &entry.call else {
        return None;
    };
    match replay.ask(&Call::Explain(*run, *job, *line)) {
        Answer::Path(sheets) => Some(sheets),
        _ => None,
    }
}

/// The shelves' stale sheets, as the desk has them marked; words for those that weren't before.
fn mark_stale(replay: &mut Replay, row: &mut Row, before: Option<&Row>) {
    let mut clauses = Vec::new();
    for (office, shelf) in row.shelves.iter_mut().enumerate() {
        if let Answer::Ok(numbers) = replay.ask(&Call::Stale(office as u32)) {
            shelf.stale = numbers[0];
        }
        let was = before.and_then(|row| row.shelves.get(office)).map_or(0, |shelf| shelf.stale);
        if shelf.stale & !was != 0 {
            let sheets = words::sheet_list(shelf.stale & !was);
            clauses.push(format!("{sheets} at office {office}"));
        }
    }
    if !clauses.is_empty() {
        row.words.push_str(&format!(" Now stale: {}.", words::listed(&clauses)));
    }
}

/// The sheets of an issue that several writers lead on the master, as the desk has them.
fn mark_rivals(replay: &mut Replay, row: &mut Row) {
    for version in row.versions.iter().filter(|_| row.issue.is_some()) {
        let look = replay.ask(&Call::Look(0, 0, version.sheet as u32));
        if matches!(look, Answer::Ok(numbers) if numbers[1].count_ones() > 1) {
            row.rivals.push(version.clone());
        }
    }
    row.words.push_str(&words::rivals(&row.rivals));
}

fn one_row(
    told: Option<&mut Told>,
    entry: &Entry,
    answer: &Option<Answer>,
    path: Option<Vec<u32>>,
) -> Row {
    let printed = printed(answer);
    let mut row = Row {
        line: entry.line,
        call: entry.shown(),
        recorded: entry.recorded.clone().filter(|recorded| *recorded != printed),
        answer: printed,
        ..Row::default()
    };
    let (Some(call), Some(answer)) = (&entry.call, answer) else {
        row.words = format!("No call, nothing changed: {}.", words::unread(&entry.text));
        return row;
    };
    if let Answer::Refused(number) = answer {
        row.words = format!("Refused, nothing changed: {}.", words::refusal(call, *number));
    }
    // It needs no desk, and is about none.
    if let (Call::Audit(_), Answer::Ok(numbers)) = (call, answer) {
        row.words = words::audited(numbers[0]);
    }
    if let Some(told) = told {
        told.work(&mut row, call, answer, path);
    }
    row
}
