//! The bill of a run: each sheet of its card, which version, who saved it, where it came from, and
//! what the master had by then.

use super::json::Json;
use super::log::Entry;
use super::names::{applied, name};
use super::story;
use super::tickets::{brought_json, names_json, version_json};
use super::told::{Brought, Told};
use super::versions::{held, sheets, Issues, Version};
use super::words::{self, counted};
use crate::text::Call;

/// A sheet of the card.
struct Item {
    version: Version,
    read_at: Option<usize>,
    brought: Vec<Brought>,
    master: Version,
}

pub struct Bill {
    line: usize,
    call: String,
    answer: String,
    run: usize,
    /// The line of the run, if it is forked.
    branch: Option<usize>,
    items: Vec<Item>,
    /// What an issue saved, with its number.
    saved: Option<(u32, u32)>,
    issues: Issues,
}

/// The bill at the last entry: of an issue or a drop before the run ends, else behind the call.
/// Nothing if the call isn't about a run that there is.
pub fn bill(entries: &[Entry]) -> Option<Bill> {
    let last = entries.last()?;
    let run = last.call.as_ref()?.run()? as usize;
    let ends = matches!(last.call, Some(Call::Issue(..) | Call::Drop(_)));
    let (mut parts, told) = story::tell_on(entries);
    let row = parts.last()?.rows.last()?;
    let (call, answer, saved) = (row.call.clone(), row.answer.clone(), row.issue);
    let until = entries.len() - usize::from(ends && row.answer.starts_with("ok"));
    let told = if until == entries.len() { told } else { story::tell_on(&entries[..until]).1 };
    let issues = std::mem::take(&mut parts.last_mut()?.issues);
    let told = told?;
    let branch = branch_of(last.call.as_ref()?);
    let branch = told.book.runs.get(run)?.is_forked.then_some(branch);
    let items = items(&told, run, branch.unwrap_or(0), &issues);
    let saved = saved.and_then(|number| Some((number, issues.get(number)?.sheets)));
    Some(Bill { line: last.line, call, answer, run, branch, items, saved, issues })
}

/// The line of its run that a call is about: 0, unless it names the other.
fn branch_of(call: &Call) -> usize {
    usize::from(matches!(call, Call::Step(_, _, 1) | Call::Explain(_, _, 1)))
}

fn items(told: &Told, run: usize, branch: usize, issues: &Issues) -> Vec<Item> {
    let (card, had) = (&told.book.runs[run].branches[branch].card, &told.had[run][branch]);
    let item = |k: usize| Item {
        version: issues.version(k, &card[k]),
        read_at: had.read_at(k),
        brought: had.brought(k),
        master: issues.version(k, &told.book.master[k]),
    };
    sheets(held(card)).map(item).collect()
}

impl Bill {
    /// A table with a line for each sheet.
    pub fn text(&self) -> String {
        let mut text = format!("line {}: {} -> {}\n", self.line, self.call, self.answer);
        let count = counted(self.items.len(), "sheet");
        let line = self.branch.map_or(String::new(), |branch| format!("line {branch} of "));
        text.push_str(&format!("the card of {line}run {} has {count}", self.run));
        if let Some((number, sheets)) = self.saved {
            let saved = words::sheet_list(sheets);
            text.push_str(&format!("; {} saved as issue {number}", applied(&saved)));
        }
        text.push('\n');
        let head = ["sheet", "issue", "writer", "saved", "read", "came from", "master had"];
        let mut rows = vec![head.map(String::from)];
        rows.extend(self.items.iter().map(|item| self.cells(item)));
        if !self.items.is_empty() {
            text.push_str(&table(&rows));
        }
        text
    }

    fn cells(&self, item: &Item) -> [String; 7] {
        let of = |cell: &dyn Fn(&super::versions::Issue) -> String| {
            let issues = item.version.issues.iter().filter_map(|number| self.issues.get(*number));
            words::listed(&issues.map(cell).collect::<Vec<String>>())
        };
        let master = match item.master == item.version {
            true => String::from("the same"),
            false => words::issue_list(&item.master.issues),
        };
        [
            name("sheet", item.version.sheet),
            words::numbers(&item.version.issues),
            of(&|issue| name("writer", issue.writer)),
            of(&|issue| format!("line {}", issue.line)),
            item.read_at.map_or(String::from("not read"), |line| format!("line {line}")),
            applied(&item.brought.iter().map(source).collect::<Vec<String>>().join("; ")),
            master,
        ]
    }

    pub fn json(&self) -> Json {
        let (number, sheets) = self.saved.unwrap_or_default();
        Json::object([
            ("line", Json::Number(self.line)),
            ("call", Json::text(&self.call)),
            ("answer", Json::text(&self.answer)),
            ("run", Json::Number(self.run)),
            ("line_of_run", Json::Number(self.branch.unwrap_or(0))),
            ("names", names_json()),
            ("issue", Json::Number(number as usize)),
            ("saved", Json::list(super::versions::sheets(sheets), Json::Number)),
            ("sheets", Json::list(&self.items, |item| self.item_json(item))),
        ])
    }

    fn item_json(&self, item: &Item) -> Json {
        Json::object([
            ("version", version_json(&item.version, &self.issues)),
            ("read_at_line", Json::Number(item.read_at.unwrap_or(0))),
            ("came_from", Json::list(&item.brought, brought_json)),
            ("master", version_json(&item.master, &self.issues)),
        ])
    }
}

/// Where a sheet of the card came from.
fn source(brought: &Brought) -> String {
    let Brought { office, line, .. } = brought;
    match brought.fetched {
        true => format!("master over the shelf of office {office} at line {line}"),
        false => format!("shelf of office {office} at line {line}"),
    }
}

/// Columns as wide as their widest cell.
fn table(rows: &[[String; 7]]) -> String {
    let wide = |at: usize| rows.iter().map(|row| row[at].chars().count()).max().unwrap_or(0);
    let widths = (0..7).map(wide).collect::<Vec<usize>>();
    let line = |row: &[String; 7]| {
        let cells = row.iter().zip(&widths).map(|(cell, width)| format!("{cell:<width$}"));
        format!("{}\n", cells.collect::<Vec<String>>().join("  ").trim_end())
    };
    rows.iter().map(line).collect()
}
