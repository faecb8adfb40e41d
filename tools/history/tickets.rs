//! Every break of a log as text for a ticket, or as JSON; refusals counted by their numbers.

use super::breaks::{Broken, Chain};
use super::had::History;
use super::json::Json;
use super::names;
use super::remedy::Remedy;
use super::story::{Part, Row};
use super::told::Brought;
use super::versions::{Issues, Version};
use super::words::{self, counted};

/// A break: its row, and the issues since its desk's new.
type Break<'a> = (&'a Row, &'a Broken, &'a Issues);

fn breaks(parts: &[Part]) -> impl Iterator<Item = Break<'_>> {
    parts.iter().flat_map(|part| {
        let broken = |row: &'_ Row| row.broken.is_some();
        let rows = part.rows.iter().filter(move |row| broken(row));
        rows.filter_map(|row| row.broken.as_ref().map(|broken| (row, broken, &part.issues)))
    })
}

/// How many calls are refused by each number, and the line of the first.
fn refusals(history: &History) -> Vec<(u32, usize, usize)> {
    let mut found = Vec::<(u32, usize, usize)>::new();
    for (entry, answer) in history.log.entries.iter().zip(&history.answers) {
        let Some(number) = answer.strip_prefix("refused ").and_then(|word| word.parse().ok())
        else {
            continue;
        };
        match found.iter_mut().find(|refused| refused.0 == number) {
            Some(refused) => refused.1 += 1,
            None => found.push((number, 1, entry.line)),
        }
    }
    found.sort_unstable();
    found
}

pub fn text(history: &History, parts: &[Part]) -> String {
    let count = |word: &str| history.answers.iter().filter(|a| a.starts_with(word)).count();
    let mut text = format!(
        "{}: {}, {} broken, {} refused, {} unread\n",
        history.name,
        counted(history.log.entries.len(), "call"),
        count("broken"),
        count("refused"),
        count("unread")
    );
    for (row, broken, issues) in breaks(parts) {
        text.push_str(&format!(
            "\nline {}: {} breaks the run: {}\n",
            row.line,
            breaker(broken),
            row.answer
        ));
        for chain in &row.chains {
            text.push_str(&path(chain, issues));
        }
        text.push_str(&remedy(&broken.remedy));
    }
    for (place, (number, count, line)) in refusals(history).iter().enumerate() {
        let (calls, why) = (counted(*count, "call"), words::reason(*number));
        let space = if place == 0 { "\n" } else { "" };
        text.push_str(&format!("{space}refused {number}: {calls}, first at line {line}: {why}\n"));
    }
    text
}

/// The call that broke the run.
fn breaker(broken: &Broken) -> String {
    let run = broken.run;
    match &broken.step {
        Some(step) if step.branch == 0 => {
            format!("job {} of run {run}, at office {},", step.job, step.office)
        }
        Some(step) => {
            format!("job {} of run {run}, on line 1, at office {},", step.job, step.office)
        }
        None => format!("the join of run {run}"),
    }
}

/// A version with its saves: issue, writer and line of each.
pub fn saved(version: &Version, issues: &Issues) -> String {
    let save = |number: &u32| match issues.get(*number) {
        Some(issue) => {
            format!("issue {number} by writer {} at line {}", issue.writer, issue.line)
        }
        None => format!("issue {number}"),
    };
    let saves = version.issues.iter().map(save).collect::<Vec<String>>();
    format!("sheet {} of {}", version.sheet, words::listed(&saves))
}

/// A path and what the run had read, a line each.
fn path(chain: &Chain, issues: &Issues) -> String {
    let mut text = format!("  {}\n", chain.sentence);
    for link in &chain.links {
        let (from, needs) = (saved(&link.from, issues), saved(&link.needs, issues));
        text.push_str(&format!("    {from}\n      needs {needs}\n"));
    }
    let read = saved(&chain.read, issues);
    text.push_str(&format!("    read at line {}: {read}\n", chain.read_at));
    text.push_str(&sources(&chain.brought));
    if let Some(other) = &chain.other {
        text.push_str(&format!("    on the other line: {}\n", saved(&other.version, issues)));
        text.push_str(&sources(&other.brought));
    }
    text
}

/// Where a sheet came from, a line each.
fn sources(brought: &[Brought]) -> String {
    let line = |brought: &Brought| {
        let source = if brought.fetched { ", fetched from the master then" } else { "" };
        let (line, office) = (brought.line, brought.office);
        format!("    brought at line {line} by the shelf of office {office}{source}\n")
    };
    brought.iter().map(line).collect()
}

/// What mends the run, in words or as calls.
pub fn remedy(remedy: &Remedy) -> String {
    match remedy {
        Remedy::Calls(calls) => {
            let calls = calls.iter().map(|call| format!("    {call}\n")).collect::<String>();
            format!("  remedy, behind which every job goes through:\n{calls}")
        }
        other => format!("  {}\n", without(other)),
    }
}

/// Why there is no remedy as calls.
pub fn without(remedy: &Remedy) -> String {
    match remedy {
        Remedy::Calls(_) => String::new(),
        Remedy::Unissued(sheets) => format!(
            "no remedy yet: the run reads {}, never issued; issue that first",
            words::sheet_list(*sheets)
        ),
        Remedy::Neither(answer) => format!(
            "no remedy by prepare or fetch alone: behind drop and open, prepare is answered \
             {answer}"
        ),
    }
}

pub fn json(history: &History, parts: &[Part]) -> Json {
    let count = |word: &str| history.answers.iter().filter(|a| a.starts_with(word)).count();
    let refused = |(number, count, line): (u32, usize, usize)| {
        Json::object([
            ("number", Json::Number(number as usize)),
            ("calls", Json::Number(count)),
            ("first_line", Json::Number(line)),
        ])
    };
    Json::object([
        ("log", Json::text(&history.name)),
        ("calls", Json::Number(history.log.entries.len())),
        ("unread", Json::Number(count("unread"))),
        ("refused", Json::list(refusals(history), refused)),
        ("names", names_json()),
        ("breaks", Json::list(breaks(parts), break_json)),
    ])
}

/// The names that the log gives.
pub fn names_json() -> Json {
    let list = |(kind, list): (&str, &[String])| {
        (kind.to_string(), Json::list(list, |name| Json::text(name)))
    };
    Json::Object(names::all().into_iter().map(list).collect())
}

fn break_json((row, broken, issues): Break) -> Json {
    let mut members = vec![("line", Json::Number(row.line)), ("run", Json::Number(broken.run))];
    if let Some(step) = &broken.step {
        members.extend([
            ("job", Json::Number(step.job)),
            ("office", Json::Number(step.office)),
            ("line_of_run", Json::Number(step.branch)),
        ]);
    }
    members.extend([
        ("answer", Json::text(&row.answer)),
        ("sheets", Json::list(&row.chains, |chain| chain_json(chain, issues))),
    ]);
    match &broken.remedy {
        Remedy::Calls(calls) => {
            members.push(("remedy", Json::list(calls, |call| Json::text(call))))
        }
        other => members.push(("no_remedy", Json::Text(without(other)))),
    }
    Json::object(members)
}

fn chain_json(chain: &Chain, issues: &Issues) -> Json {
    let link = |link: &super::breaks::Link| {
        Json::object([
            ("sheet", version_json(&link.from, issues)),
            ("needs", version_json(&link.needs, issues)),
        ])
    };
    let mut members = vec![
        ("sentence", Json::Text(names::applied(&chain.sentence))),
        ("path", Json::list(&chain.links, link)),
        ("read", version_json(&chain.read, issues)),
        ("read_at_line", Json::Number(chain.read_at)),
        ("brought", Json::list(&chain.brought, brought_json)),
    ];
    if let Some(other) = &chain.other {
        members.push(("other", version_json(&other.version, issues)));
        members.push(("other_brought", Json::list(&other.brought, brought_json)));
    }
    Json::object(members)
}

pub fn brought_json(brought: &Brought) -> Json {
    let source = if brought.fetched { "master" } else { "shelf" };
    Json::object([
        ("office", Json::Number(brought.office)),
        ("line", Json::Number(brought.line)),
        ("from", Json::text(source)),
    ])
}

pub fn version_json(version: &Version, issues: &Issues) -> Json {
    let save = |number: &u32| {
        let issue = issues.get(*number);
        Json::object([
            ("issue", Json::Number(*number as usize)),
            ("writer", Json::Number(issue.map_or(0, |issue| issue.writer))),
            ("line", Json::Number(issue.map_or(0, |issue| issue.line))),
        ])
    };
    Json::object([
        ("sheet", Json::Number(version.sheet)),
        ("saves", Json::list(&version.issues, save)),
    ])
}
