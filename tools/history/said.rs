//! What is said of a row beside its drawing: paths of breaks, and what stands behind an issue.

use super::breaks::Chain;
use super::names::applied;
use super::page::{escaped, LISTED};
use super::story::{Part, Row};
use super::versions::{Issue, Version};
use super::words::{counted, issue_list, listed, numbers, sentence, sheet_list, version};

/// What the script goes by: the row's issue, the issues just behind it, those that it moves,
/// whether it has the path of a break, and its sheets.
pub fn links(row: &Row, issue: Option<&Issue>) -> String {
    let spaced =
        |numbers: Vec<u32>| numbers.iter().map(u32::to_string).collect::<Vec<String>>().join(" ");
    let of = |versions: &[Version]| {
        versions.iter().flat_map(|version| version.issues.clone()).collect::<Vec<u32>>()
    };
    let mut text = format!(" data-versions=\"{}\"", spaced(of(&row.versions)));
    if let Some(issue) = issue {
        let mut after = [of(&issue.reads), issue.own.into_iter().collect()].concat();
        after.sort_unstable();
        after.dedup();
        text.push_str(&format!(
            " data-issue=\"{}\" data-after=\"{}\"",
            issue.number,
            spaced(after)
        ));
    }
    if !row.chains.is_empty() {
        text.push_str(" data-path=\"1\"");
    }
    let moved = row.arrows.iter().fold(0, |mask, arrow| mask | arrow.sheets);
    let named = row.versions.iter().chain(row.chains.iter().map(|chain| &chain.read));
    let touched = named.fold(moved, |mask, version| mask | 1 << version.sheet);
    text.push_str(&format!(" data-touched=\"{touched}\""));
    text
}

/// The sentence of a break, and its path step by step.
pub fn chain(chain: &Chain) -> String {
    let mut text = format!(
        "<div class=\"why{}\"><p class=\"sentence\">{}</p><ol class=\"chain\">",
        if chain.would { " would" } else { "" },
        escaped(&applied(&chain.sentence))
    );
    for (place, link) in chain.links.iter().enumerate() {
        let (from, needs) = (sentence(&version(&link.from)), version(&link.needs));
        let shelf = match place + 1 < chain.links.len() && link.shelf != link.needs {
            true => {
                let newer = version(&link.shelf);
                format!("; the shelf of office {} has the newer {newer}", chain.office)
            }
            false => String::new(),
        };
        let said = escaped(&applied(&format!("{from} needs {needs}{shelf}.")));
        text.push_str(&format!("<li>{said}</li>"));
    }
    if let Some(other) = &chain.other {
        let said = escaped(&applied(&version(&other.version)));
        text.push_str(&format!("<li>The other line has {said}.</li>"));
    }
    text.push_str(&format!(
        "<li class=\"had\">Run {} had read {}, at <a href=\"#line{2}\">line {2}</a>.</li>\
         </ol></div>",
        chain.run,
        escaped(&applied(&version(&chain.read))),
        chain.read_at
    ));
    text
}

/// What stands behind an issue, on demand.
pub fn behind(part: &Part, issue: &Issue) -> String {
    let behind = part.issues.behind(issue.number);
    if behind.is_empty() {
        return String::from("<p class=\"call\">Nothing stands behind it.</p>");
    }
    let mut text = format!(
        "<details class=\"behind\"><summary>Behind issue {} stand{} {}</summary><ul>",
        issue.number,
        if behind.len() == 1 { "s" } else { "" },
        counted(behind.len(), "issue")
    );
    for other in behind.iter().rev().take(LISTED).filter_map(|number| part.issues.get(*number)) {
        text.push_str(&format!(
            "<li>issue {} ({}): {}</li>",
            other.number,
            escaped(&applied(&format!("writer {}, {}", other.writer, sheet_list(other.sheets)))),
            escaped(&applied(&why(part, issue, other.number)))
        ));
    }
    if behind.len() > LISTED {
        text.push_str(&format!("<li>and {} earlier ones</li>", behind.len() - LISTED));
    }
    text.push_str("</ul></details>");
    text
}

/// Why an issue stands behind another.
fn why(part: &Part, issue: &Issue, earlier: u32) -> String {
    let read = issue.reads.iter().filter(|read| read.issues.contains(&earlier));
    let read = read.map(|read| read.sheet.to_string()).collect::<Vec<String>>();
    if !read.is_empty() {
        let noun = if read.len() == 1 { "sheet" } else { "sheets" };
        return format!("the run had read its {noun} {}", listed(&read));
    }
    if issue.own == Some(earlier) {
        return String::from("the writer's own issue before");
    }
    let direct = issue.reads.iter().flat_map(|read| read.issues.clone()).chain(issue.own);
    let over = direct.filter(|number| part.issues.is_behind(earlier, *number));
    let mut over = over.collect::<Vec<u32>>();
    over.sort_unstable();
    over.dedup();
    match over.len() {
        0 => String::from("included in what the run had read"),
        1 => format!("stands behind {}", issue_list(&over)),
        _ => format!("stands behind issues {}", numbers(&over)),
    }
}
