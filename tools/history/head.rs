//! What stands on top of the page: the counts of the whole list, what was left out, where it
//! breaks.

use super::names::applied;
use super::page::{escaped, LISTED};
use super::remedy::Remedy;
use super::story::{Part, Row};
use super::tickets::without;
use super::words::{counted, listed, sentence as sentence_of};

/// What stands on top of the page.
pub struct Head<'a> {
    /// What the script is called.
    pub name: &'a str,
    /// The line and the answer of each call, also of those that the page doesn't show.
    pub answered: Vec<(usize, &'a String)>,
    /// If calls were left out: what is left, and of what.
    pub shrunk: Option<String>,
    /// The most calls that the page shows: of more, the last ones.
    pub most: usize,
}

/// How many calls the whole list has, what was left out of it, how many of the rest aren't shown,
/// and where the breaks are.
pub fn summary(head: &Head, parts: &[Part], hidden: usize) -> String {
    let of = |word: &'static str| {
        head.answered.iter().filter(move |(_, answer)| answer.starts_with(word))
    };
    let mut text = format!(
        "<p class=\"summary\">{}: {} broken, {} refused, {} unread.</p>\n",
        counted(head.answered.len(), "call"),
        of("broken").count(),
        of("refused").count(),
        of("unread").count()
    );
    if let Some(shrunk) = &head.shrunk {
        text.push_str(&format!("<p class=\"shrunk\">{}</p>\n", escaped(shrunk)));
    }
    if hidden > 0 {
        text.push_str(&format!(
            "<p class=\"last\">The page shows the last {} of these calls; --shrink prints the \
             {hidden} before them too.</p>\n",
            head.most
        ));
    }
    let rows = parts.iter().flat_map(|part| &part.rows).skip(hidden).collect::<Vec<&Row>>();
    let shown = rows.iter().map(|row| row.line).collect::<Vec<usize>>();
    let breaks = of("broken").map(|(line, _)| *line).collect::<Vec<usize>>();
    if !breaks.is_empty() {
        let lines = lines(&breaks, &shown);
        text.push_str(&format!("<p class=\"breaks\">A run breaks at {lines}.</p>\n"));
    }
    if let Some(row) = rows.iter().rev().find(|row| row.broken.is_some()) {
        text.push_str(&cause(row));
    }
    if rows.len() >= MANY {
        text.push_str(&overview(&rows));
        text.push_str(&filter(parts));
    }
    text
}

/// So many rows have an overview and a filter.
const MANY: usize = 40;

/// The sentences of a break and its remedy.
fn cause(row: &Row) -> String {
    let sentence = |chain: &super::breaks::Chain| {
        format!("<p class=\"sentence\">{}</p>", escaped(&applied(&chain.sentence)))
    };
    let remedy = match row.broken.as_ref().map(|broken| &broken.remedy) {
        Some(Remedy::Calls(calls)) => {
            let calls = calls.iter().map(|call| format!("<code>{}</code>", escaped(call)));
            let calls = calls.collect::<Vec<String>>().join(", ");
            format!("Behind {calls} every job goes through.")
        }
        Some(other) => escaped(&applied(&sentence_of(&without(other)))) + ".",
        None => String::new(),
    };
    format!(
        "<div class=\"why cause\"><p><a href=\"#line{0}\">Line {0}</a>: {1}</p>{2}\
         <p class=\"remedy\">{remedy}</p></div>\n",
        row.line,
        escaped(&applied(&row.words)),
        row.chains.iter().map(sentence).collect::<String>()
    )
}

/// A tick for each call, which leads to its row.
fn overview(rows: &[&Row]) -> String {
    let tick = |row: &&Row| {
        let kind = match row.answer.split(' ').next().unwrap_or("") {
            "broken" => "broken",
            "refused" | "unread" => "refused",
            _ if row.issue.is_some() => "save",
            _ if row.arrows.is_empty() => "quiet",
            _ => "moves",
        };
        let (line, words) = (row.line, escaped(&applied(&row.words)));
        format!(
            "<a class=\"tick {kind}\" href=\"#line{line}\" title=\"{line}: {words}\" \
             tabindex=\"-1\"></a>"
        )
    };
    format!(
        "<nav class=\"overview\" aria-label=\"All calls, a tick each: high for a save, red for a \
         break, hollow for a refusal\">{}</nav>\n",
        rows.iter().map(tick).collect::<String>()
    )
}

/// Shows the rows that are about one sheet.
fn filter(parts: &[Part]) -> String {
    let most = parts.iter().filter_map(|part| part.sizes).map(|sizes| sizes[0]).max();
    let option = |k: usize| {
        format!("<option value=\"{k}\">{}</option>", escaped(&applied(&format!("sheet {k}"))))
    };
    format!(
        "<p class=\"filter\"><label>Rows about <select id=\"filter\"><option value=\"\">all sheets\
         </option>{}</select></label></p>\n",
        (0..most.unwrap_or(0)).map(option).collect::<String>()
    )
}

/// The first lines of a list, those that are shown as links.
fn lines(lines: &[usize], shown: &[usize]) -> String {
    let said = |line: &usize| match shown.contains(line) {
        true => format!("<a href=\"#line{line}\">line {line}</a>"),
        false => format!("line {line}"),
    };
    let mut items = lines.iter().take(LISTED).map(said).collect::<Vec<String>>();
    if lines.len() > LISTED {
        items.push(format!("{} more", lines.len() - LISTED));
    }
    listed(&items)
}
