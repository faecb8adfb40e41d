//! What stands on the lanes: arrows with their sheets, points with their issue, small marks.

use super::draw::{name, Lanes, FIRST};
use super::names::applied;
use super::page::escaped;
use super::story::{Arrow, Kind, Lane, Row};
use super::versions::Issue;
use super::words::{ranges, sheet_list};

pub fn arrow(lanes: &Lanes, arrow: &Arrow, y: usize) -> String {
    let (from, to, half) = (lanes.at(arrow.from), lanes.at(arrow.to), lanes.gap / 2);
    // The shape, and where the sheets stand above it.
    let (class, shape, middle) = match arrow.kind {
        Kind::Fetch => ("fetch", format!("M{} {y}H{}", from + 3, to - 3), to - half),
        Kind::Read => ("read", format!("M{} {y}H{}", from + 3, to - 8), to - half),
        Kind::Issue => ("issue", format!("M{} {y}H{}", from - 7, to + 13), from - half),
        Kind::Evict => ("evict", format!("M{} {y}h22", from + 3), from + 16),
        Kind::Card => ("card", format!("M{} {}h13v-8H{}", to + 7, y + 4, to + 9), to + 30),
        Kind::Break => ("cut", jagged(from + 3, to - 12, y), to - half),
    };
    let end = match arrow.kind {
        Kind::Evict => cross(from + 29, y),
        Kind::Break => cross(to - 14, y),
        _ => String::new(),
    };
    let label = match arrow.kind {
        Kind::Card => fitted("card ", arrow.sheets, lanes.gap),
        _ => fitted("", arrow.sheets, lanes.gap),
    };
    let high = if arrow.kind == Kind::Card { y + 14 } else { y - 5 };
    format!(
        "<g class=\"arrow {class}\" data-from=\"{}\" data-to=\"{}\" data-sheets=\"{}\">\
         <title>{}</title><path d=\"{shape}\"/>{end}\
         <text x=\"{middle}\" y=\"{high}\">{label}</text></g>",
        name(arrow.from),
        name(arrow.to),
        arrow.sheets,
        escaped(&applied(&sheet_list(arrow.sheets)))
    )
}

fn cross(x: usize, y: usize) -> String {
    format!("<path class=\"cross\" d=\"M{} {}l10 10m0 -10l-10 10\"/>", x - 5, y - 5)
}

fn jagged(from: usize, to: usize, y: usize) -> String {
    let middle = (from + to) / 2;
    format!("M{from} {y}H{}l4 -6l6 12l4 -6H{to}", middle - 7)
}

/// What stands on its lane without an arrow: a refusal, or a call that only answers.
pub fn mark(lanes: &Lanes, row: &Row) -> String {
    let (Some(lane), true) = (row.lane, row.arrows.is_empty()) else {
        return String::new();
    };
    let x = lanes.at(lane);
    let circle =
        |class: &str| format!("<circle class=\"{class}\" cx=\"{x}\" cy=\"{FIRST}\" r=\"6\"/>");
    if row.answer.starts_with("refused") {
        let slash = format!("M{} {}l8 -8", x - 4, FIRST + 4);
        return format!("{}<path class=\"not\" d=\"{slash}\"/>", circle("not"));
    }
    match row.only_answers {
        true => circle("look"),
        false => String::new(),
    }
}

/// An issue on the master's lane: a disc, or a diamond if it has rivals.
pub fn point(lanes: &Lanes, row: &Row, issue: &Issue) -> String {
    let x = lanes.at(Lane::Master);
    let rivals = row.rivals.iter().fold(0, |mask, version| mask | 1u32 << version.sheet);
    let (class, shape) = match rivals {
        0 => ("point", format!("<circle cx=\"{x}\" cy=\"{FIRST}\" r=\"10\"/>")),
        _ => ("point rival", format!("<path d=\"M{x} {}l13 13l-13 13l-13 -13z\"/>", FIRST - 13)),
    };
    let noun = if issue.sheets.count_ones() == 1 { "sheet " } else { "sheets " };
    let writer = escaped(&applied(&format!("writer {}", issue.writer)));
    let mut labels = vec![writer, fitted(noun, issue.sheets, 98)];
    // A number of three digits has no room in the disc.
    let inside = match issue.number {
        0..=99 => issue.number.to_string(),
        _ => String::new(),
    };
    if inside.is_empty() {
        labels.insert(0, format!("issue {}", issue.number));
    }
    if rivals != 0 {
        labels.push(fitted("rivals on ", rivals, 98));
    }
    let side = |(place, label): (usize, &String)| {
        let (x, y) = (x - 18, FIRST - 3 + 15 * place - if issue.number > 99 { 10 } else { 0 });
        format!("<text class=\"side\" x=\"{x}\" y=\"{y}\">{label}</text>")
    };
    format!(
        "<g class=\"{class}\" data-issue=\"{0}\" data-writer=\"{1}\" data-sheets=\"{2}\" \
         data-rivals=\"{rivals}\"><title>issue {0}, writer {1}: {5}</title>{shape}\
         <text class=\"number\" x=\"{x}\" y=\"{3}\">{inside}</text>{4}</g>",
        issue.number,
        issue.writer,
        issue.sheets,
        FIRST + 5,
        labels.iter().enumerate().map(side).collect::<String>(),
        sheet_list(issue.sheets)
    )
}

/// The sheets of a mask, with ranges; only how many if that has no room.
pub fn fitted(word: &str, mask: u32, room: usize) -> String {
    let range = |(from, to): &(usize, usize)| match to - from {
        0 => from.to_string(),
        1 => format!("{from} {to}"),
        _ => format!("{from}\u{2013}{to}"),
    };
    let text =
        format!("{word}{}", ranges(mask).iter().map(range).collect::<Vec<String>>().join(" "));
    if text.chars().count() * 7 <= room {
        return text;
    }
    format!("{word}({})", mask.count_ones())
}
