//! The paths of breaks over the lanes, in pieces: each row draws its own, so that they stay on
//! their rows wherever a page ends. A path leads from the step that breaks over the issues to the
//! step that had read. It goes along the channel on top of a row, and in a gutter beside the
//! master's lane, each leg in another place.

use super::breaks::Chain;
use super::draw::{Lanes, FIRST};
use super::names::name;
use super::page::escaped;
use super::story::{Lane, Row};

/// The most paths of a page: of more, the last ones.
const MOST: usize = 24;
/// How far a ring reaches.
const RING: usize = 15;

/// A place on a path: a row, by its place, and a lane.
struct Stop {
    row: usize,
    lane: Lane,
    /// The sheets of the path that this issue saved.
    sheets: Vec<usize>,
}

/// For each row the pieces that are drawn in it.
pub fn pieces(rows: &[&Row], lanes: &Lanes) -> Vec<String> {
    let mut drawn = vec![String::new(); rows.len()];
    let breaks = rows.iter().enumerate().filter(|(_, row)| !row.chains.is_empty());
    for (place, row) in breaks.rev().take(MOST) {
        let stops = stops(rows, place, &row.chains[0]);
        let would = if row.broken.is_some() { "" } else { " would" };
        let class = format!("path p{}{would}", row.line);
        // As far from each other as the gutter allows.
        let apart = (16 / stops.len().max(1)).clamp(1, 4);
        for (leg, pair) in stops.windows(2).enumerate() {
            let gutter = lanes.at(Lane::Master) + 17 + (apart * leg) % 16;
            draw(&mut drawn, lanes, (&class, leg, gutter), &pair[0], &pair[1]);
        }
        for stop in stops.iter().skip(1) {
            drawn[stop.row].push_str(&ring(lanes, &class, stop));
        }
    }
    drawn
}

/// The break, the path's issues that are on the page, or that of the other line's version, and the
/// step that had read.
fn stops(rows: &[&Row], place: usize, chain: &Chain) -> Vec<Stop> {
    let run = Lane::Run(chain.run);
    let mut stops = vec![Stop { row: place, lane: run, sheets: Vec::new() }];
    let versions = chain.links.iter().map(|link| &link.from);
    let versions = versions.chain(chain.links.last().map(|link| &link.needs));
    for version in versions.chain(chain.other.as_ref().map(|other| &other.version)) {
        let issue = version.issues.first().copied();
        let Some(row) = rows.iter().position(|row| row.issue.is_some() && row.issue == issue)
        else {
            continue;
        };
        match stops.last_mut().filter(|stop| stop.row == row) {
            Some(stop) => stop.sheets.push(version.sheet),
            None => stops.push(Stop { row, lane: Lane::Master, sheets: vec![version.sheet] }),
        }
    }
    if let Some(row) = rows.iter().position(|row| row.line == chain.read_at) {
        stops.push(Stop { row, lane: run, sheets: Vec::new() });
    }
    stops
}

/// One leg, by its class, its number and its place in the gutter: up from where it begins, along
/// the channel to the gutter, there to the other row, and along its channel down to where it ends.
fn draw(
    drawn: &mut [String],
    lanes: &Lanes,
    (class, leg, gutter): (&str, usize, usize),
    from: &Stop,
    to: &Stop,
) {
    let channel = 3 + 4 * (leg % 2);
    let (begin, end) = (lanes.at(from.lane) + 4, lanes.at(to.lane) - 4);
    let top = FIRST - RING;
    let mut piece = |row: usize, shape: &str| {
        drawn[row].push_str(&format!("<path class=\"{class}\" d=\"{shape}\"/>"))
    };
    piece(from.row, &format!("M{begin} {top}V{channel}H{gutter}"));
    let (high, low) = (from.row.min(to.row), from.row.max(to.row));
    let tip = format!("M{gutter} {channel}H{end}V{top}");
    drawn[to.row].push_str(&format!("<path class=\"{class} tip\" d=\"{tip}\"/>"));
    let mut line = |row: usize, y1: &str, y2: &str| {
        drawn[row].push_str(&format!(
            "<line class=\"{class}\" x1=\"{gutter}\" y1=\"{y1}\" x2=\"{gutter}\" y2=\"{y2}\"/>"
        ))
    };
    if high < low {
        line(high, &channel.to_string(), "100%");
        (high + 1..low).for_each(|row| line(row, "0", "100%"));
        line(low, "0", &channel.to_string());
    }
}

/// A ring around a place of the path, and what the path draws in there.
fn ring(lanes: &Lanes, class: &str, stop: &Stop) -> String {
    let x = lanes.at(stop.lane);
    let mut text =
        format!("<circle class=\"{class} ring\" cx=\"{x}\" cy=\"{FIRST}\" r=\"{RING}\"/>");
    if !stop.sheets.is_empty() {
        let sheets = stop.sheets.iter().map(|k| escaped(&name("sheet", *k)));
        let sheets = sheets.collect::<Vec<String>>();
        text.push_str(&format!(
            "<text class=\"{class}\" x=\"{}\" y=\"{}\">sheet {}</text>",
            x + 40,
            FIRST - 6,
            sheets.join(" \u{2192} ")
        ));
    }
    text
}
