//! The lanes of the drawing: beside each other, time from the top, one SVG for each row. A row is
//! as high as its words; what is drawn stands at fixed places from its top, and lanes go on to
//! its end.

use super::marks::{self, fitted};
use super::names;
use super::page::escaped;
use super::story::{Lane, Row, Shelf, State};
use super::versions::Issue;
use super::words::sheet_list;

/// Room for the labels of issues, left of the master's lane.
const LEFT: usize = 116;
/// Room for the paths of breaks, right of it.
const GUTTER: usize = 24;
/// Where a row's first arrow stands, and how far the next one is from it. Above is a channel for
/// the paths of breaks.
pub const FIRST: usize = 28;
pub const NEXT: usize = 20;
/// Lanes that are nearer than this have only their numbers on top, and the noun once.
const NAMED: usize = 66;

/// Wider lanes are printed across.
pub const UPRIGHT: usize = 690;

/// How the lanes of a desk lie: those that some row touches.
pub struct Lanes {
    offices: Vec<usize>,
    runs: Vec<usize>,
    pub gap: usize,
}

impl Lanes {
    pub fn of(offices: Vec<usize>, runs: Vec<usize>) -> Lanes {
        let gap = (520 / (1 + offices.len() + runs.len())).clamp(36, 92);
        Lanes { offices, runs, gap }
    }

    fn all(&self) -> Vec<Lane> {
        let offices = self.offices.iter().map(|office| Lane::Office(*office));
        let runs = self.runs.iter().map(|run| Lane::Run(*run));
        [Lane::Master].into_iter().chain(offices).chain(runs).collect()
    }

    pub fn at(&self, lane: Lane) -> usize {
        let place = |list: &[usize], at: usize| list.iter().position(|n| *n == at).unwrap_or(0);
        match lane {
            Lane::Master => LEFT,
            Lane::Office(office) => self.first_office() + self.gap * place(&self.offices, office),
            Lane::Run(run) => self.first_run() + self.gap * place(&self.runs, run),
        }
    }

    fn first_office(&self) -> usize {
        LEFT + GUTTER + self.gap
    }

    fn first_run(&self) -> usize {
        self.first_office() + self.gap * self.offices.len() + 12
    }

    pub fn width(&self) -> usize {
        self.first_run() + self.gap * self.runs.len().saturating_sub(1) + self.gap.max(48) - 10
    }

    /// The names on top of the lanes.
    pub fn head(&self) -> String {
        let head = |lane: Lane| {
            let (name, x) = (name(lane), self.at(lane));
            let shown = match (self.gap < NAMED, lane) {
                (true, Lane::Office(number)) => names::name("office", number),
                (true, Lane::Run(number)) => number.to_string(),
                _ => names::applied(&name),
            };
            // A name that is too long is cut; the rows have it whole.
            let room = if lane == Lane::Master { 6 } else { self.gap / 7 };
            let shown = escaped(&shown.chars().take(room).collect::<String>());
            format!("<text class=\"head\" data-lane=\"{name}\" x=\"{x}\" y=\"34\">{shown}</text>")
        };
        let mut heads = self.all().into_iter().map(head).collect::<String>();
        if self.gap < NAMED {
            let groups = [(&self.offices, self.first_office(), "offices")];
            for (list, x, noun) in groups.iter().chain(&[(&self.runs, self.first_run(), "runs")]) {
                if !list.is_empty() {
                    heads.push_str(&format!(
                        "<text class=\"group\" x=\"{}\" y=\"16\">{noun}</text>",
                        x - 8
                    ));
                }
            }
        }
        let width = self.width();
        format!(
            "<svg class=\"heads\" width=\"{width}\" height=\"42\" aria-hidden=\"true\">\
             {heads}</svg>"
        )
    }

    /// The row's drawing; `before` is the row above it, of the same desk, `paths` what is drawn
    /// in it of the paths of breaks.
    pub fn row(
        &self,
        row: &Row,
        before: Option<&Row>,
        issue: Option<&Issue>,
        paths: &str,
    ) -> String {
        let mut svg = format!("<svg aria-hidden=\"true\" width=\"{}\">", self.width());
        svg.push_str(&self.line(Lane::Master, "master", 0, None));
        for office in self.offices.iter().filter(|office| **office < row.shelves.len()) {
            let was = before.and_then(|row| row.shelves.get(*office)).copied();
            let is = row.shelves[*office];
            svg.push_str(&self.shelf(*office, was.unwrap_or_default(), is, below(row)));
        }
        for run in self.runs.iter().filter(|run| **run < row.runs.len()) {
            let was = before.and_then(|row| row.runs.get(*run)).copied().unwrap_or_default();
            svg.push_str(&self.run(*run, was, row.runs[*run]));
        }
        svg.push_str(paths);
        for (place, arrow) in row.arrows.iter().enumerate() {
            svg.push_str(&marks::arrow(self, arrow, FIRST + NEXT * place));
        }
        svg.push_str(&marks::mark(self, row));
        if let Some(issue) = issue {
            svg.push_str(&marks::point(self, row, issue));
        }
        svg.push_str("</svg>");
        svg
    }

    /// A lane's line between two heights; to the row's end if there is no second.
    fn line(&self, lane: Lane, class: &str, from: usize, to: Option<usize>) -> String {
        let x = self.at(lane);
        let to = to.map_or(String::from("100%"), |to| to.to_string());
        format!("<line class=\"{class}\" x1=\"{x}\" y1=\"{from}\" x2=\"{x}\" y2=\"{to}\"/>")
    }

    /// An office's lane: what its shelf was above the row's first arrow, and is below; which of
    /// its sheets are stale, where that changes.
    fn shelf(&self, office: usize, was: Shelf, is: Shelf, low: usize) -> String {
        let lane = Lane::Office(office);
        let mut svg = self.line(lane, shelf_class(was), 0, Some(FIRST));
        svg.push_str(&self.line(lane, shelf_class(is), FIRST, None));
        let said = match (is.held, is.stale) {
            (0, _) => String::from("empty"),
            (_, 0) => String::from("not stale"),
            (_, stale) => fitted("stale ", stale, self.gap),
        };
        // Lanes that are near each other have no room for words.
        if was.stale != is.stale && said.len() * 7 <= self.gap {
            let (x, stale) = (self.at(lane) + 6, is.stale);
            svg.push_str(&format!(
                "<text class=\"stale\" data-office=\"{office}\" data-stale=\"{stale}\" \
                 x=\"{x}\" y=\"{low}\">{said}<title>{}</title></text>",
                sheet_list(stale)
            ));
        }
        svg
    }

    /// A run's lane: a bar while it is open, hatched while it is broken.
    fn run(&self, run: usize, was: State, is: State) -> String {
        let (lane, x) = (Lane::Run(run), self.at(Lane::Run(run)));
        let mut svg = self.line(lane, "free", 0, None);
        svg.push_str(&self.bar(lane, was, 0, Some(FIRST)));
        svg.push_str(&self.bar(lane, is, FIRST, None));
        if (was == State::Free) != (is == State::Free) {
            let class = if is == State::Free { "end" } else { "begin" };
            svg.push_str(&format!("<path class=\"{class}\" d=\"M{} {FIRST}h18\"/>", x - 9));
        }
        svg
    }

    /// A part of a run's bar: its edges, and what is between them.
    fn bar(&self, lane: Lane, state: State, from: usize, to: Option<usize>) -> String {
        let (edge, inside) = match state {
            State::Free => return String::new(),
            State::Open => ("edge", "open"),
            State::Broken => ("edge broken", "open"),
        };
        let mut bar = self.line(lane, edge, from, to) + &self.line(lane, inside, from, to);
        if state == State::Broken {
            bar.push_str(&self.line(lane, "broken", from, to));
        }
        bar
    }
}

/// The place of a label below the arrows.
fn below(row: &Row) -> usize {
    FIRST + NEXT * row.arrows.len().max(1) - 2
}

/// How high a row must be for what is drawn in it.
pub fn height(row: &Row) -> usize {
    let labels = if row.rivals.is_empty() { 8 } else { 16 };
    below(row) + labels + if row.issue > Some(99) { 8 } else { 0 }
}

pub fn name(lane: Lane) -> String {
    match lane {
        Lane::Master => String::from("master"),
        Lane::Office(office) => format!("office {office}"),
        Lane::Run(run) => format!("run {run}"),
    }
}

fn shelf_class(shelf: Shelf) -> &'static str {
    match (shelf.held, shelf.stale) {
        (0, _) => "shelf empty",
        (_, 0) => "shelf",
        _ => "shelf behind",
    }
}
