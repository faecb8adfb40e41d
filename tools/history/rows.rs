//! The calls of one desk as rows of the page. Lanes that nothing touches aren't drawn, and several
//! rows in which nothing is read or saved are folded into one.

use super::draw::{height, Lanes, UPRIGHT};
use super::names::applied;
use super::page::escaped;
use super::route;
use super::said::{behind, chain, links};
use super::story::{Lane, Part, Row, State};
use super::words::{counted, listed};

/// So many quiet rows behind each other fold.
const FOLDED: usize = 4;

/// The calls of one desk, from the first that is shown.
pub fn part_of_page(part: &Part, first: usize) -> String {
    let rows = part.rows[first..].iter().collect::<Vec<&Row>>();
    let before = first.checked_sub(1).map(|place| &part.rows[place]);
    let lanes = part.sizes.map(|sizes| touched(&rows, sizes));
    let title = title(part);
    let mut text = format!("<h2>{title}</h2>\n{}", lanes.as_ref().map_or("", |lanes| &lanes.1));
    if lanes.as_ref().is_some_and(|lanes| lanes.0.width() > UPRIGHT) {
        text.push_str("<style>@page { size: A4 landscape; }</style>\n");
    }
    text.push_str(&format!("<section class=\"part\" aria-label=\"{title}\">\n"));
    let lanes = lanes.map(|lanes| lanes.0);
    if let Some(lanes) = &lanes {
        text.push_str(&format!("<div class=\"top\">{}</div>\n", lanes.head()));
    }
    text.push_str("<ol class=\"rows\">\n");
    let paths = lanes.as_ref().map(|lanes| route::pieces(&rows, lanes));
    let drawn = Drawn { part, lanes: lanes.as_ref(), rows, before, paths };
    text.push_str(&drawn.all());
    text.push_str("</ol>\n");
    if lanes.is_some() {
        text.push_str("<svg class=\"over\" aria-hidden=\"true\"></svg>\n");
    }
    text.push_str("</section>\n");
    text
}

fn title(part: &Part) -> String {
    match part.sizes {
        None => String::from("No desk yet"),
        Some([k, w, n, p]) => format!(
            "A desk of {}, {}, {} and {}",
            counted(k, "sheet"),
            counted(w, "writer"),
            counted(n, "office"),
            counted(p, "run")
        ),
    }
}

/// The lanes that some row touches, and words for the others.
fn touched(rows: &[&Row], [_, _, n, p]: [usize; 4]) -> (Lanes, String) {
    let is_touched = |lane: Lane| {
        rows.iter().any(|row| {
            let stale = |office: usize| row.shelves.get(office).is_some_and(|s| s.stale != 0);
            let open = |run: usize| row.runs.get(run).is_some_and(|s| *s != State::Free);
            row.lane == Some(lane)
                || row.arrows.iter().any(|arrow| arrow.from == lane || arrow.to == lane)
                || matches!(lane, Lane::Office(office) if stale(office))
                || matches!(lane, Lane::Run(run) if open(run))
        })
    };
    let (offices, idle) = (0..n).partition::<Vec<usize>, _>(|o| is_touched(Lane::Office(*o)));
    let (runs, free) = (0..p).partition::<Vec<usize>, _>(|run| is_touched(Lane::Run(*run)));
    let left = [(&idle, "office"), (&free, "run")];
    let left = left.iter().filter(|(list, _)| !list.is_empty()).map(|(list, noun)| {
        let numbers = list.iter().map(usize::to_string).collect::<Vec<String>>();
        let plural = if list.len() == 1 { "" } else { "s" };
        escaped(&applied(&format!("{noun}{plural} {}", listed(&numbers))))
    });
    let left = left.collect::<Vec<String>>().join("; ");
    let said = match left.is_empty() {
        true => String::new(),
        false => format!("<p class=\"idle\">Not drawn, for nothing touches it: {left}.</p>\n"),
    };
    (Lanes::of(offices, runs), said)
}

/// Nothing is read, saved, fetched, evicted or explained in it, and a log has its answer.
fn is_quiet(row: &Row) -> bool {
    let moves = !row.arrows.is_empty() || row.issue.is_some();
    !moves && row.chains.is_empty() && row.recorded.is_none() && row.versions.is_empty()
}

/// The rows that are shown, with what is drawn in them.
struct Drawn<'a> {
    part: &'a Part,
    lanes: Option<&'a Lanes>,
    rows: Vec<&'a Row>,
    /// The row before the first.
    before: Option<&'a Row>,
    paths: Option<Vec<String>>,
}

impl Drawn<'_> {
    fn all(&self) -> String {
        let (mut text, mut at) = (String::new(), 0);
        while at < self.rows.len() {
            let quiet = self.rows[at..].iter().take_while(|row| is_quiet(row)).count();
            // The last row may be the one in question.
            let quiet = quiet.min(self.rows.len() - 1 - at);
            if quiet >= FOLDED {
                text.push_str(&self.fold(at, quiet));
                at += quiet;
            } else {
                text.push_str(&self.row(at));
                at += 1;
            }
        }
        text
    }

    fn above(&self, at: usize) -> Option<&Row> {
        at.checked_sub(1).map(|at| self.rows[at]).or(self.before)
    }

    fn drawing(&self, row: &Row, at: usize) -> String {
        let Some(lanes) = self.lanes else {
            return String::new();
        };
        let issue = row.issue.and_then(|number| self.part.issues.get(number));
        let paths = self.paths.as_ref().map_or("", |paths| &paths[at]);
        format!(
            "<div class=\"drawing\">{}</div><div class=\"room\" \
             style=\"flex-basis:{}px;min-height:{}px\"></div>",
            lanes.row(row, self.above(at), issue, paths),
            lanes.width(),
            height(row)
        )
    }

    /// Quiet rows, to be opened.
    fn fold(&self, at: usize, count: usize) -> String {
        let (first, last) = (self.rows[at], self.rows[at + count - 1]);
        let (shelves, runs) = (last.shelves.clone(), last.runs.clone());
        let through = Row { shelves, runs, ..Row::default() };
        let rows = (at..at + count).map(|at| self.row(at)).collect::<String>();
        format!(
            "<li class=\"fold\"><details><summary>{}<div class=\"say\">Lines {} to {}: {} in which \
             nothing is read or saved</div></summary><ol>\n{rows}</ol></details></li>\n",
            self.drawing(&through, at),
            first.line,
            last.line,
            counted(count, "call")
        )
    }

    fn row(&self, at: usize) -> String {
        let row = self.rows[at];
        let issue = row.issue.and_then(|number| self.part.issues.get(number));
        let kind = row.answer.split(' ').next().unwrap_or("");
        let mut text = format!(
            "<li class=\"row {kind}\" tabindex=\"-1\" id=\"line{0}\" data-line=\"{0}\"{1}>\n{2}",
            row.line,
            links(row, issue),
            self.drawing(row, at)
        );
        text.push_str(&format!(
            "\n<div class=\"say\"><p class=\"words\"><a class=\"no\" href=\"#line{0}\" \
             tabindex=\"-1\">{0}</a>{1}</p><p class=\"call\"><code>{2}</code> &rarr; \
             <code>{3}</code></p>",
            row.line,
            escaped(&applied(&row.words)),
            escaped(&row.call),
            escaped(&row.answer)
        ));
        if let Some(recorded) = &row.recorded {
            let recorded = escaped(recorded);
            text.push_str(&format!(
                "<p class=\"recorded\">The log has <code>{recorded}</code>.</p>"
            ));
        }
        text.push_str(&row.chains.iter().map(chain).collect::<String>());
        text.push_str(&issue.map_or(String::new(), |issue| behind(self.part, issue)));
        text.push_str("</div>\n</li>\n");
        text
    }
}
