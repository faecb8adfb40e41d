//! Explain: "The drawing behind a break".

use super::layout::{has, Sizes};
use super::reads::{step_refusal, step_view};
use super::sets::leads;
use super::Answer;

/// "Explains a job of an open run without stepping it. If the job would break, it gives a path:
/// first a read of the job that the card lacks, each next one" a sheet to which the one before
/// leads, "the last already read". "It turns down what step does, by the same numbers, and
/// writes nothing." On a line it goes by that line's card and reads.
pub fn explain(desk: &[u32], s: Sizes, run: u32, job: u32, line: u32) -> Answer {
    if let Err(number) = step_refusal(desk, s, run, job, line) {
        return Answer::Refused(number);
    }
    let view = step_view(desk, s, run as usize, job as usize, line as usize);
    let read = desk[s.read_at(view.run, view.line)];
    match path(s.k, view.off_card, read, |c, d| leads(desk, s, &view, c, d)) {
        None => Answer::Clear,
        Some(sheets) => Answer::Path(sheets),
    }
}

/// "It is a shortest such path; of equally short ones, the smallest sheet by sheet": from a
/// sheet of `starts` to one of `ends`. A layer has for each sheet that so many sheets reach, and
/// no fewer, the smallest path to it.
pub fn path(
    k: usize,
    starts: u32,
    ends: u32,
    leads: impl Fn(usize, usize) -> bool,
) -> Option<Vec<u32>> {
    let first = (0..k).filter(|t| has(starts, *t));
    let mut layer = first.map(|t| vec![t as u32]).collect::<Vec<Vec<u32>>>();
    let mut reached = starts;
    while !layer.is_empty() {
        let ended = layer.iter().filter(|path| has(ends, last(path)));
        if let Some(smallest) = ended.min() {
            return Some(smallest.clone());
        }
        let fresh = (0..k).filter(|d| !has(reached, *d));
        layer = fresh.filter_map(|d| longer(&layer, d, &leads)).collect();
        for path in &layer {
            reached |= 1 << last(path);
        }
    }
    None
}

/// The smallest path of the layer that leads to d, with d behind it.
fn longer(
    layer: &[Vec<u32>],
    d: usize,
    leads: &impl Fn(usize, usize) -> bool,
) -> Option<Vec<u32>> {
    let smallest = layer.iter().filter(|path| leads(last(path), d)).min()?;
    Some([&smallest[..], &[d as u32]].concat())
}

/// A path has at least one sheet.
fn last(path: &[u32]) -> usize {
    path[path.len() - 1] as usize
}
