//! What an issue number in an answer takes: so many issues, and what each of them takes.
//!
//! A look at sheet k answers a number, the leading writers and a count for each writer. Each desk
//! here began with new: a replay starts on zeros, and admit makes no desk. So the issue of that
//! number saved k, and nothing in the copy is later: its writer leads, with the count that it had
//! then. The copy has all saves of k up to that number, and is older than the master's just if
//! another save of k follows. Leaving calls out adds none: an issue's number and its writer's count
//! are never more than the issue calls up to it.

use super::log::Entry;
use crate::desk::Answer;
use crate::text::Call;

/// What a list must lead to: the last entry's answer.
pub struct Goal<'a> {
    pub entries: &'a [Entry],
    pub answer: Option<Answer>,
    pub number: Number,
}

impl<'a> Goal<'a> {
    pub fn of(entries: &'a [Entry], answer: Option<Answer>) -> Goal<'a> {
        let number = Number::of(entries[entries.len() - 1].call.as_ref(), &answer);
        Goal { entries, answer, number }
    }

    pub fn last(&self) -> &'a Entry {
        &self.entries[self.entries.len() - 1]
    }
}

/// What the last call's answer takes.
pub struct Number {
    /// So many issues before it.
    pub least: usize,
    seen: Option<Seen>,
}

/// What a look answered.
struct Seen {
    /// Place, its number and the sheet.
    at: (u32, u32, u32),
    number: usize,
    leaders: u32,
    row: Vec<usize>,
    older: bool,
}

/// The issue calls that count: those before `until`.
#[derive(Default)]
pub struct Bound {
    pub until: usize,
    pub issues: usize,
}

impl Number {
    fn of(call: Option<&Call>, answer: &Option<Answer>) -> Number {
        let (mut least, mut seen) = (0, None);
        match (call, answer) {
            (Some(Call::Look(place, owner, sheet)), Some(Answer::Ok(numbers))) => {
                if let [number, leaders, row @ .., standing] = numbers.as_slice() {
                    (least, seen) = (*number as usize, Some(Seen {
                        at: (*place, *owner, *sheet),
                        number: *number as usize,
                        leaders: *leaders,
                        row: row.iter().map(|count| *count as usize).collect(),
                        older: *standing == 1,
                    }));
                }
            }
            (Some(Call::Issue(..)), Some(Answer::Ok(numbers))) => {
                least = numbers.first().map_or(0, |number| (*number as usize).saturating_sub(1));
            }
            _ => {}
        }
        Number { least, seen }
    }

    /// The issue calls up to the last that may get the number, in a list with its places or in
    /// any part of it. For an issue's own number all of them count.
    pub fn bound<'a, Calls>(&self, calls: Calls) -> Bound
    where
        Calls: DoubleEndedIterator<Item = (usize, &'a Call)> + Clone,
    {
        let end = self.seen.as_ref().map_or(usize::MAX, |seen| seen.end(calls.clone()));
        let mut counts = [0; 32];
        let (mut issues, mut bound) = (0, Bound::default());
        for (at, call) in calls.take_while(|(at, _)| *at < end) {
            let Some((writer, mask)) = issued(call) else {
                continue;
            };
            issues += 1;
            counts[writer % 32] += 1;
            let count = counts[writer % 32];
            if self.seen.as_ref().is_none_or(|seen| seen.may_be(issues, writer, count, mask)) {
                bound = Bound { until: at + 1, issues };
            }
        }
        bound
    }
}

impl Seen {
    /// The issue seen stands before the last call that may bring it to where it is seen; and,
    /// if the copy is older, before the last save of the sheet.
    fn end<'a>(&self, calls: impl DoubleEndedIterator<Item = (usize, &'a Call)> + Clone) -> usize {
        let last = |wanted: &dyn Fn(&Call) -> bool| {
            let found = calls.clone().rev().find(|(_, call)| wanted(call));
            found.map_or(0, |(at, _)| at)
        };
        let (place, owner, _) = self.at;
        let brings = |call: &Call| match call {
            Call::Fetch(office, _) => place == 1 && *office == owner,
            Call::Prepare(run) | Call::Step(run, ..) => place == 1 || *run == owner,
            _ => false,
        };
        let brought = if place == 0 { usize::MAX } else { last(&brings) };
        let saves = |call: &Call| issued(call).is_some_and(|(_, mask)| self.saved(mask));
        brought.min(if self.older { last(&saves) } else { usize::MAX })
    }

    fn saved(&self, mask: u32) -> bool {
        mask >> (self.at.2 % 32) & 1 == 1
    }

    /// Whether an issue call may be the one seen, with so many issue calls and so many of its
    /// writer up to it: as many of the others' go as are over, and as many of the writer's.
    fn may_be(&self, issues: usize, writer: usize, count: usize, mask: u32) -> bool {
        let due = self.row.get(writer).copied().unwrap_or(0);
        self.saved(mask)
            && self.leaders >> (writer % 32) & 1 == 1
            && count >= due
            && issues >= self.number + (count - due)
    }
}

/// Writer and mask of an issue that gets a number, if it isn't refused.
pub fn issued(call: &Call) -> Option<(usize, u32)> {
    match call {
        Call::Issue(_, writer, mask) if *mask != 0 => Some((*writer as usize, *mask)),
        _ => None,
    }
}

/// Opens and steps of a run since its last issue.
#[derive(Clone, Default)]
struct Since {
    opens: Vec<(usize, usize)>,
    steps: [Vec<usize>; 8],
}

/// Which of the calls can't go if each issue among them must be accepted: the new, the issues,
/// and where between two of a run (the first one frees it) a single open stands, that one, and
/// what alone steps one of its jobs.
pub fn certain<'a>(calls: impl Iterator<Item = (usize, &'a Call)>, certain: &mut [bool]) {
    let mut runs = vec![Since::default(); 8];
    for (at, call) in calls {
        match call {
            Call::New(_) => certain[at] = true,
            Call::Open(run, jobs) => runs[*run as usize].opens.push((at, jobs.len() / 3)),
            Call::Step(run, job, _) => runs[*run as usize].steps[*job as usize].push(at),
            Call::Issue(run, _, mask) if *mask != 0 => {
                certain[at] = true;
                let since = std::mem::take(&mut runs[*run as usize]);
                if let [(open, jobs)] = since.opens.as_slice() {
                    certain[*open] = true;
                    let alone = since.steps[..*jobs].iter().filter(|steps| steps.len() == 1);
                    alone.for_each(|steps| certain[steps[0]] = true);
                }
            }
            _ => {}
        }
    }
}
