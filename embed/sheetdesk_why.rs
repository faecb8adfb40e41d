//! Why a desk isn't admitted, in words, found by looking at its words: a hint for people, outside
//! of what is proved. The verdict is the library's alone. Add this file beside those that it uses,
//! as `mod sheetdesk; mod sheetdesk_places; mod sheetdesk_why;`.
//!
//! It names the first condition that fails, in the order of the admission's list (form; cuts of
//! the master, the shelves, the lines' cards; rows; counts; issue numbers), with its office, run,
//! line and sheet. A clock stands in brackets, a count for each writer.
#![allow(dead_code)]

use super::sheetdesk::{covers, exports, ANSWER_WORDS};
use super::sheetdesk_places::{Place, Places, LINES};

/// What the library answers to admit: nothing if it is ok, or the number of the refusal.
pub fn refused(desk: &[u32]) -> Option<u32> {
    let mut answer = [0; ANSWER_WORDS];
    let (to, room) = (answer.as_mut_ptr(), answer.len());
    // Each pointer goes with the length of what it points to.
    unsafe { exports::sheetdesk_admit(desk.as_ptr(), desk.len(), to, room) };
    (answer[0] != 0).then_some(answer[1])
}

/// A clock for a reader.
fn clock(row: &[u32]) -> String {
    let counts = row.iter().map(u32::to_string).collect::<Vec<String>>();
    format!("({})", counts.join(" "))
}

/// A need that isn't met there.
fn cut(at: &Places, place: Place) -> Option<String> {
    let (scope, kind) = match place {
        Place::Card(run, _) => (at.plan(run), "cut of its run's plan"),
        _ => (u32::MAX, "causal cut"),
    };
    let pairs = (0..at.sheets).flat_map(|k| (0..at.sheets).map(move |d| (k, d)));
    let mut needs = pairs.filter(|(k, d)| {
        let needed = at.row(place, *k, *d).iter().any(|count| *count != 0);
        k != d && at.holds(place, *k) && needed && scope >> k & scope >> d & 1 == 1
    });
    needs.find_map(|(k, d)| {
        let (need, own) = (at.row(place, k, d), at.row(place, d, d));
        let held = at.holds(place, d);
        if held && covers(own, need) == Some(true) {
            return None;
        }
        let is = if held { format!("is at {}", clock(own)) } else { "isn't held".into() };
        let need = clock(need);
        Some(format!("{place} is no {kind}: sheet {k} needs sheet {d} at {need}, which {is}"))
    })
}

/// A row that the master's own row of its sheet doesn't cover.
fn rows(at: &Places) -> Option<String> {
    let uncovered = |d: usize, row: &[u32], keeper: String| {
        let own = at.row(Place::Master, d, d);
        (covers(own, row) != Some(true)).then(|| {
            let (own, row) = (clock(own), clock(row));
            let master = format!("the master's own row of sheet {d} is {own}");
            format!("{master}, and doesn't cover {row}, which {keeper}")
        })
    };
    for place in at.all() {
        for (k, d) in (0..at.sheets).flat_map(|k| (0..at.sheets).map(move |d| (k, d))) {
            let keeper = format!("{place} keeps with sheet {k}");
            if let Some(said) = uncovered(d, at.row(place, k, d), keeper) {
                return Some(said);
            }
        }
    }
    let pasts = (0..at.writers).flat_map(|u| (0..at.sheets).map(move |d| (u, d)));
    let keeper = |u| format!("the past of writer {u} keeps");
    pasts.map(|(u, d)| uncovered(d, at.past(u, d), keeper(u))).find_map(|said| said)
}

/// A count over its writer's, among the master's own rows, which cover all others.
fn counts(at: &Places) -> Option<String> {
    let places = (0..at.sheets).flat_map(|d| (0..at.writers).map(move |u| (d, u)));
    let mut found = places.map(|(d, u)| (d, u, at.count(u), at.row(Place::Master, d, d)[u]));
    let (d, u, count, kept) = found.find(|(_, _, count, kept)| kept > count)?;
    let row = format!("the master's own row of sheet {d} has {kept} of that writer");
    Some(format!("writer {u} has count {count}, and {row}"))
}

/// An issue number over the last one.
fn numbers(at: &Places) -> Option<String> {
    let last = at.last();
    let versions = at.all().into_iter().flat_map(|place| (0..at.sheets).map(move |k| (place, k)));
    let mut numbers = versions.map(|(place, k)| (place, k, at.version(place, k)[0]));
    let (place, k, number) = numbers.find(|(_, _, number)| *number > last)?;
    Some(format!("the last issue number is {last}, and {place} has sheet {k} with {number}"))
}

/// A run whose mark and lines don't fit: a mark above 2, a second line that isn't empty though the
/// run isn't forked, a sheet that was read on a line and isn't on its card.
fn lines(at: &Places, run: usize) -> Option<String> {
    let mark = at.mark(run);
    if mark > 2 {
        return Some(format!("run {run} has mark {mark}"));
    }
    if mark != 1 && at.second(run).iter().any(|word| *word != 0) {
        return Some(format!("run {run} has mark {mark}, and its line 1 isn't empty"));
    }
    let mut sheets = (0..LINES).flat_map(|line| (0..at.sheets).map(move |k| (line, k)));
    let (line, k) = sheets.find(|(line, k)| {
        at.read(run, *line) >> k & 1 == 1 && !at.holds(Place::Card(run, *line), *k)
    })?;
    Some(format!("line {line} of run {run} has read sheet {k}, which its card lacks"))
}

/// What isn't in form: a version, a run's lines, or something else.
fn form(at: &Places) -> String {
    let stands = |place: Place, k: usize| {
        let (version, own) = (at.version(place, k), at.row(place, k, k));
        match version[0] {
            0 => version.iter().all(|word| *word == 0),
            _ => version[1] != 0 && version[1] >> at.writers == 0 && own.iter().any(|c| *c != 0),
        }
    };
    let versions = at.all().into_iter().flat_map(|place| (0..at.sheets).map(move |k| (place, k)));
    let found = versions.filter(|(place, k)| !stands(*place, *k)).next();
    let said = |(place, k)| format!("{place} has no version of sheet {k} that is in form");
    found
        .map(said)
        .or_else(|| (0..at.runs).find_map(|run| lines(at, run)))
        .unwrap_or("a run, a shelf's mark, an allowance or a right isn't in form".into())
}

/// The reason; nothing if the desk is admitted, or if none is found.
pub fn why(desk: &[u32]) -> Option<String> {
    let number = refused(desk)?;
    let Some(at) = Places::of(desk) else {
        return Some("there is no desk, or its header doesn't fit its counts".into());
    };
    if number == 1 {
        return Some(form(&at));
    }
    let cuts = at.all().into_iter().find_map(|place| cut(&at, place));
    cuts.or_else(|| rows(&at)).or_else(|| counts(&at)).or_else(|| numbers(&at))
}
