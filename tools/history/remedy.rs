//! What mends a broken run: the user page's remedies (BROKEN RUNS), tried on a copy of the desk.

use super::copies::Book;
use super::replay::call_on;
use super::versions::{held, sheets};
use super::words;
use crate::desk::Answer;
use crate::text::{self, Call};

/// So often a fetch may be followed by one for a further sheet.
const ROUNDS: usize = 32;

pub enum Remedy {
    /// Calls behind which every job goes through.
    Calls(Vec<String>),
    /// The run reads sheets that were never issued: nothing but an issue of them helps.
    Unissued(u32),
    /// Neither goes through; the answer to prepare, with its cause.
    Neither(String),
}

/// The first remedy that goes through, for a run that has just been broken over the sheets.
pub fn remedy(book: &Book, run: usize, broken: u32) -> Remedy {
    let unissued = book.runs[run].plan() & !held(&book.master);
    if unissued != 0 {
        return Remedy::Unissued(unissued);
    }
    let jobs = &book.runs[run].jobs;
    let open = Call::Open(run as u32, book.list(run));
    let (drop, prepare) = (Call::Drop(run as u32), Call::Prepare(run as u32));
    let prepared = vec![drop.clone(), open.clone(), prepare];
    let answer = match tried(book, run, jobs.len(), &prepared) {
        Tried::Through => return Remedy::Calls(lines(&prepared)),
        Tried::Broken(_) => String::from("ok"),
        Tried::Refused(answer) => answer,
    };
    let mut offices = jobs.iter().map(|job| job.office as u32).collect::<Vec<u32>>();
    offices.sort_unstable();
    offices.dedup();
    let mut fetched = broken;
    for _ in 0..ROUNDS {
        let calls = [vec![drop.clone()], fetches(book, fetched, &offices), vec![open.clone()]];
        let calls = calls.concat();
        match tried(book, run, jobs.len(), &calls) {
            Tried::Through => return Remedy::Calls(lines(&calls)),
            Tried::Broken(more) if more & !fetched != 0 => fetched |= more,
            _ => break,
        }
    }
    Remedy::Neither(answer)
}

/// Fetches of the sheets for the offices; one that may not hold a sheet has no old one either.
fn fetches(book: &Book, fetched: u32, offices: &[u32]) -> Vec<Call> {
    let of = |k: usize| {
        let may_hold = offices.iter().filter(move |office| book.may_hold(**office) >> k & 1 == 1);
        may_hold.map(move |office| Call::Fetch(*office, k as u32))
    };
    sheets(fetched).flat_map(of).collect()
}

fn lines(calls: &[Call]) -> Vec<String> {
    calls.iter().map(Call::line).collect()
}

/// What comes of calls and the steps behind them.
enum Tried {
    Through,
    Broken(u32),
    Refused(String),
}

/// Makes the calls on a copy of the desk, then each step that can be made.
fn tried(book: &Book, run: usize, jobs: usize, calls: &[Call]) -> Tried {
    let mut desk = book.desk.clone();
    for call in calls {
        let answer = call_on(&mut desk, call);
        if !matches!(answer, Answer::Ok(_)) {
            return Tried::Refused(with_cause(call, &answer));
        }
    }
    let mut refused = String::new();
    let mut left = (0..jobs as u32).collect::<Vec<u32>>();
    for _ in 0..jobs {
        let mut still = Vec::new();
        for job in left {
            let step = Call::Step(run as u32, job, 0);
            match call_on(&mut desk, &step) {
                Answer::Ok(_) => {}
                Answer::Broken(mask) => return Tried::Broken(mask),
                answer => {
                    refused = with_cause(&step, &answer);
                    still.push(job);
                }
            }
        }
        left = still;
    }
    match left.is_empty() {
        true => Tried::Through,
        false => Tried::Refused(refused),
    }
}

/// An answer that isn't ok, and why a call is refused.
fn with_cause(call: &Call, answer: &Answer) -> String {
    let printed = text::print(answer);
    match answer {
        Answer::Refused(number) => format!("{printed} ({})", words::refusal(call, *number)),
        _ => printed,
    }
}
