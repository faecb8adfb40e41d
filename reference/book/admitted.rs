//! The book that begins at an admission: "needs listed at admission in place of the earlier
//! history".

use super::ledger::{Base, Ledger};
use super::rows::Rows;
use super::saves::Saves;
use super::turns::Turns;
use super::{has, Book, Finished, Job, Line, Run};
use crate::desk::layout::{COUNT, DONE, JOBS, JOB_LIST, LAST_ISSUE, NUMBER, PAST};
use crate::desk::Sizes;

impl Book {
    /// The book of a desk that admit has just taken.
    pub fn admitted(desk: &[u32], s: Sizes) -> Book {
        let base = Base {
            last: desk[LAST_ISSUE],
            counts: (0..s.w).map(|writer| desk[s.writer_at(writer) + COUNT]).collect(),
            pasts: (0..s.w).map(|w| Rows::of_past(s.writer_past(desk, w), s.w)).collect(),
        };
        Book {
            k: s.k,
            w: s.w,
            from_new: false,
            ledger: Ledger::on(base),
            master: copies(desk, s, |k| s.master_at(k)),
            shelves: (0..s.n).map(|o| copies(desk, s, |k| s.shelf_at(o, k))).collect(),
            allowances: (0..s.n).map(|office| desk[s.allowance_at(office)]).collect(),
            may_hold: (0..s.n).map(|office| desk[s.mayhold_at(office)]).collect(),
            may_save: (0..s.w).map(|writer| desk[s.maysave_at(writer)]).collect(),
            runs: (0..s.p).map(|run| admitted_run(desk, s, run)).collect(),
            turns: Turns::after(desk[s.round_at()] as usize, s.p),
        }
    }
}

/// The copies whose versions begin at these places.
fn copies(desk: &[u32], s: Sizes, at: impl Fn(usize) -> usize) -> Vec<Saves> {
    let copy = |k: usize| {
        let version = s.words(desk, at(k));
        Saves::admitted(k, &Rows::of_past(&version[PAST..], s.w), version[NUMBER])
    };
    (0..s.k).map(copy).collect()
}

/// A run as it was admitted. What a line has read counts as read by one finished job, on that line
/// alone: the words don't tell what was done before the fork.
fn admitted_run(desk: &[u32], s: Sizes, run: usize) -> Run {
    let words = &desk[s.run_at(run)..];
    let list = words[JOB_LIST..].chunks(3).take(words[JOBS] as usize);
    let jobs = list.map(|job| Job { office: job[0] as usize, reads: job[1] }).collect();
    let lines = [0, 1].map(|line| Line {
        read: desk[s.read_at(run, line)],
        card: copies(desk, s, |k| s.line_card_at(run, line, k)),
    });
    let job = words[DONE].trailing_zeros() as usize;
    let done = lines.iter().enumerate().filter(|(_, line)| line.read != 0);
    let finished = done.map(|(number, line)| Finished {
        job,
        read: sheets_of(line.read).map(|k| (k, line.card[k].clone())).collect(),
        on: [number == 0, number == 1],
    });
    let finished = finished.collect();
    Run { jobs, mark: desk[s.mark_at(run)], lines, finished }
}

/// The sheets of a mask.
fn sheets_of(mask: u32) -> impl Iterator<Item = usize> {
    (0..32).filter(move |k| has(mask, *k))
}
