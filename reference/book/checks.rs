//! The claims of demand 3, and that no copy is ahead of the master, tested on a desk's words
//! and the book after each call.

use super::saves::Saves;
use super::{has, Book, Finished, Line};
use crate::desk::layout::{LEADERS, NUMBER, PAST};
use crate::desk::version::{compare, held, meets, needs, row, Standing, NOBODY};
use crate::desk::Sizes;
use std::sync::atomic::Ordering;

/// Plans with more sheets than this aren't gone through choice by choice.
pub const SMALL_PLAN: u32 = 5;

impl Book {
    /// 3a: "after it each shelf is a causal cut".
    pub fn check_cuts(&self, desk: &[u32], s: Sizes) -> Result<(), String> {
        for office in 0..s.n {
            for k in 0..s.k {
                let version = s.words(desk, s.shelf_at(office, k));
                for d in (0..s.k).filter(|d| held(version) && needs(version, s.w, k, *d)) {
                    let other = s.words(desk, s.shelf_at(office, d));
                    if !meets(other, s.w, d, row(version, s.w, d)) {
                        return Err(format!("3a: shelf {office}: sheet {k} needs sheet {d}"));
                    }
                }
            }
        }
        Ok(())
    }

    /// 3b: "each version on master, shelves and cards is the one that document 01's book
    /// gives".
    pub fn check_versions(&self, desk: &[u32], s: Sizes) -> Result<(), String> {
        for k in 0..s.k {
            self.check_version(desk, s, s.master_at(k), &self.master[k])?;
            for office in 0..s.n {
                self.check_version(desk, s, s.shelf_at(office, k), &self.shelves[office][k])?;
            }
            for (at, copy) in self.cards(s, k) {
                self.check_version(desk, s, at, copy)?;
            }
        }
        Ok(())
    }

    /// Where each line of each run has its version of sheet k, and the copy.
    fn cards(&self, s: Sizes, k: usize) -> Vec<(usize, &Saves)> {
        let lines = (0..s.p).flat_map(|run| [(run, 0), (run, 1)]);
        let copy = |(run, line): (usize, usize)| &self.runs[run].lines[line].card[k];
        lines.map(|at| (s.line_card_at(at.0, at.1, k), copy(at))).collect()
    }

    /// The version at a place of the desk is its copy counted; on a desk from new its mask "names
    /// just the writers whose last included save stands behind no other included save".
    fn check_version(
        &self,
        desk: &[u32],
        s: Sizes,
        at: usize,
        copy: &Saves,
    ) -> Result<(), String> {
        let (words, mask) = (s.words(desk, at), self.ledger.leading(copy, s.w));
        let (number, past) = self.ledger.counted(copy, s.k, s.w);
        if words[NUMBER] != number || words[PAST..] != past {
            let book = (number, past);
            return Err(format!("3b: at word {at} the desk has {words:?}, the book {book:?}"));
        }
        if self.from_new && words[LEADERS] != mask {
            let named = words[LEADERS];
            return Err(format!("at word {at} the desk names {named}, by the book {mask} lead"));
        }
        Ok(())
    }

    /// No copy is ahead: each held version on a shelf or card stands equal or older against the
    /// master's, and the master's copy has all its saves.
    pub fn check_none_ahead(&self, desk: &[u32], s: Sizes) -> Result<(), String> {
        for k in 0..s.k {
            for office in 0..s.n {
                self.check_behind(desk, s, s.shelf_at(office, k), k, &self.shelves[office][k])?;
            }
            for (at, copy) in self.cards(s, k) {
                self.check_behind(desk, s, at, k, copy)?;
            }
        }
        Ok(())
    }

    /// The version of sheet k at a place of the desk, and its copy, aren't ahead of the master's.
    fn check_behind(
        &self,
        desk: &[u32],
        s: Sizes,
        at: usize,
        k: usize,
        copy: &Saves,
    ) -> Result<(), String> {
        let (version, master) = (s.words(desk, at), s.words(desk, s.master_at(k)));
        let standing = compare(row(version, s.w, k), row(master, s.w, k));
        let behind = matches!(standing, Standing::Equal | Standing::Older);
        if held(version) && !behind || !self.master[k].includes(copy) {
            return Err(format!("at word {at} sheet {k} is ahead of the master: {standing:?}"));
        }
        Ok(())
    }

    /// Each shelf's mark names just the sheets whose copy isn't empty and isn't the master's.
    pub fn check_marks(&self, desk: &[u32], s: Sizes) -> Result<(), String> {
        for office in 0..s.n {
            let (mark, due) = (desk[s.stale_at(office)], self.stale(office));
            if mark != due {
                return Err(format!("shelf {office} is marked {mark}, by the book {due}"));
            }
        }
        Ok(())
    }

    /// From new every merge names a leader by what its sides say: no writer leads for want of one.
    pub fn check_named(&self) -> Result<(), String> {
        match NOBODY.load(Ordering::Relaxed) {
            merges if self.from_new && merges > 0 => {
                Err(format!("{merges} merges named no leader"))
            }
            _ => Ok(()),
        }
    }

    /// Lists "pass on by merge, reading and issue": a copy's own list has all that is listed behind
    /// its later saves.
    pub fn check_lists(&self) -> Result<(), String> {
        let cards = self.runs.iter().flat_map(|run| &run.lines).map(|line| &line.card);
        for copy in cards.chain(&self.shelves).chain([&self.master]).flatten() {
            if !copy.rows().includes(&self.ledger.with_behind(copy).rows()) {
                return Err(format!("a list lacks what is behind the copy's saves: {copy:?}"));
            }
        }
        Ok(())
    }

    /// 3c for each pair of finished jobs of each run whose reads stand on one line: "two share one
    /// if on one line, or if one was done before the fork", and "once their lines are joined". A
    /// job is paired with itself too, which asks more than the demand does.
    pub fn check_snapshots(&self) -> Result<(), String> {
        for (number, run) in self.runs.iter().enumerate() {
            for (place, one) in run.finished.iter().enumerate() {
                for other in &run.finished[..=place] {
                    if one.shares_line(other) && !self.one_snapshot(one, other) {
                        let (a, b) = (one.job, other.job);
                        return Err(format!("3c: run {number}, jobs {a} and {b}"));
                    }
                }
            }
        }
        Ok(())
    }

    /// "A sheet that both read is one version, and each save of a sheet that either read, if
    /// by the book it stands behind anything either read, is included in the version read."
    fn one_snapshot(&self, one: &Finished, other: &Finished) -> bool {
        let all = one.read.iter().chain(&other.read).collect::<Vec<_>>();
        all.iter().all(|(sheet, copy)| {
            all.iter().all(|(d, read)| {
                (sheet != d || self.one_version(copy, read))
                    && copy.includes(&self.ledger.need(read, *sheet))
            })
        })
    }

    /// 3d by trying every choice: does a step go through? Nothing for a plan that isn't small.
    pub fn goes_through(&self, run: usize, job: usize, line: usize) -> Option<bool> {
        let found = self.find_step(run, job, line);
        let (run, line) = (&self.runs[run], &self.runs[run].lines[line]);
        let sheets = (0..self.k).filter(|k| has(run.plan(), *k)).collect::<Vec<usize>>();
        if sheets.len() as u32 > SMALL_PLAN {
            return None;
        }
        let reads = run.jobs[job].reads;
        let choices = 4u32.pow(sheets.len() as u32);
        Some((0..choices).any(|choice| {
            let mut chosen = vec![Saves::default(); self.k];
            for (place, k) in sheets.iter().enumerate() {
                let kind = (choice >> (2 * place)) & 3;
                chosen[*k] = choose(kind, &line.card[*k], &found.shelf[*k]);
            }
            self.choice_stands(line, reads, &sheets, &chosen)
        }))
    }

    /// The choice "holds all that the job reads, leaves the sheets already read as they were
    /// and meets every need among the plan's sheets".
    fn choice_stands(&self, line: &Line, reads: u32, sheets: &[usize], chosen: &[Saves]) -> bool {
        sheets.iter().all(|k| {
            let holds = !has(reads, *k) || !chosen[*k].is_empty();
            let leaves = !has(line.read, *k) || chosen[*k].alike(&line.card[*k]);
            holds && leaves
        }) && sheets.iter().all(|k| {
            let others = sheets.iter().filter(|d| *d != k);
            others.into_iter().all(|d| chosen[*d].includes(&self.ledger.need(&chosen[*k], *d)))
        })
    }
}

/// "The card's version, the office's (after the step's fetch), their merge or none."
fn choose(kind: u32, card: &Saves, office: &Saves) -> Saves {
    match kind {
        0 => card.clone(),
        1 => office.clone(),
        2 => {
            let mut both = card.clone();
            both.join(office);
            both
        }
        _ => Saves::default(),
    }
}
