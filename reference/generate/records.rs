//! Records for audits: of a random history whose issues read snapshots (careful), of one in which
//! some don't (careless), and both spoiled.
//!
//! It goes by clocks: the issues behind an issue are, of each writer, the first so many.

use crate::desk::record::{Issue, Read, Record};
use crate::random::Random;

/// How a history is drawn: K, W, its issues, and how many of a hundred issues read carelessly.
#[derive(Clone, Copy)]
pub struct Shape {
    pub k: usize,
    pub w: usize,
    pub issues: usize,
    pub careless: usize,
}

/// Sizes that let sheets and writers meet, with at most so many issues.
pub fn shape(random: &mut Random, most: usize, careless: usize) -> Shape {
    let (k, w) = match random.below(20) {
        0 => (1, 1),
        1 => (1 + random.below(32), 1 + random.below(16)),
        2 => (32, 1 + random.below(3)),
        _ => (1 + random.below(4), 1 + random.below(4)),
    };
    // Few issues leave little to read.
    let least = if careless > 0 { most.min(4) } else { 0 };
    Shape { k, w, issues: least + random.below(most - least + 1), careless }
}

/// A history as it grows.
struct Drawn {
    record: Record,
    /// For each writer its issues.
    own: Vec<Vec<usize>>,
    /// For each issue how many of each writer's it is or has behind it.
    clocks: Vec<Vec<u32>>,
}

/// A history of this shape.
pub fn history(random: &mut Random, shape: Shape) -> Record {
    let Shape { k, w, issues, careless } = shape;
    let record = Record { k, w, issues: Vec::new() };
    let mut drawn = Drawn { record, own: vec![Vec::new(); w], clocks: Vec::new() };
    for _ in 0..issues {
        let mut reads = drawn.snapshot(random);
        if random.chance(careless) {
            drawn.slip(random, &mut reads);
        }
        let several = if random.chance(30) { random.next() & random.next() } else { 0 };
        let saved = 1 << random.below(k) | several & ((1 << k) - 1);
        drawn.enter(random.below(w), saved as u32, reads);
    }
    drawn.record
}

impl Drawn {
    /// A cut: what some issues are and have behind them, or all there is.
    fn some_cut(&self, random: &mut Random) -> Vec<u32> {
        let issues = self.clocks.len();
        if issues == 0 || random.chance(25) {
            return self.own.iter().map(|own| own.len() as u32).collect();
        }
        let mut cut = vec![0; self.record.w];
        for _ in 0..1 + random.below(3) {
            // Late ones more often.
            let most = 1 + random.below(issues);
            let back = random.below(most);
            join(&mut cut, &self.clocks[issues - 1 - back]);
        }
        cut
    }

    /// Reads of some sheets as of one cut.
    fn snapshot(&self, random: &mut Random) -> Vec<Read> {
        let (k, cut) = (self.record.k, self.some_cut(random));
        let wanted = [1, 1, 1, 2, 2, 3, 5][random.below(7)].min(k);
        let from = random.below(k);
        let sheets = (0..wanted).map(|more| (from + more) % k);
        let mut reads = sheets.map(|sheet| self.as_of(sheet, &cut)).collect::<Vec<Read>>();
        reads.retain(|read| read.counts.iter().any(|count| *count != 0));
        if random.chance(10) && !reads.is_empty() {
            // "A sheet read twice", with equal counts.
            let again = reads[random.below(reads.len())].clone();
            reads.insert(random.below(reads.len() + 1), again);
        }
        reads
    }

    /// A sheet's row in a cut: of each writer the last issue in it that saved the sheet.
    fn as_of(&self, sheet: usize, cut: &[u32]) -> Read {
        let count = |(own, most): (&Vec<usize>, &u32)| {
            let mut issues = own[..*most as usize].iter();
            let last = issues.rposition(|at| self.record.issues[*at].saved >> sheet & 1 == 1);
            last.map_or(0, |place| place as u32 + 1)
        };
        Read { sheet, counts: self.own.iter().zip(cut).map(count).collect() }
    }

    /// What a late issue saved, as of this issue, and another sheet as of it but for the last save
    /// of one writer, which may stand behind it by a chain alone.
    fn one_older(&self, random: &mut Random) -> Vec<Read> {
        let (k, w, issues) = (self.record.k, self.record.w, self.clocks.len());
        let at = issues - 1 - random.below(issues.min(4));
        let cut = &self.clocks[at];
        let own = self.record.issues[at].saved.trailing_zeros() as usize;
        let older = (0..k * w).filter(|place| place / w != own).map(|place| {
            let (mut read, writer) = (self.as_of(place / w, cut), place % w);
            let mut less = cut.clone();
            less[writer] = read.counts[writer].saturating_sub(1);
            let lower = self.as_of(read.sheet, &less).counts[writer];
            let lowered = std::mem::replace(&mut read.counts[writer], lower) > lower;
            (read, lowered)
        });
        let mut older = older
            .filter(|(read, lowered)| *lowered && read.counts.iter().any(|count| *count != 0))
            .map(|(read, _)| read)
            .collect::<Vec<Read>>();
        if !older.is_empty() {
            older = vec![older.swap_remove(random.below(older.len()))];
        }
        older.insert(random.below(older.len() + 1), self.as_of(own, cut));
        older
    }

    /// Reads that can be read but may be of no cut: one save too old, sheets as of several cuts,
    /// another count, a sheet read twice, or one more sheet.
    fn slip(&self, random: &mut Random, reads: &mut Vec<Read>) {
        if random.chance(45) && !self.clocks.is_empty() {
            *reads = self.one_older(random);
            return;
        }
        if random.chance(60) {
            for _ in 0..1 + random.below(3) {
                let (sheet, cut) = (random.below(self.record.k), self.some_cut(random));
                reads.push(self.as_of(sheet, &cut));
            }
            reads.retain(|read| read.counts.iter().any(|count| *count != 0));
            return;
        }
        if reads.is_empty() || random.chance(20) {
            let sheet = random.below(self.record.k);
            reads.push(Read { sheet, counts: vec![0; self.record.w] });
        } else if random.chance(20) {
            reads.push(reads[random.below(reads.len())].clone());
        }
        let at = if random.chance(50) { reads.len() - 1 } else { random.below(reads.len()) };
        for _ in 0..1 + random.below(2) {
            let writer = random.below(self.record.w);
            let any = random.below(self.own[writer].len() + 1) as u32;
            let mut cut = vec![0; self.record.w];
            cut[writer] = any;
            let sheet = reads[at].sheet;
            reads[at].counts[writer] = self.as_of(sheet, &cut).counts[writer];
        }
        reads.retain(|read| read.counts.iter().any(|count| *count != 0));
    }

    fn enter(&mut self, writer: usize, saved: u32, reads: Vec<Read>) {
        let mut clock = vec![0; self.record.w];
        if let Some(last) = self.own[writer].last() {
            join(&mut clock, &self.clocks[*last]);
        }
        for read in &reads {
            let counts = self.own.iter().zip(&read.counts);
            for (own, count) in counts.filter(|(_, count)| **count > 0) {
                join(&mut clock, &self.clocks[own[*count as usize - 1]]);
            }
        }
        self.own[writer].push(self.clocks.len());
        clock[writer] = self.own[writer].len() as u32;
        self.clocks.push(clock);
        self.record.issues.push(Issue { writer, saved, reads });
    }
}

fn join(clock: &mut [u32], other: &[u32]) {
    for (mine, count) in clock.iter_mut().zip(other) {
        *mine = (*mine).max(*count);
    }
}
