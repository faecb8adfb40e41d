//! Audit for long records: the rule of `desk/audit.rs` by counters and a walk back, without a set.
//!
//! It takes no words of its own but a counter or two for each writer, and about I (I + Q W) steps
//! for I issues and Q reads. The selftest holds it against the rule.

use crate::desk::record::{header, HEAD, ISSUE};
use crate::desk::{Answer, UNREADABLE};

const WRITERS: usize = 16;

pub fn audit(words: &[u32]) -> Answer {
    let Some([k, w, issues, reads]) = header(words) else {
        return Answer::Refused(UNREADABLE);
    };
    let walker = Walker { words, k, w, issues, reads };
    if !walker.is_readable() {
        return Answer::Refused(UNREADABLE);
    }
    Answer::Ok(vec![walker.first_unsound()])
}

/// A record whose header fits the layout.
struct Walker<'a> {
    words: &'a [u32],
    k: usize,
    w: usize,
    issues: usize,
    reads: usize,
}

impl<'a> Walker<'a> {
    /// Writer, saved mask, first read and number of reads.
    fn issue(&self, at: usize) -> &'a [u32] {
        &self.words[HEAD + ISSUE * at..][..ISSUE]
    }

    /// The reads of an issue, each a sheet and its counts.
    fn reads_of(&self, issue: &[u32]) -> std::slice::ChunksExact<'a, u32> {
        let (size, from) = (1 + self.w, HEAD + ISSUE * self.issues);
        let words = &self.words[from + issue[2] as usize * size..];
        words[..issue[3] as usize * size].chunks_exact(size)
    }

    fn is_readable(&self) -> bool {
        // How many issues each writer has before this one.
        let mut before = [0; WRITERS];
        let mut first = 0;
        for at in 0..self.issues {
            let issue = self.issue(at);
            let [writer, saved, from, number] = [0, 1, 2, 3].map(|word| issue[word] as usize);
            let placed = from == first && number <= self.reads - first;
            if !placed || writer >= self.w || saved == 0 || saved >> self.k != 0 {
                return false;
            }
            if !self.reads_fit(at, issue, before) {
                return false;
            }
            first += number;
            before[writer] += 1;
        }
        first == self.reads
    }

    /// Each read has a sheet, a count that isn't 0, and none beyond its writer's issues; each
    /// counted issue saved the sheet, which the walk back finds out: `rank` is that of the issue
    /// that it comes to.
    fn reads_fit(&self, at: usize, issue: &[u32], mut rank: [u32; WRITERS]) -> bool {
        let ranged = self.reads_of(issue).all(|read| {
            (read[0] as usize) < self.k
                && read[1..].iter().any(|count| *count != 0)
                && read[1..].iter().zip(&rank).all(|(count, before)| count <= before)
        });
        if !ranged || issue[3] == 0 {
            return ranged;
        }
        (0..at).rev().all(|j| {
            let (writer, saved) = (self.issue(j)[0] as usize, self.issue(j)[1]);
            let counted = rank[writer];
            rank[writer] -= 1;
            let mut reads = self.reads_of(issue);
            reads.all(|read| read[1 + writer] != counted || saved >> read[0] & 1 == 1)
        })
    }

    /// The number, from 1, of the first issue that is no snapshot; 0 if all are.
    fn first_unsound(&self) -> u32 {
        let mut before = [0; WRITERS];
        for at in 0..self.issues {
            let issue = self.issue(at);
            if issue[3] != 0 && !self.is_snapshot(at, issue, before) {
                return at as u32 + 1;
            }
            before[issue[0] as usize] += 1;
        }
        0
    }

    /// `reach` has for each writer the largest count of an issue that is read or stands behind a
    /// read; all that a read sheet has of these must be in its read.
    fn is_snapshot(&self, at: usize, issue: &[u32], mut rank: [u32; WRITERS]) -> bool {
        let mut reach = [0; WRITERS];
        self.reads_of(issue).for_each(|read| raise(&mut reach, read));
        for j in (0..at).rev() {
            let other = self.issue(j);
            let (writer, saved) = (other[0] as usize, other[1]);
            let counted = rank[writer];
            rank[writer] -= 1;
            if counted > reach[writer] {
                continue;
            }
            let mut reads = self.reads_of(issue);
            if reads.any(|read| saved >> read[0] & 1 == 1 && read[1 + writer] < counted) {
                return false;
            }
            self.reads_of(other).for_each(|read| raise(&mut reach, read));
        }
        true
    }
}

fn raise(reach: &mut [u32; WRITERS], read: &[u32]) {
    for (most, count) in reach.iter_mut().zip(&read[1..]) {
        *most = (*most).max(*count);
    }
}
