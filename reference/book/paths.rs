//! The path behind a break on copies, found from its end: how far each sheet of C is from a sheet
//! that was read, then from the start always the lowest sheet that is nearer.

use super::{has, Book};

impl Book {
    /// The path that explain gives for a step that isn't refused; nothing if the step goes
    /// through.
    pub fn find_path(&self, run: usize, job: usize, line: usize) -> Option<Vec<u32>> {
        let found = self.find_step(run, job, line);
        let (plan, line) = (self.runs[run].plan(), &self.runs[run].lines[line]);
        let sheets = (0..self.k).filter(|k| has(found.set, *k)).collect::<Vec<usize>>();
        let mut next = vec![Vec::new(); self.k];
        for c in &sheets {
            let leads = |d: usize| self.leads(plan, &line.card, &found.shelf, *c, d);
            let led = sheets.iter().filter(|d| *d != c && leads(**d));
            next[*c] = led.copied().collect();
        }
        let far = self.distances(&sheets, &next, line.read);
        let starts = sheets.iter().filter(|k| has(found.off_card, **k));
        let nearest = starts.filter_map(|k| far[*k].map(|left| (left, *k))).min();
        let (mut left, mut at) = nearest?;
        let mut path = vec![at as u32];
        while left > 0 {
            left -= 1;
            let nearer = next[at].iter().filter(|d| far[**d] == Some(left));
            at = *nearer.min().expect("some next sheet is nearer");
            path.push(at as u32);
        }
        Some(path)
    }

    /// For each sheet how many more lead from it to a sheet of the read mask, if any do.
    fn distances(&self, sheets: &[usize], next: &[Vec<usize>], read: u32) -> Vec<Option<usize>> {
        let mut far = vec![None; self.k];
        for k in sheets.iter().filter(|k| has(read, **k)) {
            far[*k] = Some(0);
        }
        for left in 0..self.k {
            for c in sheets {
                if far[*c].is_none() && next[*c].iter().any(|d| far[*d] == Some(left)) {
                    far[*c] = Some(left + 1);
                }
            }
        }
        far
    }
}
