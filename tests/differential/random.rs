//! Numbers, words and masks, from the sequence that the generated scripts have too.

pub use crate::generate::random::Random;

impl Random {
    /// One of these, each as likely.
    pub fn one_of(&mut self, choices: &[usize]) -> usize {
        choices[self.below(choices.len())]
    }

    /// Any word: small ones often, the largest and single bits too.
    pub fn word(&mut self) -> u32 {
        match self.below(10) {
            0..=4 => self.below(4) as u32,
            5 | 6 => self.below(40) as u32,
            7 => u32::MAX - self.below(2) as u32,
            8 => 1 << self.below(32),
            _ => self.next() as u32,
        }
    }

    /// A number that is mostly below the count, now and then at its edge or any word.
    pub fn near(&mut self, count: usize) -> u32 {
        match self.below(20) {
            0..=16 => self.below(count) as u32,
            17 => count as u32,
            18 => self.below(count + 2) as u32,
            _ => self.word(),
        }
    }

    /// A mask of items below the count, each with that chance.
    pub fn mask(&mut self, count: usize, percent: usize) -> u32 {
        (0..count).fold(0, |mask, k| mask | u32::from(self.chance(percent)) << k)
    }
}
