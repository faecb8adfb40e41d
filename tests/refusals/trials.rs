//! A call through the exported library, a lent buffer with guard words, and what is held against
//! each answer.

use crate::desk::stale::set_mark;
use crate::desk::Sizes;
use crate::library;
use crate::text::Call;

pub const GUARD: usize = 16;
// The least words of an answer slice.
pub const ANSWER: usize = 40;
pub const MARK: u32 = 0xA5A5_5A5A;

// A lent buffer with guard words behind it.
#[derive(Clone)]
pub struct Desk {
    pub words: Vec<u32>,
    pub len: usize,
}

impl Desk {
    pub fn of(len: usize, fill: u32) -> Desk {
        let mut words = vec![fill; len];
        words.extend([MARK; GUARD]);
        Desk { words, len }
    }

    // A new desk of these counts, with two words more than it needs.
    pub fn fresh(counts: [u32; 4]) -> Desk {
        let mut desk = Desk::of(total(counts) + 2, 7);
        desk.call(&Call::New(counts));
        desk
    }

    // Where the parts of the desk are, by its counts.
    pub fn sizes(&self) -> Sizes {
        let [k, w, n, p] = [0, 1, 2, 3].map(|at| self.words[at]);
        Sizes::of(k, w, n, p).expect("counts of a desk")
    }

    // Puts these words from a place on.
    pub fn put(&mut self, at: usize, words: &[u32]) {
        self.words[at..at + words.len()].copy_from_slice(words);
    }

    // Each shelf's mark as form asks it.
    pub fn put_marks(&mut self) {
        let s = self.sizes();
        (0..s.n).for_each(|office| set_mark(&mut self.words, s, office));
    }

    pub fn call(&mut self, c: &Call) -> Vec<u32> {
        self.call_with(c, ANSWER)
    }

    // The call with an answer slice of so many words.
    pub fn call_with(&mut self, c: &Call, room: usize) -> Vec<u32> {
        let mut answer = vec![MARK; room];
        let count = library::call(&mut self.words[..self.len], c, &mut answer) as usize;
        assert!(answer[count..].iter().all(|word| *word == MARK), "a word behind the answer");
        answer[..count].to_vec()
    }
}

// What a forecast answers, and a scratch of so many words, each of them 7, behind it. The desk and
// the words past the scratch stay.
pub fn forecast(t: &mut Trials, desk: &mut Desk, len: usize, run: u32) -> (Vec<u32>, Vec<u32>) {
    let (before, mut answer) = (desk.words.clone(), vec![MARK; ANSWER]);
    let mut scratch = vec![7; len];
    scratch.extend([MARK; GUARD]);
    let (lent, kept) = scratch.split_at_mut(len);
    let count = library::forecast(&desk.words[..desk.len], lent, run, &mut answer) as usize;
    let guarded = kept.iter().chain(&answer[count..]).all(|word| *word == MARK);
    t.check("forecast, desk and guard words", guarded && desk.words == before);
    (answer[..count].to_vec(), lent.to_vec())
}

// The words of a desk of these counts.
pub fn total([k, w, n, p]: [u32; 4]) -> usize {
    Sizes::of(k, w, n, p).expect("counts of a desk").total()
}

pub struct Trials {
    pub tried: usize,
    pub wrong: usize,
}

impl Trials {
    pub fn check(&mut self, what: &str, good: bool) {
        self.tried += 1;
        if !good {
            self.wrong += 1;
            println!("wrong: {what}");
        }
    }

    // Refused with this number, and every word as it was.
    pub fn refused(&mut self, what: &str, desk: &mut Desk, c: Call, number: u32) {
        let before = desk.words.clone();
        let answer = desk.call(&c);
        self.check(what, answer == [2, number] && desk.words == before);
    }

    // Answered with these words, and every word of the desk as it was.
    pub fn told(&mut self, what: &str, desk: &mut Desk, c: Call, words: &[u32]) {
        let before = desk.words.clone();
        let answer = desk.call(&c);
        if answer != words {
            println!("  {answer:?}");
        }
        self.check(what, answer == words && desk.words == before);
    }

    // Answered ok with these numbers, the guard untouched.
    pub fn ok(&mut self, what: &str, desk: &mut Desk, c: Call, numbers: &[u32]) {
        let answer = desk.call(&c);
        let guarded = desk.words[desk.len..].iter().all(|&w| w == MARK);
        let good = answer.first() == Some(&0) && &answer[1..] == numbers && guarded;
        if !good {
            println!("  {answer:?}");
        }
        self.check(what, good);
    }
}
