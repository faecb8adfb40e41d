//! Leading writers on random words, and on random lists from new against the book.

use crate::book::Book;
use crate::desk::layout::{has, LEADERS};
use crate::desk::version::{all_zero, leaders, merge, NOBODY};
use crate::desk::*;
use crate::random::Draw;
use crate::text::{run, Call};
use std::cmp::Ordering::{Equal, Greater, Less};
use std::sync::atomic::Ordering;

/// A version of one sheet in form, with small counts.
fn version(draw: &mut Draw, w: usize) -> Vec<u32> {
    loop {
        let row = (0..w).map(|_| draw.below(3)).collect::<Vec<u32>>();
        if !all_zero(&row) {
            let mask = 1 + draw.below((1 << w) - 1);
            return [&[1 + draw.below(9), mask][..], &row].concat();
        }
    }
}

/// The mask by each writer's counts, one after the other; that a merge goes either way round, and
/// with itself stays.
pub fn on_words(seed: u64, merges: u32) {
    let mut draw = Draw::new(seed);
    let fell_back = NOBODY.load(Ordering::Relaxed);
    for _ in 0..merges {
        let w = 1 + draw.below(4) as usize;
        let (one, other) = (version(&mut draw, w), version(&mut draw, w));
        let (mut here, mut there) = (one.clone(), other.clone());
        merge(&mut here, &other, w, 0);
        merge(&mut there, &one, w, 0);
        assert_eq!(here, there);
        let named = (0..w).fold(0, |mask, u| {
            let leads = match one[2 + u].cmp(&other[2 + u]) {
                Equal => one[LEADERS] & other[LEADERS],
                Greater => one[LEADERS],
                Less => other[LEADERS],
            };
            mask | leads & 1 << u
        });
        let counted = (0..w).fold(0, |mask, u| mask | u32::from(here[2 + u] != 0) << u);
        assert_eq!(here[LEADERS], if named != 0 { named } else { counted });
        assert_eq!(leaders((one[LEADERS], &one[2..]), (one[LEADERS], &one[2..])), one[LEADERS]);
    }
    assert!(NOBODY.load(Ordering::Relaxed) > fell_back + u64::from(merges) / 50);
}

/// What the lists met: merges onto the master by the number of leaders that they leave, and
/// leaders that a save has ended.
#[derive(Default)]
pub struct Met {
    alone: u32,
    several: u32,
    ended: u32,
}

impl Met {
    /// The counts in words, once there is enough of each.
    pub fn print(&self) -> String {
        let Met { alone, several, ended } = self;
        assert!(*alone > 1000 && *several > 1000 && *ended > 1000);
        format!("{alone} saves leave one leader, {several} several; {ended} end another's lead")
    }
}

/// A desk from new and its book.
struct Told {
    words: Vec<u32>,
    book: Book,
    s: Sizes,
}

impl Told {
    /// One call on both; versions and marks must be the book's, and each merge must name a leader.
    fn call(&mut self, call: Call) {
        let ok = matches!(run(&mut self.words, &call), Answer::Ok(_));
        self.book.feed(&call, ok);
        self.book.check_versions(&self.words, self.s).unwrap();
        self.book.check_named().unwrap();
        self.book.check_marks(&self.words, self.s).unwrap();
    }

    /// A run with a job at each of these offices; it is freed by whoever opened it.
    fn open(&mut self, offices: &[u32], reads: u32) {
        let list = offices.iter().flat_map(|office| [*office, reads, 0]).collect();
        self.call(Call::Open(0, list));
    }

    fn leaders(&self, k: usize) -> u32 {
        self.words[self.s.master_at(k) + LEADERS]
    }
}

/// Lists of saves, edits, fetches and cards of several offices. "The newest save always leads":
/// no merge falls back on all writers with a count.
pub fn from_new(seed: u64, lists: u32) -> Met {
    let mut draw = Draw::new(seed);
    let mut met = Met::default();
    NOBODY.store(0, Ordering::Relaxed);
    for _ in 0..lists {
        let sizes = [(1, 3), (2, 4), (1, 3), (1, 1)].map(|(least, more)| least + draw.below(more));
        let [k, w, n, p] = sizes;
        let (words, s) = crate::marked::fresh(k, w, n, p);
        let mut told = Told { words, book: Book::new(sizes), s };
        for _ in 0..40 {
            let office = draw.below(n.into());
            match draw.below(6) {
                0..=2 => save(&mut draw, &mut told, &mut met),
                3 | 4 => told.call(Call::Fetch(office, draw.below(k.into()))),
                _ => {
                    told.open(&(0..n).collect::<Vec<u32>>(), 1 + draw.below((1 << k) - 1));
                    told.call(Call::Prepare(0));
                    told.call(Call::Drop(0));
                }
            }
        }
    }
    met
}

/// A save by any writer of some sheets, with what it has read at an office, if anything.
fn save(draw: &mut Draw, told: &mut Told, met: &mut Met) {
    let s = told.s;
    let (writer, mask) = (draw.below(s.w as u64), 1 + draw.below((1 << s.k) - 1));
    let held = (0..s.k).filter(|k| told.leaders(*k) != 0).fold(0, |all, k| all | 1 << k);
    let reads = draw.below(1 << s.k) & held;
    told.open(&[draw.below(s.n as u64)], reads);
    told.call(Call::Step(0, 0, 0));
    let before = (0..s.k).map(|k| told.leaders(k)).collect::<Vec<u32>>();
    told.call(Call::Issue(0, writer, mask));
    for k in (0..s.k).filter(|k| has(mask, *k)) {
        let leaders = told.leaders(k);
        assert!(has(leaders, writer as usize));
        met.ended += u32::from(before[k] & !leaders != 0);
        *(if leaders.count_ones() > 1 { &mut met.several } else { &mut met.alone }) += 1;
    }
}
