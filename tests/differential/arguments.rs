//! Calls with any numbers, most of them in range.

use crate::desk::layout::HEADER;
use crate::desk::Sizes;
use crate::pair::ANSWER;
use crate::random::Random;
use crate::spoiled::any_record;
use crate::text::Call;

/// Sizes of a new desk: small ones mostly, so that sheets and writers meet; some any; now and
/// then each count the least or the largest.
pub fn sizes(random: &mut Random) -> [u32; 4] {
    let most = [32, 16, 8, 8];
    match random.below(100) {
        0..=69 => [(2, 6), (2, 4), (1, 4), (2, 3)]
            .map(|(least, more)| (least + random.below(more)) as u32),
        70..=87 => [7, 4, 4, 4].map(|most| 1 + random.below(most) as u32),
        88..=97 => most.map(|most| 1 + random.below(most) as u32),
        _ => most.map(|most| if random.chance(50) { 1 } else { most as u32 }),
    }
}

/// The sizes that the arguments aim at: the header's, or small ones if it has none.
fn aim(words: &[u32]) -> Sizes {
    let header = words.get(..HEADER).and_then(|h| Sizes::of(h[0], h[1], h[2], h[3]));
    header.unwrap_or(Sizes { k: 3, w: 2, n: 2, p: 2 })
}

/// Any of the calls, aimed at the desk in these words.
pub fn any_call(random: &mut Random, words: &[u32]) -> Call {
    let s = aim(words);
    let run = random.near(s.p);
    let office = random.near(s.n);
    let sheet = random.near(s.k);
    match random.below(51) {
        0 | 38 => Call::New(new_counts(random, words.len())),
        1 | 2 | 28 => Call::Open(run, jobs(random, s)),
        3..=5 => Call::Fetch(office, sheet),
        6..=8 => Call::Evict(office, sheet),
        9 | 10 => Call::Prepare(run),
        11..=13 => {
            let jobs = random.one_of(&[2, 3, 8]);
            Call::Step(run, random.near(jobs), line(random))
        }
        14 | 15 => {
            let mask = random.mask(s.k, 30);
            let mask = if random.chance(90) { mask } else { random.word() };
            Call::Issue(run, random.near(s.w), mask)
        }
        16 => Call::Drop(run),
        17..=19 => {
            let jobs = random.one_of(&[2, 3, 8]);
            Call::Explain(run, random.near(jobs), line(random))
        }
        20 | 21 => Call::Stale(office),
        22 | 23 => Call::Admit,
        24 | 25 => Call::Allow(office, random.near(s.k + 1)),
        26 | 27 => Call::Pick,
        34 | 35 => Call::MayHold(office, right(random, s)),
        36 | 37 => Call::MaySave(random.near(s.w), right(random, s)),
        39 | 40 => Call::Fork(run),
        41..=44 => Call::Join(run),
        45..=47 => Call::Forecast(run),
        48 => Call::Audit(any_record(random, 6)),
        _ => {
            let place = random.near(3);
            let number = match place {
                1 => office,
                2 => run,
                _ if random.chance(80) => 0,
                _ => random.word(),
            };
            Call::Look(place, number, sheet)
        }
    }
}

/// A line of a run: mostly one that there may be.
fn line(random: &mut Random) -> u32 {
    match random.below(10) {
        0 => random.near(2),
        number => number as u32 % 2,
    }
}

/// A right: all sheets, most of them, with a bit more than there are, or any word.
fn right(random: &mut Random, s: Sizes) -> u32 {
    match random.below(10) {
        0..=3 => random.mask(s.k, 100),
        4..=7 => random.mask(s.k, 75),
        8 => random.mask(s.k, 75) | (1u64 << s.k) as u32,
        _ => random.word(),
    }
}

/// Counts of a new: sizes whose total is near the lent words too.
fn new_counts(random: &mut Random, lent: usize) -> [u32; 4] {
    if random.chance(40) {
        return [33, 17, 9, 9].map(|over| random.near(over));
    }
    let mut counts = sizes(random);
    for _ in 0..20 {
        let [k, w, n, p] = counts;
        match Sizes::of(k, w, n, p) {
            Some(s) if s.total() <= lent => break,
            _ => counts = counts.map(|count| 1 + count / 2),
        }
    }
    counts
}

/// An open's list: valid mostly; else a word or the length is spoiled.
fn jobs(random: &mut Random, s: Sizes) -> Vec<u32> {
    let mut list = Vec::new();
    let most = random.one_of(&[4, 4, 9]);
    for job in 0..1 + random.below(most) {
        let upstream = random.mask(job.min(32), 25);
        list.extend_from_slice(&[random.below(s.n) as u32, random.mask(s.k, 35), upstream]);
    }
    match random.below(10) {
        0 => {
            let at = random.below(list.len());
            list[at] = random.near(s.k.max(s.n));
        }
        1 => {
            let at = random.below(list.len());
            list[at] = random.word();
        }
        2 => list.truncate(random.below(28)),
        3 => list.resize(random.one_of(&[9, 24, 25, 27, 200, 3000]), 0),
        _ => {}
    }
    list
}

/// Words of the answer's slice: 40 mostly.
pub fn room(random: &mut Random) -> usize {
    match random.below(40) {
        0 => random.below(ANSWER),
        1 => ANSWER - 1,
        2 => ANSWER + random.below(20),
        _ => ANSWER,
    }
}

/// Words of a forecast's scratch: as many as the desk has mostly, a few more, or too few.
pub fn scratch(random: &mut Random, words: &[u32]) -> usize {
    let total = aim(words).total();
    match random.below(10) {
        0 => total - 1,
        1 => random.below(total),
        2 => total + random.below(5),
        _ => total,
    }
}
