//! Desks with some words changed.

use crate::built::leaders;
use crate::desk::allowance::held_count;
use crate::desk::layout::{HEADER, LAST_ISSUE, LEADERS};
use crate::desk::stale::stale_mask;
use crate::desk::Sizes;
use crate::pair::Pair;
use crate::random::Random;

/// Changes one to ten words, or a whole version, a version's mask, a shelf's mark or allowance, the
/// last picked run, a right, a run's mark or read mask, or its first words. In half of the cases of
/// words only counts, issue numbers and jobs; and in most cases the shelves' marks follow, so that
/// the desk often stays in form.
pub fn damage(random: &mut Random, pair: &mut Pair) {
    let [k, w, n, p] = [0, 1, 2, 3].map(|at| pair.words()[at]);
    let Some(s) = Sizes::of(k, w, n, p) else {
        return damage_words(random, pair);
    };
    match random.below(15) {
        0 | 1 => replace_version(random, pair, s),
        2 | 3 => damage_run(random, pair, s),
        4 => damage_mask(random, pair, s),
        5 => return damage_mark(random, pair, s),
        6 => return damage_allowance(random, pair, s),
        7 => return pair.set(s.round_at(), spoiled_round(random, s)),
        8 => {
            let (at, right) = spoiled_right(random, pair.words(), s);
            return pair.set(at, right);
        }
        9 => {
            let (at, word) = spoiled_line(random, pair.words(), s);
            pair.set(at, word);
        }
        _ => damage_words(random, pair),
    }
    if random.chance(85) {
        put_marks(pair, s);
    }
}

/// Each shelf's mark is what form asks.
fn put_marks(pair: &mut Pair, s: Sizes) {
    for office in 0..s.n {
        let mark = stale_mask(pair.words(), s, office);
        if mark != pair.words()[s.stale_at(office)] {
            pair.set(s.stale_at(office), mark);
        }
    }
}

/// A shelf's mark becomes another one.
fn damage_mark(random: &mut Random, pair: &mut Pair, s: Sizes) {
    let at = s.stale_at(random.below(s.n));
    let mark = spoiled_mark(random, s, pair.words()[at]);
    pair.set(at, mark);
}

/// A shelf's allowance becomes another one.
fn damage_allowance(random: &mut Random, pair: &mut Pair, s: Sizes) {
    let office = random.below(s.n);
    let allowance = spoiled_allowance(random, pair.words(), s, office);
    pair.set(s.allowance_at(office), allowance);
}

/// An allowance just as large as it may be or must be, one more or less than that, or any word.
pub fn spoiled_allowance(random: &mut Random, words: &[u32], s: Sizes, office: usize) -> u32 {
    let held = held_count(words, s, office);
    match random.below(6) {
        0 => s.k as u32 + 1,
        1 => held.saturating_sub(1),
        2 => held,
        3 => s.k as u32,
        4 => held + 1,
        _ => random.word(),
    }
}

/// A last picked run, one more than there are, or any word.
pub fn spoiled_round(random: &mut Random, s: Sizes) -> u32 {
    match random.below(3) {
        0 => random.below(s.p) as u32,
        1 => s.p as u32,
        _ => random.word(),
    }
}

/// A right of an office or a writer, and where it stands: a sheet less, a bit more than there are
/// sheets, a sheet more or less, or any word.
pub fn spoiled_right(random: &mut Random, words: &[u32], s: Sizes) -> (usize, u32) {
    let at = s.mayhold_at(0) + random.below(s.n + s.w);
    let right = words[at];
    let spoiled = match random.below(4) {
        0 => right & right.wrapping_sub(1),
        1 => right | (1u64 << s.k) as u32,
        2 => right ^ 1 << random.below(s.k),
        _ => random.word(),
    };
    (at, spoiled)
}

/// A run's mark or one of its read masks, and where it stands: another mark, one more than there
/// are, a sheet more or less, or any word.
pub fn spoiled_line(random: &mut Random, words: &[u32], s: Sizes) -> (usize, u32) {
    let run = random.below(s.p);
    match random.below(6) {
        0..=2 => (s.mark_at(run), random.below(4) as u32),
        3 => (s.mark_at(run), random.word()),
        _ => {
            let at = s.read_at(run, random.below(2));
            (at, words[at] ^ 1 << random.below(s.k))
        }
    }
}

/// A mark that isn't this one: a sheet more or less, or any word.
pub fn spoiled_mark(random: &mut Random, s: Sizes, mark: u32) -> u32 {
    match random.below(4) {
        0 => mark & mark.wrapping_sub(1),
        1 => random.word(),
        _ => mark ^ 1 << random.below(s.k),
    }
}

/// A version becomes that of another place, or is cleared.
fn replace_version(random: &mut Random, pair: &mut Pair, s: Sizes) {
    let k = random.below(s.k);
    let to = place_of(random, s, k);
    let from = place_of(random, s, k);
    let clear = random.chance(60);
    for at in 0..s.version() {
        let word = if clear { 0 } else { pair.words()[from + at] };
        if word != pair.words()[to + at] {
            pair.set(to + at, word);
        }
    }
}

/// Where the version of sheet k begins on the master, a shelf or, mostly, a card of a line.
fn place_of(random: &mut Random, s: Sizes, k: usize) -> usize {
    match random.below(4) {
        0 => s.master_at(k),
        1 => s.shelf_at(random.below(s.n), k),
        2 => s.card_at(random.below(s.p), k),
        _ => s.line_card_at(random.below(s.p), random.below(2), k),
    }
}

/// A bit of a run's state, number of jobs, done mask or read mask is turned, or of a job.
fn damage_run(random: &mut Random, pair: &mut Pair, s: Sizes) {
    let most = random.one_of(&[4, 4, 28]);
    let at = s.run_at(random.below(s.p)) + random.below(most);
    let bits = random.one_of(&[2, 8, 32]);
    let word = pair.words()[at] ^ 1 << random.below(bits);
    pair.set(at, word);
}

/// A version's leading writers become others, or none that there can be.
fn damage_mask(random: &mut Random, pair: &mut Pair, s: Sizes) {
    let at = version_place(random, pair.words(), s) + LEADERS;
    let word = match random.below(2) {
        0 => leaders(random, s),
        _ => spoiled_mask(random, s, pair.words()[at]),
    };
    pair.set(at, word);
}

fn damage_words(random: &mut Random, pair: &mut Pair) {
    let lent = pair.words().len();
    let gentle = random.chance(50);
    let most = random.one_of(&[1, 1, 10]);
    for _ in 0..1 + random.below(most) {
        let at = place(random, pair.words(), gentle).min(lent - 1);
        let old = pair.words()[at];
        let word = match random.below(6) {
            0 => old ^ 1 << random.below(32),
            1 => old.wrapping_add(1),
            2 => pair.words()[random.below(lent)],
            3 if gentle => u32::MAX,
            4 if gentle => old.max(1),
            _ => random.word(),
        };
        pair.set(at, word);
    }
}

/// Where a word is damaged: gently (last issue number, a writer's words, a held version's),
/// or anywhere, the header and the runs' first words often.
fn place(random: &mut Random, words: &[u32], gentle: bool) -> usize {
    let header = words.get(..HEADER).and_then(|h| Sizes::of(h[0], h[1], h[2], h[3]));
    let Some(s) = header else {
        return random.below(words.len());
    };
    let run = s.run_at(random.below(s.p));
    let any = random.below(s.total().max(1));
    match (gentle, random.below(8)) {
        (true, 0) => LAST_ISSUE,
        (true, 1) => s.writer_at(random.below(s.w)),
        (true, 2) => s.writer_at(random.below(s.w)) + random.below(s.writer()),
        (true, _) => held_word(random, words, s),
        (false, 0) => random.below(HEADER),
        (false, 1 | 2) => run + random.below(28),
        (false, 3) => s.run_at(random.below(s.p)) + 28 + random.below(s.k) * s.version(),
        (false, 4) => s.shelf_at(random.below(s.n), random.below(s.k)),
        _ => any,
    }
}

/// A word of a held version, if some draws find one.
fn held_word(random: &mut Random, words: &[u32], s: Sizes) -> usize {
    version_place(random, words, s) + random.below(s.version())
}

/// Where a held version begins, if some draws find one.
pub fn version_place(random: &mut Random, words: &[u32], s: Sizes) -> usize {
    let mut at = 0;
    for _ in 0..20 {
        let k = random.below(s.k);
        at = place_of(random, s, k);
        if words.get(at).is_some_and(|issue| *issue != 0) {
            break;
        }
    }
    at
}

/// A mask that no held version has: none, or one with bits at W or above; or any word.
pub fn spoiled_mask(random: &mut Random, s: Sizes, mask: u32) -> u32 {
    match random.below(4) {
        0 => 0,
        1 => mask | 1 << s.w,
        2 => mask | 1 << (s.w + random.below(32 - s.w)),
        _ => random.word(),
    }
}
