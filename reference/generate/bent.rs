//! Desks that no list of calls leads to and that admit may take: rows, numbers, counts and pasts of
//! a desk that calls have made are bent.

use crate::desk::allowance::held_count;
use crate::desk::layout::{has, Sizes, COUNT, LAST_ISSUE, NUMBER, PAST};
use crate::desk::reads::plan;
use crate::desk::rights::held_mask;
use crate::desk::stale::stale_mask;
use crate::desk::version::{all_zero, row};
use crate::forked;
use crate::random::Random;

/// Bends a desk in form. In most cases it is mended, so that admit takes it; of these some are
/// spoiled in one place. The marks follow, and some shelves have little room and few rights.
pub fn bend(random: &mut Random, words: &mut [u32], s: Sizes) {
    if random.chance(15) {
        lift(random, words, s);
    }
    words[s.round_at()] = random.below(s.p) as u32;
    forked::fork_some(random, words, s);
    for _ in 0..1 + random.below(12) {
        bend_one(random, words, s);
    }
    if random.chance(85) {
        mend(words, s);
        if random.chance(25) {
            spoil(random, words, s);
        }
    }
    for office in 0..s.n {
        words[s.stale_at(office)] = stale_mask(words, s, office);
        if random.chance(20) {
            let held = held_count(words, s, office);
            words[s.allowance_at(office)] = held + random.below(s.k + 1 - held as usize) as u32;
        }
    }
    bend_rights(random, words, s);
}

/// Some offices may hold little more than they do, some writers not save all; seldom a mask has a
/// bit at K, or lacks a sheet that is held.
fn bend_rights(random: &mut Random, words: &mut [u32], s: Sizes) {
    let any = random.next() as u32 & s.all_sheets();
    for office in (0..s.n).filter(|_| random.chance(20)) {
        words[s.mayhold_at(office)] = held_mask(words, s, office) | any;
    }
    for writer in (0..s.w).filter(|_| random.chance(20)) {
        words[s.maysave_at(writer)] = any.rotate_left(1) & s.all_sheets();
    }
    let office = random.below(s.n);
    let held = held_mask(words, s, office);
    match random.below(50) {
        0 if s.k < 32 => words[s.mayhold_at(office)] |= 1 << s.k,
        1 if s.k < 32 => words[s.maysave_at(random.below(s.w))] |= 1 << s.k,
        2 if held != 0 => words[s.mayhold_at(office)] &= !(1 << held.trailing_zeros()),
        _ => {}
    }
}

/// Every count and number that isn't 0 becomes larger, up to the largest that there are.
fn lift(random: &mut Random, words: &mut [u32], s: Sizes) {
    let most = (0..s.w).map(|writer| words[s.writer_at(writer) + COUNT]).max().unwrap_or(0);
    let by = (u32::MAX - most) >> [0, 0, 16, 24][random.below(4)];
    let raise = |word: &mut u32| *word += if *word != 0 { by } else { 0 };
    for at in all_pasts(s) {
        words[at..at + s.k * s.w].iter_mut().for_each(raise);
    }
    for writer in 0..s.w {
        raise(&mut words[s.writer_at(writer) + COUNT]);
    }
    let by = (u32::MAX - words[LAST_ISSUE]) >> random.below(9);
    for at in all_places(s) {
        words[at + NUMBER] += if words[at + NUMBER] != 0 { by } else { 0 };
    }
    words[LAST_ISSUE] += by;
}

/// Where the versions on master, shelves and cards begin.
fn all_places(s: Sizes) -> Vec<usize> {
    let shelves = (0..s.n).flat_map(|office| (0..s.k).map(move |k| s.shelf_at(office, k)));
    let card = move |(run, line)| (0..s.k).map(move |k| s.line_card_at(run, line, k));
    let cards = all_lines(s).flat_map(card);
    (0..s.k).map(|k| s.master_at(k)).chain(shelves).chain(cards).collect()
}

/// Each line of each run.
fn all_lines(s: Sizes) -> impl Iterator<Item = (usize, usize)> {
    (0..s.p).flat_map(|run| [(run, 0), (run, 1)])
}

/// Where a past begins: of each version and each writer.
fn all_pasts(s: Sizes) -> Vec<usize> {
    let versions = all_places(s).into_iter().map(|at| at + PAST);
    versions.chain((0..s.w).map(|writer| s.writer_at(writer) + 1)).collect()
}

/// Where a held version begins, if some draws find one; the master's often.
fn held_place(random: &mut Random, words: &[u32], s: Sizes) -> Option<usize> {
    let places = all_places(s);
    let mut draws = (0..30).map(|_| match random.below(3) {
        0 => places[random.below(s.k)],
        _ => places[random.below(places.len())],
    });
    draws.find(|at| words[at + NUMBER] != 0)
}

/// One count, number, row or past becomes another.
fn bend_one(random: &mut Random, words: &mut [u32], s: Sizes) {
    let place = s.k * s.w;
    match (random.below(10), held_place(random, words, s)) {
        (0, _) => words[LAST_ISSUE] = near(random, words[LAST_ISSUE]),
        (1, _) => {
            let at = s.writer_at(random.below(s.w)) + COUNT;
            words[at] = near(random, words[at]);
        }
        (2 | 3, _) => {
            let at = s.writer_at(random.below(s.w)) + 1 + random.below(place);
            let master = master_count(words, s, (at - s.writers() - 1) % s.writer());
            words[at] = any_up_to(random, master);
        }
        (4, Some(at)) => words[at + NUMBER] = near(random, words[at + NUMBER]).max(1),
        (5, Some(at)) => {
            // No needs at all.
            let k = sheet_at(s, at);
            for d in (0..s.k).filter(|d| *d != k) {
                words[at + PAST + d * s.w..at + PAST + (d + 1) * s.w].fill(0);
            }
        }
        (_, Some(at)) => {
            let count = random.below(place);
            let master = master_count(words, s, count);
            words[at + PAST + count] = any_up_to(random, master);
        }
        _ => {}
    }
}

/// The sheet of the version that begins there.
fn sheet_at(s: Sizes, at: usize) -> usize {
    let all = all_places(s);
    all.iter().position(|place| *place == at).map_or(0, |place| place % s.k)
}

/// The count in the master's own row at a place of a past.
fn master_count(words: &[u32], s: Sizes, place: usize) -> u32 {
    words[s.master_at(place / s.w) + PAST + place]
}

/// One more, one less, or a little larger.
fn near(random: &mut Random, word: u32) -> u32 {
    match random.below(4) {
        0 => word.saturating_sub(1),
        1 => word.saturating_add(random.below(5) as u32),
        _ => word.saturating_add(1),
    }
}

/// Mostly up to the count, now and then one more.
fn any_up_to(random: &mut Random, count: u32) -> u32 {
    match random.below(6) {
        0 => 0,
        1 => count.saturating_add(1),
        2 => count / 2,
        _ => count,
    }
}

/// Makes the desk one that admit takes: rows are within the master's and own rows not zero, counts
/// and the last number are large enough, and needs are within what meets them.
fn mend(words: &mut [u32], s: Sizes) {
    for at in all_pasts(s) {
        for place in 0..s.k * s.w {
            words[at + place] = words[at + place].min(master_count(words, s, place));
        }
    }
    for at in all_places(s) {
        if words[at + NUMBER] != 0 {
            mend_own(words, s, at);
            words[LAST_ISSUE] = words[LAST_ISSUE].max(words[at + NUMBER]);
        }
    }
    for place in 0..s.k * s.w {
        let count = s.writer_at(place % s.w) + COUNT;
        words[count] = words[count].max(master_count(words, s, place));
    }
    for office in 0..s.n {
        mend_needs(words, s, u32::MAX, &|k| s.shelf_at(office, k));
    }
    for (run, line) in all_lines(s) {
        mend_needs(words, s, plan(words, s, run), &|k| s.line_card_at(run, line, k));
    }
}

/// An own row of zeros becomes the master's, and the master's counts a save.
fn mend_own(words: &mut [u32], s: Sizes, at: usize) {
    let k = sheet_at(s, at);
    let (own, master) = (at + PAST + k * s.w, s.master_at(k) + PAST + k * s.w);
    if all_zero(&words[master..master + s.w]) {
        words[master] = 1;
    }
    if all_zero(&words[own..own + s.w]) {
        words.copy_within(master..master + s.w, own);
    }
}

/// Needs among these sheets shrink to what is held there.
fn mend_needs(words: &mut [u32], s: Sizes, sheets: u32, at: &dyn Fn(usize) -> usize) {
    for k in (0..s.k).filter(|k| has(sheets, *k)) {
        for d in (0..s.k).filter(|d| *d != k && has(sheets, *d)) {
            let met = row(s.words(words, at(d)), s.w, d).to_vec();
            let need = at(k) + PAST + d * s.w;
            for (count, most) in words[need..need + s.w].iter_mut().zip(met) {
                *count = most.min(*count);
            }
        }
    }
}

/// One thing that admission turns down, or may.
fn spoil(random: &mut Random, words: &mut [u32], s: Sizes) {
    let place = random.below(s.k * s.w);
    match (random.below(7), held_place(random, words, s)) {
        (0, Some(at)) => words[at + NUMBER] = words[LAST_ISSUE].saturating_add(1),
        (1, _) => words[LAST_ISSUE] = words[LAST_ISSUE].saturating_sub(1),
        (2, _) => {
            let at = s.writer_at(random.below(s.w)) + COUNT;
            words[at] = words[at].saturating_sub(1);
        }
        (3, _) => {
            let at = s.writer_at(random.below(s.w)) + 1 + place;
            words[at] = master_count(words, s, place).saturating_add(1);
        }
        (4, Some(at)) => {
            words[at + PAST + place] = master_count(words, s, place).saturating_add(1);
        }
        (5, _) => {
            let at = s.shelf_at(random.below(s.n), random.below(s.k));
            words[at..at + s.version()].fill(0);
        }
        (_, Some(at)) => words[at + PAST + place] = master_count(words, s, place),
        _ => {}
    }
}
