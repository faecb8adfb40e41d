//! Desks that no list of calls leads to: built in form, or random words.

use crate::damaged::{
    spoiled_allowance, spoiled_line, spoiled_mark, spoiled_mask, spoiled_right, spoiled_round,
    version_place,
};
use crate::desk::allowance::held_count;
use crate::desk::layout::{has, HEADER, LAST_ISSUE, OFFSETS};
use crate::desk::layout::{COUNT, LEADERS, NUMBER, PAST, WRITER_PAST};
use crate::desk::layout::{DONE, JOBS, JOB_LIST, READ, STATE};
use crate::desk::stale::stale_mask;
use crate::desk::{Sizes, BROKEN, FORKED, OPEN};
use crate::random::Random;

/// A desk in form: pasts, cards, leading writers and done jobs of any kind, needs that nobody
/// meets too. Now and then leading writers, a shelf's mark, its allowance, the last picked run, a
/// right or a run's line aren't as form asks.
pub fn desk(random: &mut Random, [k, w, n, p]: [u32; 4], spare: usize) -> Option<Vec<u32>> {
    let s = Sizes::of(k, w, n, p)?;
    let mut words = vec![0; s.total()];
    words[..4].copy_from_slice(&[k, w, n, p]);
    words[LAST_ISSUE] = count(random);
    words[OFFSETS..HEADER].copy_from_slice(&s.offsets());
    let percent = random.one_of(&[30, 60, 90]);
    for k in 0..s.k {
        version(random, s, &mut words, s.master_at(k), k, percent);
        for office in 0..s.n {
            version(random, s, &mut words, s.shelf_at(office, k), k, percent);
            twin(random, s, &mut words, s.shelf_at(office, k), k);
        }
    }
    for writer in 0..s.w {
        let at = s.writer_at(writer);
        words[at + COUNT] = count(random);
        past(random, s, &mut words[at + WRITER_PAST..at + s.writer()]);
    }
    for run in 0..s.p {
        if random.chance(75) {
            fill_run(random, s, &mut words, run);
        }
    }
    for office in 0..s.n {
        words[s.stale_at(office)] = stale_mask(&words, s, office);
        words[s.allowance_at(office)] = allowance(random, s, held_count(&words, s, office));
    }
    words[s.round_at()] = random.below(s.p) as u32;
    put_rights(random, s, &mut words);
    spoil(random, s, &mut words);
    words.extend((0..spare).map(|_| random.word()));
    Some(words)
}

/// An allowance of a shelf that holds so many sheets: K, just as many, or some more.
fn allowance(random: &mut Random, s: Sizes, held: u32) -> u32 {
    match random.below(5) {
        0 => held,
        1 => held + random.below(s.k + 1 - held as usize) as u32,
        _ => s.k as u32,
    }
}

/// Rights to all sheets in most cases; else to some, of an office with what its shelf holds.
fn put_rights(random: &mut Random, s: Sizes, words: &mut [u32]) {
    let most = random.one_of(&[1, 1, 4]);
    for right in 0..s.n + s.w {
        let held = |k: usize| right < s.n && words[s.shelf_at(right, k) + NUMBER] != 0;
        let held = (0..s.k).fold(0, |mask, k| mask | u32::from(held(k)) << k);
        let percent = random.one_of(&[100, 40, 80, 100][..most]);
        words[s.mayhold_at(0) + right] = held | random.mask(s.k, percent);
    }
}

/// Seldom: leading writers, a last picked run, a right or a line that there can't be, or a mark or
/// an allowance that isn't the shelf's.
fn spoil(random: &mut Random, s: Sizes, words: &mut [u32]) {
    match random.below(40) {
        0 | 1 => {
            let at = version_place(random, words, s) + LEADERS;
            words[at] = spoiled_mask(random, s, words[at]);
        }
        2 => {
            let at = s.stale_at(random.below(s.n));
            words[at] = spoiled_mark(random, s, words[at]);
        }
        3 => {
            let office = random.below(s.n);
            words[s.allowance_at(office)] = spoiled_allowance(random, words, s, office);
        }
        4 => words[s.round_at()] = spoiled_round(random, s),
        5 => {
            let (at, right) = spoiled_right(random, words, s);
            words[at] = right;
        }
        6 | 7 => {
            let (at, word) = spoiled_line(random, words, s);
            words[at] = word;
        }
        _ => {}
    }
}

/// A writer's count or the last issue number: often the largest, which can't rise.
fn count(random: &mut Random) -> u32 {
    if random.chance(20) {
        u32::MAX
    } else {
        random.word()
    }
}

/// Rows of a past: few that aren't zero, with small counts mostly.
fn past(random: &mut Random, s: Sizes, words: &mut [u32]) {
    let percent = 10 + 120 / s.k;
    for row in words.chunks_mut(s.w) {
        if random.chance(percent) {
            for count in row {
                let usual = random.below(3) as u32;
                *count = if random.chance(95) { usual } else { random.word() };
            }
        }
    }
}

/// In so many of a hundred cases a held version of sheet k.
fn version(
    random: &mut Random,
    s: Sizes,
    words: &mut [u32],
    at: usize,
    k: usize,
    percent: usize,
) {
    if !random.chance(percent) {
        return;
    }
    words[at + NUMBER] = random.word().max(1);
    words[at + LEADERS] = leaders(random, s);
    past(random, s, &mut words[at + PAST..at + s.version()]);
    let own = at + PAST + k * s.w + random.below(s.w);
    words[own] = words[own].max(1 + random.below(2) as u32);
}

/// In some cases the master's version with other leading writers: merges may then name nobody.
fn twin(random: &mut Random, s: Sizes, words: &mut [u32], at: usize, k: usize) {
    let master = s.master_at(k);
    if words[master + NUMBER] != 0 && random.chance(30) {
        words.copy_within(master..master + s.version(), at);
        words[at + LEADERS] = leaders(random, s);
    }
}

/// Leading writers of a held version, one or some, with a count or without.
pub fn leaders(random: &mut Random, s: Sizes) -> u32 {
    let percent = random.one_of(&[0, 30, 70]);
    random.mask(s.w, percent) | 1 << random.below(s.w)
}

/// An open or broken run in form.
fn fill_run(random: &mut Random, s: Sizes, words: &mut [u32], run: usize) {
    let at = s.run_at(run);
    let most = random.one_of(&[3, 3, 8]);
    let jobs = 1 + random.below(most);
    words[at + STATE] = if random.chance(85) { OPEN } else { BROKEN };
    words[at + JOBS] = jobs as u32;
    // Some runs have all jobs done, some none.
    let percent = random.one_of(&[0, 30, 100]);
    let done = random.mask(jobs, percent);
    words[at + DONE] = done;
    let (mut plan, mut read) = (0, 0);
    for job in 0..jobs {
        let reads = random.mask(s.k, if s.k > 8 { 10 } else { 35 });
        let upstream = random.mask(job, 15);
        let list = at + JOB_LIST + 3 * job;
        words[list..list + 3].copy_from_slice(&[random.below(s.n) as u32, reads, upstream]);
        plan |= reads;
        read |= if has(done, job) { reads } else { 0 };
    }
    words[at + READ] = read;
    fill_lines(random, s, words, run, plan);
}

/// The run's mark and cards. Some runs are forked: then each line has some of the reads, both
/// together all, and a sheet is often the same on both.
fn fill_lines(random: &mut Random, s: Sizes, words: &mut [u32], run: usize, plan: u32) {
    let mark = random.one_of(&[0, 1, 1, 2]) as u32;
    words[s.mark_at(run)] = mark;
    if mark == FORKED {
        let read = words[s.read_at(run, 0)];
        let [one, other] = [0, 1].map(|_| read & random.mask(s.k, 70));
        words[s.read_at(run, 0)] = one | read & !other;
        words[s.read_at(run, 1)] = other;
    }
    let lines = if mark == FORKED { 2 } else { 1 };
    let same = random.one_of(&[0, 60, 100]);
    for (line, k) in (0..lines).flat_map(|line| (0..s.k).map(move |k| (line, k))) {
        let percent = if has(words[s.read_at(run, line)], k) { 100 } else { 40 };
        let to = s.line_card_at(run, line, k);
        let from = s.card_at(run, k);
        if line == 1 && words[from + NUMBER] != 0 && random.chance(same) {
            words.copy_within(from..from + s.version(), to);
            if random.chance(10) {
                words[to + LEADERS] = leaders(random, s);
            }
        } else if has(plan, k) {
            version(random, s, words, to, k, percent);
        }
    }
}

/// Random words, in half of the cases behind a header that is right.
pub fn noise(random: &mut Random, [k, w, n, p]: [u32; 4]) -> Vec<u32> {
    let s = Sizes::of(k, w, n, p).filter(|s| s.total() < 2000 && random.chance(50));
    let length = s.map_or(random.below(300), |s| s.total());
    let zeros = random.one_of(&[0, 90, 99]);
    let mut words = (0..length).map(|_| random.word()).collect::<Vec<u32>>();
    for word in words.iter_mut() {
        *word = if random.chance(zeros) { 0 } else { *word };
    }
    if let Some(s) = s {
        words[..4].copy_from_slice(&[k, w, n, p]);
        words[OFFSETS..HEADER].copy_from_slice(&s.offsets());
    }
    words
}
