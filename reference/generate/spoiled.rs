//! Records spoiled: a word changed, cut off, put in or added, a header that would fit if sums
//! wrapped; and what is drawn for an audit.

use crate::desk::record::{HEAD, ISSUE};
use crate::random::Random;
use crate::records::{history, shape, Shape};

/// The words of a record of at most so many issues: a careful one, a careless one, one of these
/// spoiled, or any words.
pub fn any_record(random: &mut Random, most: usize) -> Vec<u32> {
    let careless = [0, 0, 15, 40, 80, 80][random.below(6)];
    let drawn = shape(random, most, careless);
    let mut words = history(random, drawn).words().unwrap_or_default();
    match random.below(100) {
        0..=59 => {}
        60..=67 => (0..random.below(9)).for_each(|_| words.push(any_word(random))),
        68..=96 => spoil(random, &mut words),
        // All in order, but for a sheet or a writer too many.
        97 if random.chance(50) => words[0] = 33,
        97 => words = history(random, Shape { w: 17, ..drawn }).words().unwrap_or_default(),
        _ => {
            let count = random.below(40);
            words = (0..count).map(|_| any_word(random)).collect();
        }
    }
    words
}

fn any_word(random: &mut Random) -> u32 {
    match random.below(6) {
        0..=3 => random.below(5) as u32,
        4 => u32::MAX - random.below(2) as u32,
        _ => random.next() as u32 >> random.below(32),
    }
}

/// Changes a record so that it may be readable no more.
pub fn spoil(random: &mut Random, words: &mut Vec<u32>) {
    let [w, issues, reads] = [1, 2, 3].map(|at| words[at] as usize);
    let some_issue = HEAD + ISSUE * random.below(issues.max(1));
    let some_read = HEAD + ISSUE * issues + random.below(reads.max(1)) * (1 + w);
    let (some_count, all) = (some_read + 1 + random.below(w), words.len());
    match random.below(12) {
        0 => words.truncate(random.below(all)),
        1 => words.truncate(all - 1),
        2 => {
            words.remove(random.below(all));
        }
        3 => words.insert(random.below(all + 1), random.below(3) as u32),
        4 => change(random, words, 0, HEAD),
        5 if issues > 0 => change(random, words, some_issue, ISSUE),
        6 if issues > 0 => turn_first(words, random.below(issues)),
        7 if reads > 0 => words[some_read + 1..some_read + 1 + w].fill(0),
        8 if reads > 0 => count_on(random, words, some_count),
        9 => wrap(random, words),
        10 => count_more(random, words),
        _ => change(random, words, 0, all),
    }
}

/// A word of these is another one: near it mostly.
fn change(random: &mut Random, words: &mut [u32], from: usize, count: usize) {
    let word = &mut words[from + random.below(count)];
    *word = match random.below(6) {
        0 | 1 => word.wrapping_add(1),
        2 | 3 => word.wrapping_sub(1),
        4 => *word ^ 1 << random.below(32),
        _ => any_word(random),
    };
}

/// Another first read, of an issue without reads if there is one.
fn turn_first(words: &mut [u32], from: usize) {
    let issues = words[2] as usize;
    let places = (0..issues).map(|more| HEAD + ISSUE * ((from + more) % issues));
    let at = places.clone().find(|at| words[at + 3] == 0).or(places.clone().next());
    at.into_iter().for_each(|at| words[at + 2] = words[at + 2].wrapping_add(1));
}

/// A count one up, or up to where only its own issue or none is counted.
fn count_on(random: &mut Random, words: &mut [u32], at: usize) {
    let any = random.below(2 + words[2] as usize) as u32;
    words[at] = if random.chance(60) { words[at] + 1 } else { any };
}

/// A header, or two issues, that would fit if numbers wrapped at 2^32.
fn wrap(random: &mut Random, words: &mut [u32]) {
    let (w, issues) = (words[1], words[2] as usize);
    match random.below(3) {
        0 => words[2] = words[2].wrapping_add(1 << 30),
        // As many reads more as have 2^32 words, or as near to that as W allows; they may be the
        // last issue's.
        1 => {
            let more = ((1u64 << 32) / u64::from(1 + w)) as u32;
            words[3] = words[3].wrapping_add(more);
            if issues > 0 && random.chance(50) {
                let number = HEAD + ISSUE * issues - 1;
                words[number] = words[number].wrapping_add(more);
            }
        }
        _ if issues > 1 => {
            let at = HEAD + ISSUE * random.below(issues - 1);
            for place in [at + 3, at + ISSUE + 2, at + ISSUE + 3] {
                words[place] = words[place].wrapping_add(1 << 31);
            }
        }
        _ => words[3] = words[3].wrapping_add(1 << 31),
    }
}

/// One issue or one read more than there are, where the total allows for it.
fn count_more(random: &mut Random, words: &mut Vec<u32>) {
    let w = words[1];
    if random.chance(50) {
        words[3] += 1;
        words[6] += 1 + w;
        words.extend((0..=w).map(|_| 1));
    } else {
        words[2] += 1;
        words[5] += ISSUE as u32;
        words[6] += ISSUE as u32;
        words.extend([0, 1, 0, 0]);
    }
}
