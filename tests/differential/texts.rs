//! Texts of calls: `sheetdesk_script` against the same calls one by one (due.rs) and against the
//! reference. A text is handed over whole, cut at every byte, with every size of `out`, and in
//! random pieces. Each time every word and every byte that is lent, and some behind them, must be
//! as is due.

use crate::built;
use crate::damaged::damage;
use crate::desk::{in_form, Sizes};
use crate::due::{Due, LINE_ROOM};
use crate::handed::{Handed, Trial};
use crate::met::Met;
use crate::pair::{Pair, MARK};
use crate::random::Random;
use crate::text::LENT;
use crate::written;

/// Desks over so many words are tried in fewer ways.
const LARGE: usize = 4000;

/// Texts after a story: a short one in many ways, now and then a long one in pieces.
pub fn after(
    random: &mut Random,
    story: u64,
    pair: &Pair,
    counts: [u32; 4],
    met: &mut Met,
) -> Result<(), String> {
    let large = pair.words().len() > LARGE;
    if story % 5 == 1 || large && story % 400 == 7 {
        let lines = if large { 6 } else { 4 + random.below(14) as u64 };
        let due = one(random, pair, counts, lines, met);
        let end = unended(random, &due, met);
        if large {
            some_cuts(random, &due, end, met)?;
        } else {
            every_cut(random, &due, end, met)?;
            every_room(random, &due, end, met)?;
        }
        short_counts(&due, met)?;
    }
    if story % 16 == 3 && !large {
        let due = one(random, pair, counts, 100, met);
        let end = unended(random, &due, met);
        for _ in 0..10 {
            pieces(random, &due, end, met)?;
        }
    }
    Ok(())
}

/// A text, what it comes to, and what it begins on: the story's desk mostly.
fn one(random: &mut Random, pair: &Pair, counts: [u32; 4], lines: u64, met: &mut Met) -> Due {
    let words = begun(random, pair, counts);
    let form = in_form(&words);
    *(if form.is_some() { &mut met.texts.in_form } else { &mut met.texts.not_in_form }) += 1;
    met.texts.large += u64::from(form.is_some_and(|s| s.total() > LENT));
    let text = written::text(random, &words, lines);
    let [k, w, n, p] = counts;
    let total = form.or(Sizes::of(k, w, n, p)).map_or(59, |s| s.total());
    // Just long enough most often: forecasts come to something then.
    let kind = [0, 1, 2, 2, 2, 3, 3][random.below(7)];
    let scratch = [0, total - 1, total, total + 1 + random.below(9)][kind];
    met.texts.scratches[kind] += 1;
    Due::of(&words, text, scratch, met)
}

/// The lent words before the first line.
fn begun(random: &mut Random, pair: &Pair, counts: [u32; 4]) -> Vec<u32> {
    match random.below(12) {
        0 => vec![MARK; pair.words().len()],
        1 | 2 => {
            let mut changed = pair.clone();
            damage(random, &mut changed);
            changed.words().to_vec()
        }
        3 => {
            let words = pair.words();
            words[..words.len() - 1 - random.below(words.len().min(9))].to_vec()
        }
        4 | 5 => {
            let spare = random.below(4);
            built::desk(random, counts, spare).unwrap_or_default()
        }
        // Words behind the desk: a new may make it larger.
        6 | 7 => [pair.words(), &vec![MARK; random.below(900)]].concat(),
        _ => pair.words().to_vec(),
    }
}

/// Where the text ends that is handed over: now and then its last line feed is missing.
fn unended(random: &mut Random, due: &Due, met: &mut Met) -> usize {
    let missing = random.chance(40);
    met.texts.unended += u64::from(missing);
    due.text.len() - usize::from(missing)
}

/// In two pieces: what isn't taken of the first is handed over again in front of the second; the
/// last line without its line feed once more, with it.
fn cut_at(trial: &mut Trial, cut: usize, end: usize, met: &mut Met) -> Result<(), String> {
    let (room, words) = (trial.due.answers.len() + LINE_ROOM, 2 + 3 * (cut % 2));
    trial.begin();
    let at = trial.hand_over(Handed { from: 0, end: cut, room, words }, met)?;
    let at = trial.hand_over(Handed { from: at, end, room, words }, met)?;
    if end < trial.due.text.len() {
        trial.hand_over(Handed { from: at, end: trial.due.text.len(), room, words }, met)?;
    }
    met.texts.cuts += 1;
    Ok(())
}

fn every_cut(random: &mut Random, due: &Due, end: usize, met: &mut Met) -> Result<(), String> {
    let mut trial = Trial::of(due, random.below(7));
    (0..=end).try_for_each(|cut| cut_at(&mut trial, cut, end, met))
}

/// Every length of `out`, to some beyond what all answers need.
fn every_room(random: &mut Random, due: &Due, end: usize, met: &mut Met) -> Result<(), String> {
    let mut trial = Trial::of(due, random.below(7));
    for room in 0..due.answers.len() + LINE_ROOM + 3 {
        trial.begin();
        trial.hand_over(Handed { from: 0, end, room, words: 2 + 3 * (room % 2) }, met)?;
        met.texts.rooms += 1;
    }
    Ok(())
}

/// On a large desk: some cuts and some sizes of `out`, at the edges too.
fn some_cuts(random: &mut Random, due: &Due, end: usize, met: &mut Met) -> Result<(), String> {
    let mut trial = Trial::of(due, random.below(7));
    for cut in [0, random.below(end + 1), random.below(end + 1), random.below(end + 1), end] {
        cut_at(&mut trial, cut, end, met)?;
    }
    let all = due.answers.len() + LINE_ROOM;
    for room in [0, LINE_ROOM - 1, LINE_ROOM, random.below(all), all] {
        trial.begin();
        trial.hand_over(Handed { from: 0, end, room, words: 2 }, met)?;
    }
    Ok(())
}

/// In pieces of any length, each with any room.
fn pieces(random: &mut Random, due: &Due, end: usize, met: &mut Met) -> Result<(), String> {
    let mut trial = Trial::of(due, random.below(7));
    trial.begin();
    let (mut at, mut cut) = (0, 0);
    while at + 1 < due.states.len() {
        let most = random.one_of(&[3, 50, 50, 2000]);
        cut = end.min(cut.max(due.states[at].taken) + random.below(most));
        let room = random.one_of(&[383, 384, 400, 500, 1000, 100_000]) + random.below(60);
        let words = 2 + random.below(4);
        // The last line is handed over with its line feed once all others are made.
        let last = at + 2 == due.states.len() && cut == end;
        let to = if last { due.text.len() } else { cut };
        at = trial.hand_over(Handed { from: at, end: to, room, words }, met)?;
    }
    Ok(())
}

/// Counts of 0 and 1 word: nothing is done.
fn short_counts(due: &Due, met: &mut Met) -> Result<(), String> {
    let (end, room) = (due.text.len(), due.answers.len() + LINE_ROOM);
    for words in [0, 1] {
        let mut trial = Trial::of(due, 0);
        trial.begin();
        trial.hand_over(Handed { from: 0, end, room, words }, met)?;
        met.texts.short_counts += 1;
    }
    Ok(())
}
