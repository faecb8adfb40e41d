//! Audits of records that are lent by themselves: drawn ones, long ones, and those of the stories'
//! own desks. What is lent may be the front of a record whose rest lies behind it.

use crate::book::Book;
use crate::desk::{audit, Answer};
use crate::library;
use crate::met::Met;
use crate::pair::{ANSWER, GUARD, MARK};
use crate::random::Random;
use crate::records::{history, Shape};
use crate::spoiled::{any_record, spoil};
use crate::text::Call;
use crate::walked;
use crate::{arguments, records};
use std::hint::black_box;

/// Audits by their answers, and of what they were.
#[derive(Default)]
pub struct Audited {
    accepted: u64,
    named: u64,
    unreadable: u64,
    own: u64,
    long: u64,
    parts: u64,
}

impl Audited {
    pub fn enter(&mut self, answer: &Answer) {
        match answer {
            Answer::Ok(numbers) if numbers[0] == 0 => self.accepted += 1,
            Answer::Ok(_) => self.named += 1,
            _ => self.unreadable += 1,
        }
    }

    /// Each count with the least that 1000 stories must give.
    pub fn table(&self) -> [(String, u64, u64); 6] {
        [
            ("records accepted".into(), self.accepted, 2000),
            ("records with an issue named".into(), self.named, 700),
            ("unreadable records".into(), self.unreadable, 1000),
            ("own records".into(), self.own, 700),
            ("long records".into(), self.long, 5),
            ("records lent in part".into(), self.parts, 500),
        ]
    }
}

/// Records after a story: some of few issues, now and then a longer one.
pub fn drawn(random: &mut Random, story: u64, met: &mut Met) -> Result<(), String> {
    for number in 0..6 {
        let most = if number == 5 { random.one_of(&[12, 40, 120]) } else { 9 };
        let mut words = any_record(random, most);
        let part = random.chance(15) && !words.is_empty();
        let lent = if part { random.below(words.len()) } else { words.len() };
        met.audited.parts += u64::from(part);
        words.extend((0..GUARD).map(|_| if random.chance(50) { MARK } else { random.word() }));
        let room = arguments::room(random);
        one(&words, lent, room, audit(&words[..lent]), met)?;
    }
    if story % 100 == 3 {
        long(random, met)?;
    }
    Ok(())
}

/// A record of hundreds of issues, careful, careless and spoiled, by the walk back.
fn long(random: &mut Random, met: &mut Met) -> Result<(), String> {
    for careless in [0, 1] {
        let Shape { k, w, .. } = records::shape(random, 9, 0);
        let issues = 300 + random.below(1500);
        let drawn = history(random, Shape { k, w, issues, careless });
        let mut words = drawn.words().unwrap_or_default();
        one(&words, words.len(), ANSWER, walked::audit(&words), met)?;
        spoil(random, &mut words);
        one(&words, words.len(), ANSWER, walked::audit(&words), met)?;
        met.audited.long += 1;
    }
    Ok(())
}

/// The record of the history that a story's calls made from new: it is accepted.
pub fn own(book: &Book, met: &mut Met) -> Result<(), String> {
    let mut words = book.record().words().unwrap_or_default();
    met.audited.own += 1;
    let total = words.len();
    words.extend([MARK; GUARD]);
    one(&words, total, ANSWER, Answer::Ok(vec![0]), met)?;
    one(&words, words.len(), ANSWER, Answer::Ok(vec![0]), met)?;
    one(&words, total - 1, ANSWER, Answer::Refused(15), met)
}

/// The first words lent as a record, with an answer slice of so many words: answered as is due,
/// and no other word is changed.
fn one(
    words: &[u32],
    lent: usize,
    room: usize,
    due: Answer,
    met: &mut Met,
) -> Result<(), String> {
    let (buffer, mut slice) = (black_box(words.to_vec()), vec![MARK; room + GUARD]);
    let count = library::audit(&buffer[..lent], &mut slice[..room]) as usize;
    met.calls += 1;
    let told = if room < ANSWER { Vec::new() } else { due.words() };
    let given = slice.get(..count).unwrap_or(&slice);
    let guarded = slice[told.len()..].iter().all(|word| *word == MARK);
    if given != told || !guarded || black_box(buffer) != words {
        let line = Call::Audit(words[..lent].to_vec()).line();
        let differ = format!("# library {given:?} ({count} words), reference {told:?}\n");
        let kept = if guarded { "" } else { "# words that must stay were changed\n" };
        return Err(format!("lend 0\nroom {room}\n{line}\n{differ}{kept}"));
    }
    if room >= ANSWER {
        met.audited.enter(&due);
    }
    Ok(())
}
