//! Audits, between plots and before any new: records that are careful, careless or spoiled, as
//! lines; and what a script has met of them.

use crate::desk::record::Record;
use crate::desk::Answer;
use crate::random::Random;
use crate::spoiled::any_record;
use crate::teller::Teller;
use crate::text::{Call, LONGEST};

/// An audit now and then. It changes nothing, so it may stand between any two calls; it has a
/// sequence of its own, so that the plots are the same without it.
pub fn between(t: &mut Teller, percent: usize) {
    if t.asides.chance(percent) {
        let line = any_line(&mut t.asides);
        t.say_aside(&line);
    }
}

/// The line of an audit whose record fits one, mostly; some have just the longest line or one that
/// is too long.
fn any_line(random: &mut Random) -> Vec<u8> {
    let mut line = Call::Audit(any_record(random, 16)).line().into_bytes();
    while line.len() > LONGEST && random.chance(95) {
        line = Call::Audit(any_record(random, 12)).line().into_bytes();
    }
    if random.chance(5) {
        let length = LONGEST - 1 + random.below(3);
        while line.len() + 2 <= length {
            line.extend(b" 0");
        }
        line.resize(length.max(line.len()), b'0');
    }
    line
}

/// Audits by their answers; those that accept issues with reads, and those that accept a record
/// with words behind it.
#[derive(Default)]
pub struct Met {
    accepted: u64,
    reading: u64,
    followed: u64,
    named: u64,
    named_later: u64,
    unreadable: u64,
}

impl Met {
    pub fn names(&self) -> [(String, u64); 6] {
        [
            ("audits-accepted".into(), self.accepted),
            ("audits-of-reads".into(), self.reading),
            ("audits-followed".into(), self.followed),
            ("audits-named".into(), self.named),
            ("audits-named-later".into(), self.named_later),
            ("audits-unreadable".into(), self.unreadable),
        ]
    }

    /// Takes in a call and its answer.
    pub fn enter(&mut self, call: &Call, answer: &Answer) {
        let Call::Audit(words) = call else {
            return;
        };
        match (answer, Record::read(words)) {
            (Answer::Ok(numbers), Some(record)) if numbers[0] == 0 => {
                self.accepted += 1;
                self.reading += u64::from(words[3] > 1);
                let total = record.words().map_or(0, |own| own.len());
                self.followed += u64::from(total < words.len());
            }
            (Answer::Ok(numbers), _) => {
                self.named += 1;
                self.named_later += u64::from(numbers[0] < words[2]);
            }
            _ => self.unreadable += 1,
        }
    }
}
