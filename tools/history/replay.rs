//! Calls made again on the library. The lent words hold a desk of any size.

use super::log::Entry;
use crate::desk::Answer;
use crate::embed::{words, ANSWER_WORDS, MOST_WORDS};
use crate::library;
use crate::text::{self, Call};

/// Words of the header, the last of which is the desk's total.
const HEADER: usize = 10;
const TOTAL: usize = 9;

/// The lent words; all zero before any new.
pub struct Replay {
    words: Vec<u32>,
}

impl Replay {
    pub fn fresh() -> Replay {
        Replay { words: vec![0; MOST_WORDS] }
    }

    /// Makes the entry's call; nothing for a line that is none.
    pub fn make(&mut self, entry: &Entry) -> Option<Answer> {
        let call = entry.call.as_ref()?;
        let lent = match (call, entry.recorded.as_deref()) {
            // Whoever recorded it had lent too few words.
            (Call::New([k, w, n, p]), Some("refused 1")) => {
                words(*k, *w, *n, *p).saturating_sub(1)
            }
            _ => MOST_WORDS,
        };
        Some(call_on(&mut self.words[..lent], call))
    }

    /// The answer to a call that only answers.
    pub fn ask(&mut self, call: &Call) -> Answer {
        call_on(&mut self.words, call)
    }

    /// The desk's words, to go on from later, in room that is there.
    pub fn keep(&self, room: &mut Vec<u32>) {
        room.clear();
        room.extend_from_slice(self.desk());
    }

    /// How many words the desk has.
    pub fn words(&self) -> usize {
        self.desk().len()
    }

    fn desk(&self) -> &[u32] {
        &self.words[..HEADER.max(self.words[TOTAL] as usize)]
    }

    /// A number for the desk's words: two desks have the same one if they are the same, and
    /// else by a chance that needn't be reckoned with. In lanes, as the processor likes it.
    pub fn hash(&self) -> u128 {
        let mut lanes = [0x9e37_79b9_7f4a_7c15_u128; 4];
        for words in self.desk().chunks(16) {
            for (lane, four) in lanes.iter_mut().zip(words.chunks(4)) {
                let word = four.iter().fold(1, |sum, word| sum << 32 | u128::from(*word));
                *lane = mixed(*lane ^ word);
            }
        }
        lanes.iter().fold(0, |sum, lane| mixed(sum ^ lane))
    }

    pub fn restore(&mut self, kept: &[u32]) {
        self.words[..kept.len()].copy_from_slice(kept);
    }
}

/// One to one: a product with an odd number, then the halves changed about.
fn mixed(number: u128) -> u128 {
    number.wrapping_mul(0x2360_ed05_1fc6_5da4_4385_df64_9fcc_f645).rotate_left(64)
}

/// One call of the library.
pub fn call_on(desk: &mut [u32], call: &Call) -> Answer {
    let mut words = [0; ANSWER_WORDS];
    let count = library::call(desk, call, &mut words) as usize;
    Answer::of(&words[..count]).expect("the library writes an answer")
}

/// The answer as the program prints it.
pub fn printed(answer: &Option<Answer>) -> String {
    answer.as_ref().map_or(String::from("unread"), text::print)
}

/// Whether the call changed the desk: it was done or broke its run, and doesn't only answer.
pub fn changed(call: &Call, answer: &Answer) -> bool {
    matches!(answer, Answer::Ok(_) | Answer::Broken(_)) && !call.only_answers()
}
