//! A text handed over to the library, and now and then to the reference: every word and every byte
//! that is lent, and some behind them, against what is due.

use crate::due::Due;
use crate::exported;
use crate::met::Met;
use crate::pair::{GUARD, MARK};
use crate::script_of;
use std::hint::black_box;

/// Fills the bytes of `out`: no answer has it.
const BYTE: u8 = 0xA5;
/// Fills the counts.
const COUNT: usize = 0xA5A5_5A5A_5A5A_A5A5;

/// What is lent to the library again and again, with words behind it. A piece of the text is lent
/// where it stands, so that whoever reads on finds the next piece.
pub struct Trial<'a> {
    pub due: &'a Due,
    text: Vec<u8>,
    desk: Vec<u32>,
    scratch: Vec<u32>,
    turn: usize,
}

/// Some lines of a text, how far it is handed over, and with how many bytes of `out` and words of
/// counts.
#[derive(Clone, Copy)]
pub struct Handed {
    pub from: usize,
    pub end: usize,
    pub room: usize,
    pub words: usize,
}

impl<'a> Trial<'a> {
    pub fn of(due: &'a Due, turn: usize) -> Trial<'a> {
        let text = due.text.clone();
        Trial { due, text, desk: Vec::new(), scratch: Vec::new(), turn }
    }

    /// All is as before the first line.
    pub fn begin(&mut self) {
        self.desk.clone_from(&self.due.states[0].desk);
        self.scratch.clone_from(&self.due.states[0].scratch);
    }

    /// Gives the line up to which the text was made.
    pub fn hand_over(&mut self, handed: Handed, met: &mut Met) -> Result<usize, String> {
        let (due, Handed { from, end, room, words }) = (self.due, handed);
        let at = if words < 2 { from } else { due.stop(from, end, room) };
        let mut wrong = self.by_library(handed, at);
        let wholes = due.stop(from, end, usize::MAX);
        met.texts.handed += 1;
        met.texts.stopped += u64::from(words >= 2 && at < wholes);
        met.texts.long_counts += u64::from(words == 5);
        self.turn += 1;
        if words >= 2 && self.turn % 7 == 0 {
            met.texts.by_reference += 1;
            wrong.extend(by_reference(due, handed, at));
        }
        if wrong.is_empty() {
            return Ok(at);
        }
        Err(told(due, handed, &wrong))
    }

    /// What the library does otherwise than is due, which is all up to line `at`.
    fn by_library(&mut self, handed: Handed, at: usize) -> Vec<&'static str> {
        let (due, Handed { from, end, room, words }) = (self.due, handed);
        let (old, new) = (&due.states[from], &due.states[at]);
        let mut out = vec![BYTE; room + GUARD];
        let mut counts = vec![COUNT; words + GUARD];
        let laid = exported::script(
            &mut self.desk[..due.lent],
            &black_box(&mut self.text)[old.taken..end],
            &mut out[..room],
            &mut self.scratch[..due.scratch],
            &mut counts[..words],
        );
        let answers = &due.answers[old.put..new.put];
        let told = if words < 2 { 0 } else { 2 };
        let numbers = [new.taken - old.taken, answers.len()];
        let faults = [
            (laid as usize != told, "what is returned"),
            (counts[..told] != numbers[..told], "the counts"),
            (counts[told..].iter().any(|word| *word != COUNT), "words behind the counts"),
            (out[..answers.len()] != *answers, "the answers"),
            (out[answers.len()..].iter().any(|byte| *byte != BYTE), "bytes behind the answers"),
            (self.desk != *new.desk, "the desk"),
            (self.scratch != *new.scratch, "the scratch"),
            (*black_box(&mut self.text) != due.text, "the text"),
        ];
        faults.iter().filter(|fault| fault.0).map(|fault| fault.1).collect()
    }
}

/// What the reference does otherwise than is due.
fn by_reference(due: &Due, handed: Handed, at: usize) -> Vec<&'static str> {
    let (old, new) = (&due.states[handed.from], &due.states[at]);
    let (mut desk, mut scratch) = (old.desk.to_vec(), old.scratch.to_vec());
    let text = &due.text[old.taken..handed.end];
    let (lent, words) = (&mut desk[..due.lent], &mut scratch[..due.scratch]);
    let done = script_of::script(lent, text, handed.room, words);
    let faults = [
        (done.taken != new.taken - old.taken, "by the reference: the bytes taken"),
        (done.answers != due.answers[old.put..new.put], "by the reference: the answers"),
        (desk != *new.desk, "by the reference: the desk"),
        (scratch != *new.scratch, "by the reference: the scratch"),
    ];
    faults.iter().filter(|fault| fault.0).map(|fault| fault.1).collect()
}

/// The case: the lent words, the text, how it was handed over and what differs.
fn told(due: &Due, handed: Handed, wrong: &[&str]) -> String {
    let mut case = format!("lend {}\n", due.lent);
    for (at, word) in due.states[0].desk[..due.lent].iter().enumerate() {
        if *word != MARK {
            case.push_str(&format!("word {at} {word}\n"));
        }
    }
    let Handed { from, end, room, words } = handed;
    let text = &due.text[due.states[from].taken..end];
    case.push_str(&String::from_utf8_lossy(&due.text));
    case.push_str(&format!("# of this text, with a scratch of {} words:\n", due.scratch));
    case.push_str(&format!("# handed over behind {from} lines, up to byte {end}, "));
    case.push_str(&format!("room {room}, counts {words}: {:?}\n", String::from_utf8_lossy(text)));
    case.push_str(&format!("# other than is due: {}\n", wrong.join(", ")));
    case
}
