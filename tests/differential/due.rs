//! What the lines of a text come to, made one by one by the library's single calls.

use crate::desk::{in_form, Answer};
use crate::library;
use crate::met::Met;
use crate::pair::{ANSWER, GUARD, MARK};
use crate::text::{self, Call};
use std::rc::Rc;

/// "At least 384 bytes left", which no answer exceeds.
pub const LINE_ROOM: usize = 384;

/// Behind some lines: bytes of the text and of the answers, and all words, with those behind the
/// lent ones.
pub struct State {
    pub taken: usize,
    pub put: usize,
    pub desk: Rc<Vec<u32>>,
    pub scratch: Rc<Vec<u32>>,
}

pub struct Due {
    /// Each line has its line feed.
    pub text: Vec<u8>,
    /// The lengths of the lent words and of the scratch.
    pub lent: usize,
    pub scratch: usize,
    /// Before the first line and behind each.
    pub states: Vec<State>,
    /// All answers, a line each.
    pub answers: Vec<u8>,
}

impl Due {
    /// The text on these lent words, with a scratch of so many.
    pub fn of(lent: &[u32], text: Vec<u8>, scratch: usize, met: &mut Met) -> Due {
        let guarded = |words: &[u32]| Rc::new([words, &[MARK; GUARD]].concat());
        let (desk, words) = (guarded(lent), guarded(&vec![MARK; scratch]));
        let states = vec![State { taken: 0, put: 0, desk, scratch: words }];
        let lent = lent.len();
        let mut due = Due { text, lent, scratch, states, answers: Vec::new() };
        while due.last().taken < due.text.len() {
            due.make_line(met);
        }
        due
    }

    pub fn last(&self) -> &State {
        &self.states[self.states.len() - 1]
    }

    /// Makes the call of the next line.
    fn make_line(&mut self, met: &mut Met) {
        let State { taken, desk, scratch, .. } = self.last();
        let line = self.text[*taken..].split(|byte| *byte == b'\n').next().unwrap_or(&[]);
        let (mut words, mut lent) = (desk.to_vec(), scratch.to_vec());
        let call = text::read_line(line);
        let (desk_part, lent_part) = (&mut words[..self.lent], &mut lent[..self.scratch]);
        let answer = call.as_ref().map(|call| one_by_one(desk_part, lent_part, call));
        met.texts.enter(line, &call, &answer, self.states.len() > 1);
        if let (Some(Call::New(_)), Some(Answer::Ok(total))) = (&call, &answer) {
            let before = in_form(&desk[..self.lent]).map_or(0, |s| s.total());
            met.texts.grown += u64::from(before != 0 && before < total[0] as usize);
        }
        let told = answer.map_or(String::from("unread"), |answer| text::print(&answer));
        let taken = taken + line.len() + 1;
        // Most calls leave the one or the other as it was.
        let kept = |old: &Rc<Vec<u32>>, new: Vec<u32>| {
            if **old == new { old.clone() } else { Rc::new(new) }
        };
        let (desk, scratch) = (kept(desk, words), kept(scratch, lent));
        self.answers.extend(format!("{told}\n").bytes());
        self.states.push(State { taken, put: self.answers.len(), desk, scratch });
    }

    /// How many lines are made when those behind `from` are handed over up to byte `end`, with so
    /// much room: whole lines alone, each with the room that holds any answer.
    pub fn stop(&self, from: usize, end: usize, room: usize) -> usize {
        let mut at = from;
        while at + 1 < self.states.len()
            && self.states[at + 1].taken <= end
            && self.states[at].put - self.states[from].put + LINE_ROOM <= room
        {
            at += 1;
        }
        at
    }
}

/// One call by its own export; a forecast has the scratch.
fn one_by_one(desk: &mut [u32], scratch: &mut [u32], call: &Call) -> Answer {
    let mut answer = [MARK; ANSWER];
    let count = match call {
        Call::Forecast(run) => library::forecast(desk, scratch, *run, &mut answer),
        Call::Audit(record) => library::audit(record, &mut answer),
        _ => library::call(desk, call, &mut answer),
    };
    Answer::of(&answer[..count as usize]).expect("an answer's words")
}
