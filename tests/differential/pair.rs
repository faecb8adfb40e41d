//! One desk twice: the library's words and the reference's, and how they came about.

use crate::desk::{self, Answer};
use crate::library;
use crate::text::{self, Call};

/// Fills lent words that no case sets, the guard zone behind them and the answer's words.
pub const MARK: u32 = 0xA5A5_5A5A;
pub const GUARD: usize = 16;
/// "An answer slice of fewer than 40 words gives 0, and nothing is changed."
pub const ANSWER: usize = 40;

/// What was done to a desk.
#[derive(Clone)]
pub enum Event {
    /// From here on so many words are lent.
    Lend(usize),
    /// A word is set on both sides.
    Word(usize, u32),
    /// The next forecast gets a scratch of so many words; else it has as many as are lent.
    Scratch(usize),
    /// A call with an answer slice of so many words.
    Call(Call, usize),
}

#[derive(Clone)]
pub struct Pair {
    library: Vec<u32>,
    reference: Vec<u32>,
    lent: usize,
    scratch: Option<usize>,
    events: Vec<Event>,
}

impl Pair {
    /// So many lent words, each of them the mark.
    pub fn lend(lent: usize) -> Pair {
        let words = vec![MARK; lent + GUARD];
        let events = vec![Event::Lend(lent)];
        Pair { library: words.clone(), reference: words, lent, scratch: None, events }
    }

    /// Lent words with this content.
    pub fn of(words: &[u32]) -> Pair {
        let mut pair = Pair::lend(words.len());
        for (at, word) in words.iter().enumerate() {
            if *word != MARK {
                pair.set(at, *word);
            }
        }
        pair
    }

    pub fn words(&self) -> &[u32] {
        &self.reference[..self.lent]
    }

    /// Sets a word on both sides, behind the lent ones too.
    pub fn set(&mut self, at: usize, word: u32) {
        self.library[at] = word;
        self.reference[at] = word;
        self.events.push(Event::Word(at, word));
    }

    /// Lends only the first words; those behind become part of the guard zone.
    pub fn shorten(&mut self, lent: usize) {
        self.lent = lent.min(self.lent);
        self.events.push(Event::Lend(self.lent));
    }

    /// The scratch of the next forecast.
    pub fn lend_scratch(&mut self, scratch: usize) {
        self.scratch = Some(scratch);
        self.events.push(Event::Scratch(scratch));
    }

    /// One call on both sides. Gives the reference's answer (nothing if the answer slice is
    /// too short), or the whole case as a script if something differs.
    pub fn call(&mut self, call: &Call, room: usize) -> Result<Option<Answer>, String> {
        self.events.push(Event::Call(call.clone(), room));
        let mut slice = vec![MARK; room + GUARD];
        let scratch = self.scratch.take().unwrap_or(self.lent);
        let words = if matches!(call, Call::Forecast(_)) { scratch + GUARD } else { 0 };
        let mut scratches = [vec![MARK; words], vec![MARK; words]];
        let [mine, theirs] = &mut scratches;
        let count = match call {
            Call::Forecast(run) => {
                let desk = &self.library[..self.lent];
                library::forecast(desk, &mut mine[..scratch], *run, &mut slice[..room])
            }
            _ => library::call(&mut self.library[..self.lent], call, &mut slice[..room]),
        };
        let reference = &mut self.reference[..self.lent];
        let answer = match call {
            _ if room < ANSWER => None,
            Call::Forecast(run) => {
                Some(desk::forecast(reference, &mut theirs[..scratch], *run))
            }
            _ => Some(text::run(reference, call)),
        };
        let due = answer.as_ref().map_or(Vec::new(), Answer::words);
        let given = slice.get(..count as usize).unwrap_or(&slice);
        // Every word behind the answer stays; a short slice stays whole.
        let guarded = slice[due.len()..].iter().all(|word| *word == MARK);
        let same = self.library == self.reference && scratches[0] == scratches[1];
        if given == due && guarded && same {
            return Ok(answer);
        }
        let mut case = self.print();
        case.push_str(&format!("# library {given:?} ({count} words), reference {due:?}\n"));
        if !guarded {
            case.push_str("# words of the answer's slice that must stay were changed\n");
        }
        case.push_str(&differing("word", &self.library, &self.reference));
        case.push_str(&differing("scratch word", &scratches[0], &scratches[1]));
        Err(case)
    }

    /// The case as a script.
    pub fn print(&self) -> String {
        let mut script = String::new();
        for event in &self.events {
            match event {
                Event::Lend(lent) => script.push_str(&format!("lend {lent}\n")),
                Event::Word(at, word) => script.push_str(&format!("word {at} {word}\n")),
                Event::Scratch(words) => script.push_str(&format!("scratch {words}\n")),
                Event::Call(call, room) => {
                    if *room != ANSWER {
                        script.push_str(&format!("room {room}\n"));
                    }
                    script.push_str(&call.line());
                    script.push('\n');
                }
            }
        }
        script
    }
}

/// The first words in which the two sides differ, as remarks.
fn differing(name: &str, library: &[u32], reference: &[u32]) -> String {
    let sides = library.iter().zip(reference).enumerate();
    let differ = sides.filter(|(_, (mine, due))| mine != due).take(10);
    let told = differ
        .map(|(at, (mine, due))| format!("# {name} {at}: library {mine}, reference {due}\n"));
    told.collect()
}
