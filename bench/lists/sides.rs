//! The ways to make a list of calls, and the time that each takes.

use crate::desk::{self, Answer};
use crate::drawn::List;
use crate::exported;
use crate::library;
use crate::rounds::middle;
use crate::script_of;
use crate::text::{self, Call};
use std::hint::black_box;
use std::io::{BufRead, BufReader, Read, Write};
use std::process::{Command, Stdio};
use std::time::Instant;

/// The single exports, the export that takes a text, the program, the reference's single calls,
/// and its function that takes a text.
pub const SIDES: usize = 5;

/// A list with all that is lent for it.
pub struct Lent {
    begin: Vec<u32>,
    words: Vec<u32>,
    scratch: Vec<u32>,
    calls: Vec<Call>,
    before: Vec<u8>,
    text: Vec<u8>,
    out: Vec<u8>,
    program: Option<String>,
}

fn lines(calls: &[Call]) -> Vec<u8> {
    calls.iter().flat_map(|call| format!("{}\n", call.line()).into_bytes()).collect()
}

impl Lent {
    /// The program is left out where it has no room for the desk.
    pub fn of(list: &List, program: Option<&str>) -> Lent {
        let [k, w, n, p] = list.sizes;
        let total = desk::Sizes::of(k, w, n, p).map_or(0, |s| s.total());
        let mut begin = vec![0; total];
        list.before.iter().for_each(|call| _ = text::run(&mut begin, call));
        Lent {
            words: begin.clone(),
            scratch: vec![0; total],
            begin,
            calls: list.calls.clone(),
            before: lines(&list.before),
            text: lines(&list.calls),
            // No answer is longer.
            out: vec![0; 384 * (list.calls.len() + 1)],
            program: program.filter(|_| total <= text::LENT).map(String::from),
        }
    }

    /// Nanoseconds of a call on one side, and its answers if they are asked for.
    fn time(&mut self, side: usize, told: bool) -> Option<(f64, Vec<u8>)> {
        self.words.copy_from_slice(&self.begin);
        self.scratch.fill(0);
        let start = Instant::now();
        let mut answers = Vec::new();
        let mut taken = None;
        match side {
            0 => self.by_exports(told, &mut answers),
            1 => answers = self.by_export(told),
            2 => {
                let (nanoseconds, printed) = self.by_program()?;
                (taken, answers) = (Some(nanoseconds), printed);
            }
            3 => self.by_reference(told, &mut answers),
            _ => {
                let (words, scratch) = (&mut self.words, &mut self.scratch);
                answers = script_of::script(words, &self.text, self.out.len(), scratch).answers;
            }
        }
        let nanoseconds = taken.unwrap_or(start.elapsed().as_nanos() as f64);
        Some((nanoseconds / self.calls.len() as f64, answers))
    }

    /// One call after the other; the answers' words are printed only if they are asked for.
    fn by_exports(&mut self, told: bool, answers: &mut Vec<u8>) {
        let (words, mut slice) = (&mut self.words, [0; 40]);
        for call in &self.calls {
            let count = match call {
                Call::Forecast(run) => {
                    library::forecast(words, &mut self.scratch, *run, black_box(&mut slice))
                }
                call => library::call(words, call, black_box(&mut slice)),
            };
            if told {
                let answer = Answer::of(&slice[..count as usize]).expect("an answer's words");
                answers.extend(format!("{}\n", text::print(&answer)).into_bytes());
            }
        }
    }

    /// All of the text at once.
    fn by_export(&mut self, told: bool) -> Vec<u8> {
        let (mut counts, text) = ([0; 2], black_box(&self.text));
        let (out, scratch) = (black_box(&mut self.out), &mut self.scratch);
        let laid = exported::script(&mut self.words, text, out, scratch, &mut counts);
        assert!(laid == 2 && counts[0] == text.len(), "not all of the text was taken");
        if told { out[..counts[1]].to_vec() } else { Vec::new() }
    }

    /// The text through a pipe, once the program has answered what leads to the desk.
    fn by_program(&self) -> Option<(f64, Vec<u8>)> {
        let mut command = Command::new(self.program.as_ref()?);
        let command = command.stdin(Stdio::piped()).stdout(Stdio::piped());
        let mut child = command.spawn().expect("the program starts");
        let mut input = child.stdin.take().expect("a pipe");
        let mut output = BufReader::new(child.stdout.take().expect("a pipe"));
        input.write_all(&self.before).expect("the program reads");
        let mut line = String::new();
        for _ in self.before.iter().filter(|byte| **byte == b'\n') {
            output.read_line(&mut line).expect("the program answers");
        }
        let mut answers = Vec::with_capacity(self.out.len());
        let start = Instant::now();
        std::thread::scope(|scope| {
            scope.spawn(move || input.write_all(&self.text).expect("the program reads"));
            output.read_to_end(&mut answers).expect("the program answers");
        });
        let nanoseconds = start.elapsed().as_nanos() as f64;
        assert!(child.wait().is_ok_and(|status| status.success()), "the program failed");
        Some((nanoseconds, answers))
    }

    fn by_reference(&mut self, told: bool, answers: &mut Vec<u8>) {
        let words = &mut self.words;
        for call in &self.calls {
            let answer = match call {
                Call::Forecast(run) => desk::forecast(words, &mut self.scratch, *run),
                call => text::run(words, call),
            };
            if told {
                answers.extend(format!("{}\n", text::print(&answer)).into_bytes());
            }
            black_box(answer);
        }
    }

    /// All sides must answer alike and leave the same desk and scratch. Gives how many of the
    /// calls weren't refused: a list of refused calls would measure nothing.
    pub fn check(&mut self) -> usize {
        let (_, due) = self.time(0, true).expect("the exports are there");
        let (words, scratch) = (self.words.clone(), self.scratch.clone());
        for side in 1..SIDES {
            let Some((_, answers)) = self.time(side, true) else {
                continue;
            };
            assert!(answers == due, "side {side} answers otherwise");
            // The program's desk is its own.
            let same = self.words == words && self.scratch == scratch;
            assert!(side == 2 || same, "side {side} leaves another desk");
        }
        let answers = due.split(|byte| *byte == b'\n');
        answers.filter(|line| !line.is_empty() && !line.starts_with(b"refused")).count()
    }

    /// So many rounds; a round is the better of some turns of each side, to shut out what else
    /// runs on the machine.
    pub fn measure(&mut self, rounds: usize, turns: usize) -> Cost {
        let mut cost = Cost { rounds: Vec::new() };
        for _ in 0..rounds {
            let mut round = [None; SIDES];
            for side in (0..turns).flat_map(|_| 0..SIDES) {
                let time = self.time(side, false).map(|(nanoseconds, _)| nanoseconds);
                round[side] = [round[side], time].into_iter().flatten().reduce(f64::min);
            }
            cost.rounds.push(round);
        }
        cost
    }
}

/// Nanoseconds of a call on each side, by rounds.
pub struct Cost {
    rounds: Vec<[Option<f64>; SIDES]>,
}

impl Cost {
    /// The median of what is taken from each round, if it is there.
    pub fn median(&self, taken: impl Fn(&[Option<f64>; SIDES]) -> Option<f64>) -> Option<f64> {
        let mut values = self.rounds.iter().filter_map(taken).collect::<Vec<f64>>();
        (!values.is_empty()).then(|| middle(&mut values))
    }
}
