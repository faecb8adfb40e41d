//! Works a printed case again: `lend N`, `word I V`, `room N` (words of the next answer's
//! slice), `scratch N` (words of the next forecast's), calls as the program reads them; `#` starts
//! a remark. What the test prints behind a case is passed over, so that its output can be taken as
//! it is.

use crate::pair::{Pair, ANSWER};
use crate::text::{self, Call};

/// Gives the exit status.
pub fn work(file: &str) -> i32 {
    let Ok(script) = std::fs::read_to_string(file) else {
        eprintln!("differential: {file} can't be read");
        return 2;
    };
    let mut pair: Option<Pair> = None;
    let mut room = ANSWER;
    for line in script.lines().filter(|line| !is_said(line)) {
        let words = line.split(' ').collect::<Vec<&str>>();
        let numbers = words.iter().skip(1).map_while(|word| word.parse::<u32>().ok());
        let numbers = numbers.collect::<Vec<u32>>();
        match (words[0], numbers.as_slice(), &mut pair) {
            ("lend", [lent], None) => pair = Some(Pair::lend(*lent as usize)),
            ("lend", [lent], Some(pair)) => pair.shorten(*lent as usize),
            ("word", [at, word], Some(pair)) => pair.set(*at as usize, *word),
            ("scratch", [words], Some(pair)) => pair.lend_scratch(*words as usize),
            ("room", [words], _) => room = *words as usize,
            (_, _, Some(pair)) => {
                let Some(call) = read_call(line, &numbers) else {
                    eprintln!("differential: no call: {line}");
                    return 2;
                };
                match pair.call(&call, room) {
                    Ok(answer) => println!("{line}: {:?}", answer.map(|a| a.words())),
                    Err(case) => {
                        println!("{case}");
                        return 1;
                    }
                }
                room = ANSWER;
            }
            _ => {
                eprintln!("differential: a script starts with lend: {line}");
                return 2;
            }
        }
    }
    0
}

/// A remark, or a line of the test's own.
fn is_said(line: &str) -> bool {
    line.is_empty() || line.starts_with('#') || line.starts_with("differential:")
}

/// A line as the program reads it, but an open or an audit of any length.
fn read_call(line: &str, numbers: &[u32]) -> Option<Call> {
    match numbers {
        [run, list @ ..] if line.starts_with("open ") => Some(Call::Open(*run, list.to_vec())),
        _ if line.starts_with("audit") => Some(Call::Audit(numbers.to_vec())),
        _ => text::read_line(line.as_bytes()),
    }
}
