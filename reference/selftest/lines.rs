//! Calls as lines, each with the answer that is due.

use crate::book::follow::Seen;
use crate::book::Book;
use crate::desk::{in_form, Answer};
use crate::prepared::Prepared;
use crate::text::{print, read_line, run, Call, LENT};

/// Works lines on words of the program's number, all zero.
pub fn works(lines: &[&str]) {
    works_on(&mut vec![0; LENT], lines);
}

/// Works lines on lent words; each must be answered as written behind its arrow, or `ok` if
/// nothing is. `save r w S` is `open r 0 0 0`, `step r 0`, `issue r w S`, and `edit r o m w S` is
/// `open r o m 0`, `step r 0`, `issue r w S`.
pub fn works_on(words: &mut [u32], lines: &[&str]) {
    work(words, lines, |_, _, _| {});
}

/// Works lines on lent words that admit takes; the book that begins there follows them.
pub fn works_admitted(words: &mut [u32], lines: &[&str]) {
    works_on(words, &["admit -> ok 0"]);
    let mut book = Book::admitted(words, in_form(words).expect("admitted"));
    work(words, lines, |call, answer, words| {
        book.follow(call, answer, words, &mut Seen::default()).unwrap();
    });
}

/// Works lines; `after` is told each call with its answer and the words that it left. Runs that
/// they prepare go through.
fn work(words: &mut [u32], lines: &[&str], mut after: impl FnMut(&Call, &Answer, &[u32])) {
    let mut prepared = Prepared::default();
    for line in lines {
        let (call, due) = line.split_once(" -> ").unwrap_or((line, "ok"));
        for call in spelled(call) {
            let known = read_line(call.as_bytes()).expect("a call");
            let before = words.to_vec();
            let answer = run(words, &known);
            let told = print(&answer);
            assert!(told == due || due == "ok" && told.starts_with("ok "), "{call}: {told}");
            assert!(!known.only_answers() || words == before, "{call}");
            prepared.follow(&before, &known, &answer, words).unwrap();
            after(&known, &answer, words);
        }
    }
}

/// The calls that a line stands for.
fn spelled(line: &str) -> Vec<String> {
    let words = line.split(' ').collect::<Vec<&str>>();
    let three = |r: &str, job: String, w: &str, s: &str| {
        vec![format!("open {r} {job} 0"), format!("step {r} 0"), format!("issue {r} {w} {s}")]
    };
    match words.as_slice() {
        ["save", r, w, s] => three(r, "0 0".into(), w, s),
        ["edit", r, o, m, w, s] => three(r, format!("{o} {m}"), w, s),
        _ => vec![line.to_string()],
    }
}
