//! Runs a script through the desk and the book, and tests demand 3 after each call, that no copy
//! is ahead of the master, whom each version names as leading writers, the shelves' marks, who may
//! hold and save, that prepared runs go through, that the desk would be admitted, and that audit
//! accepts the record of its history. From each admission on a second book is kept that began
//! there. Ends with 1, and prints the script up to there, if a claim fails.
#![allow(dead_code)]

mod book;
mod desk;
mod prepared;
mod text;

use book::follow::Seen;
use book::recorded::check_audit;
use book::Book;
use desk::layout::{DONE, JOBS};
use desk::{Answer, Sizes};
use prepared::Prepared;
use std::io::{self, Read, Write};
use text::Call;

fn main() {
    let mut script = Vec::new();
    io::stdin().lock().read_to_end(&mut script).expect("standard input can be read");
    let mut words = vec![0u32; text::LENT];
    let mut books = Vec::new();
    let (mut prepared, mut seen) = (Prepared::default(), Seen::default());
    let mut read = 0;
    for line in script.split_inclusive(|byte| *byte == b'\n') {
        read += line.len();
        let Some(call) = text::read_line(text::without_end(line)) else {
            continue;
        };
        let before = words.clone();
        let answer = text::run(&mut words, &call);
        let followed = prepared.follow(&before, &call, &answer, &words);
        let tested = followed
            .and_then(|()| one_call(&before, &mut words, &mut books, (&call, answer), &mut seen));
        if let Err(claim) = tested {
            let _ = io::stdout().write_all(&script[..read]);
            eprintln!("a claim fails after the script's last line: {claim}");
            std::process::exit(1);
        }
    }
    println!(
        "{} calls held against a book, {} steps tried against all choices, {} broken, {} pairs of finished jobs, \
         {} paths, {} joins, {} broken ones, {} forecasts, {} audits, {} own records, {}",
        seen.calls,
        seen.tried,
        seen.broken,
        seen.snapshots,
        seen.paths,
        seen.joins,
        seen.joins_broken,
        seen.forecasts,
        seen.audits,
        seen.records,
        prepared.tested.print()
    );
}

/// A call, its answer and the desk before and behind it: into the books, then every test.
fn one_call(
    before: &[u32],
    words: &mut [u32],
    books: &mut Vec<Book>,
    (call, answer): (&Call, Answer),
    seen: &mut Seen,
) -> Result<(), String> {
    let refused = matches!(answer, Answer::Refused(_));
    if (refused || call.only_answers()) && before != words {
        return Err("a call that is refused or only answers changed the desk".into());
    }
    check_told(before, words, (call, &answer), seen)?;
    if let (Call::New(sizes), false) = (call, refused) {
        // "The list starts on what an accepted new left."
        *books = vec![Book::new(*sizes)];
    }
    for (place, book) in books.iter_mut().enumerate() {
        let began = ["new", "the last admission"][place];
        let followed = book.follow(call, &answer, words, seen);
        followed.map_err(|claim| format!("{claim} (the book from {began})"))?;
    }
    if let (Call::Issue(run, _, 1..), Some(book), false) = (call, books.first(), refused) {
        book.check_recorded(before, *run)?;
        book.check_record()?;
        seen.records += 1;
    }
    if let (Call::Admit, Some(s), false) = (call, desk::in_form(words), refused) {
        books.truncate(1);
        books.push(Book::admitted(words, s));
    }
    Ok(())
}

/// What a call that only answers has told, by itself.
fn check_told(
    before: &[u32],
    words: &mut [u32],
    (call, answer): (&Call, &Answer),
    seen: &mut Seen,
) -> Result<(), String> {
    match (call, answer) {
        (Call::Explain(run, job, line), _) => {
            check_explain(before.to_vec(), [*run, *job, *line], answer)
        }
        (Call::Forecast(run), _) => check_forecast(words, *run, answer),
        (Call::Stale(office), Answer::Ok(marks)) => check_stale(words, *office, marks[0]),
        (Call::Audit(record), _) => {
            seen.audits += usize::from(check_audit(record, answer)?);
            Ok(())
        }
        _ => Ok(()),
    }
}

/// "The answer is "clear" exactly if the step would be answered `ok`. It turns down what step
/// does, by the same numbers": the step is made on a copy of the desk. The path ends with a
/// sheet of the broken mask.
fn check_explain(
    mut words: Vec<u32>,
    [run, job, line]: [u32; 3],
    answer: &Answer,
) -> Result<(), String> {
    let step = desk::step(&mut words, run, job, line);
    let agree = match (answer, &step) {
        (Answer::Clear, Answer::Ok(_)) => true,
        (Answer::Path(sheets), Answer::Broken(mask)) => {
            sheets.last().is_some_and(|last| book::has(*mask, *last as usize))
        }
        (Answer::Refused(number), Answer::Refused(other)) => number == other,
        _ => false,
    };
    if !agree {
        return Err(format!("explain answered {answer:?}, the step {step:?}"));
    }
    Ok(())
}

/// The forecast tells what the steps are answered, made on a copy of the desk. "The scratch holds
/// the desk as those steps would leave it, its words past the total untouched"; one that is a word
/// too short gives 1 and stays.
fn check_forecast(words: &[u32], run: u32, answer: &Answer) -> Result<(), String> {
    let Some(s) = desk::in_form(words).filter(|_| !matches!(answer, Answer::Refused(_))) else {
        return Ok(());
    };
    let mut copy = words[..s.total()].to_vec();
    let told = made_in_order(&mut copy, s, run)?;
    copy.extend([7, 7]);
    let mut scratch = vec![7; s.total() + 2];
    let lent = desk::forecast(words, &mut scratch, run);
    if [answer, &lent] != [&told, &told] || scratch != copy {
        return Err(format!("forecast answered {answer:?}, the steps tell {told:?}"));
    }
    let mut short = vec![7; s.total() - 1];
    let refused = desk::forecast(words, &mut short, run);
    if refused != Answer::Refused(1) || short.iter().any(|word| *word != 7) {
        return Err("a scratch that is too short was taken".into());
    }
    Ok(())
}

/// Steps the jobs not done, lowest first, up to one that isn't answered `ok`, and says what came
/// of it. No job waits for a later one, so none is turned down for its turn.
fn made_in_order(desk: &mut [u32], s: Sizes, run: u32) -> Result<Answer, String> {
    let at = s.run_at(run as usize);
    let (jobs, done) = (desk[at + JOBS], desk[at + DONE]);
    for job in (0..jobs).filter(|job| !book::has(done, *job as usize)) {
        match desk::step(desk, run, job, 0) {
            Answer::Ok(_) => {}
            Answer::Broken(mask) => return Ok(Answer::Breaks(job, mask)),
            Answer::Refused(number @ (7 | 12 | 13)) => return Ok(Answer::Turned(job, number)),
            other => return Err(format!("job {job} of a forecast: {other:?}")),
        }
    }
    Ok(Answer::Through)
}

/// Bit k exactly if a look at the shelf's k is answered and doesn't end in 0.
fn check_stale(words: &mut [u32], office: u32, mark: u32) -> Result<(), String> {
    for k in 0..32 {
        let behind = match desk::look(words, 1, office, k) {
            Answer::Ok(numbers) => numbers.last() != Some(&0),
            _ => false,
        };
        if book::has(mark, k as usize) != behind {
            return Err(format!("stale answered {mark}, the look at sheet {k} says otherwise"));
        }
    }
    Ok(())
}
