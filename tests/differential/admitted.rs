//! Desks read back from disk: the story's desk bent, taken by both sides or by none; what is taken is
//! gone on with, and demand 3 tested by the book of that admission.

use crate::bent::bend;
use crate::book::Book;
use crate::desk::{in_form, Answer, Sizes};
use crate::met::{Met, Source};
use crate::pair::{Pair, ANSWER};
use crate::plots;
use crate::random::Random;
use crate::teller::Teller;
use crate::text::{self, Call};

/// Desks over so many words have no book: it would take too long.
const LARGE: usize = 5_000;
const BENT: usize = 3;

/// Some desks bent, and one of those that are admitted gone on with.
pub fn read_back(random: &mut Random, pair: &Pair, met: &mut Met) -> Result<(), String> {
    let Some(s) = in_form(pair.words()) else {
        return Ok(());
    };
    let mut admitted = None;
    for _ in 0..BENT {
        let mut bent = pair.clone();
        let mut words = pair.words().to_vec();
        bend(random, &mut words, s);
        for (at, word) in words.iter().enumerate() {
            if *word != bent.words()[at] {
                bent.set(at, *word);
            }
        }
        met.in_form[Source::Bent as usize] += u64::from(in_form(&words).is_some());
        let answer = bent.call(&Call::Admit, ANSWER)?;
        met.enter(Source::Bent, &Call::Admit, &answer);
        if matches!(answer, Some(Answer::Ok(_))) {
            admitted = Some(bent);
        }
    }
    admitted.map_or(Ok(()), |pair| go_on(random, pair, s, met))
}

/// A story that begins at an admission.
fn go_on(random: &mut Random, mut pair: Pair, s: Sizes, met: &mut Met) -> Result<(), String> {
    let mut book = (s.total() <= LARGE).then(|| Book::admitted(pair.words(), s));
    let mut teller = Teller::new(random.next());
    teller.words = pair.words().to_vec();
    while teller.counts.lines < 15 {
        plots::without_new(&mut teller);
    }
    for line in teller.script.split(|byte| *byte == b'\n') {
        let Some(call) = text::read_line(line) else {
            continue;
        };
        let answer = pair.call(&call, ANSWER)?;
        met.enter(Source::Admitted, &call, &answer);
        if matches!((&call, &answer), (Call::New(_), Some(Answer::Ok(_)))) {
            // What was lent may have room for another desk: there this book ends.
            return Ok(());
        }
        if let (Some(book), Some(answer)) = (&mut book, &answer) {
            let followed = book.follow(&call, answer, pair.words(), &mut met.by_books);
            followed.map_err(|claim| format!("{}# {claim}", pair.print()))?;
        }
    }
    Ok(())
}
