//! "A desk read back from disk": `readback SEED DESKS` bends desks that generated calls have made
//! and, where admit takes one, goes on with calls, tests demand 3 by the book of that admission
//! and that prepared runs go through.
//! Ends with 1, and prints the desk and the calls, if a claim fails.
#![allow(dead_code)]

#[path = "generate/audits.rs"]
mod audits;
#[path = "generate/bent.rs"]
mod bent;
mod book;
#[path = "generate/booked.rs"]
mod booked;
#[path = "generate/branches.rs"]
mod branches;
#[path = "generate/chains.rs"]
mod chains;
#[path = "generate/counts.rs"]
mod counts;
mod desk;
#[path = "generate/everyday.rs"]
mod everyday;
#[path = "generate/foreseen.rs"]
mod foreseen;
#[path = "generate/forked.rs"]
mod forked;
#[path = "generate/odd.rs"]
mod odd;
#[path = "generate/plots.rs"]
mod plots;
mod prepared;
#[path = "generate/random.rs"]
mod random;
#[path = "generate/records.rs"]
mod records;
#[path = "generate/rights.rs"]
mod rights;
#[path = "generate/rivals.rs"]
mod rivals;
#[path = "generate/rounds.rs"]
mod rounds;
#[path = "generate/small.rs"]
mod small;
#[path = "generate/spared.rs"]
mod spared;
#[path = "generate/spoiled.rs"]
mod spoiled;
#[path = "generate/teller.rs"]
mod teller;
mod text;

use book::follow::Seen;
use book::Book;
use desk::{Answer, Sizes};
use prepared::Prepared;
use random::Random;
use teller::Teller;

#[derive(Default)]
struct Met {
    desks: u64,
    /// Verdicts of admit: taken, 1, 11.
    taken: u64,
    formless: u64,
    refused: u64,
    seen: Seen,
    prepared: Prepared,
}

fn main() {
    let numbers = std::env::args().skip(1).map(|word| word.parse::<u64>().ok());
    let [seed, desks] = match numbers.collect::<Option<Vec<u64>>>().as_deref() {
        Some([]) => [1, 2000],
        Some([seed, desks]) => [*seed, *desks],
        _ => {
            eprintln!("usage: readback [SEED DESKS]");
            std::process::exit(2);
        }
    };
    let mut met = Met { desks, ..Met::default() };
    for desk in 0..desks {
        let mut random = Random::new(seed.wrapping_mul(1_000_003).wrapping_add(desk));
        let (words, s) = bent_desk(&mut random);
        match desk::admit(&words) {
            Answer::Refused(11) => met.refused += 1,
            Answer::Refused(_) => met.formless += 1,
            _ => {
                met.taken += 1;
                if let Err(claim) = go_on(&mut random, words, s, &mut met) {
                    println!("{claim}");
                    println!("readback: seed {seed}, desk {desk}: a claim fails");
                    std::process::exit(1);
                }
            }
        }
    }
    met.print();
    if desks >= 500 && met.too_few() {
        println!("readback: too few of some");
        std::process::exit(1);
    }
}

impl Met {
    fn print(&self) {
        let Met { desks, taken, formless, refused, seen, prepared } = self;
        println!(
            "readback: {desks} desks, {taken} admitted, {refused} refused with 11, {formless} \
             with 1; {} calls, {} steps tried against all choices, {} broken, {} pairs of \
             finished jobs, {} paths, {} joins, {} broken ones, {} forecasts, {}",
            seen.calls,
            seen.tried,
            seen.broken,
            seen.snapshots,
            seen.paths,
            seen.joins,
            seen.joins_broken,
            seen.forecasts,
            prepared.tested.print()
        );
    }

    /// Of a few desks chance has too large a part.
    fn too_few(&self) -> bool {
        let (desks, broken) = (self.desks, self.seen.broken as u64);
        let (steps, beside) = (self.prepared.tested.steps, self.prepared.tested.beside);
        2 * self.taken < desks
            || 10 * self.refused < desks
            || 10 * broken < desks
            || (steps as u64) < desks
            || 10 * (beside as u64) < desks
    }
}

/// A desk that a story of calls has made, bent.
fn bent_desk(random: &mut Random) -> (Vec<u32>, Sizes) {
    let mut teller = Teller::new(random.next());
    plots::fresh_desk(&mut teller);
    while teller.counts.lines < 60 {
        plots::without_new(&mut teller);
    }
    let s = teller.sizes();
    teller.words.truncate(s.total());
    bent::bend(random, &mut teller.words, s);
    (teller.words, s)
}

/// Calls on an admitted desk, each followed by the book.
fn go_on(random: &mut Random, words: Vec<u32>, s: Sizes, met: &mut Met) -> Result<(), String> {
    met.prepared.start_over();
    let mut book = Book::admitted(&words, s);
    let mut teller = Teller::new(random.next());
    let mut desk = words.clone();
    teller.words = words.clone();
    while teller.counts.lines < 60 {
        plots::without_new(&mut teller);
    }
    let mut told = String::new();
    for line in teller.script.split(|byte| *byte == b'\n') {
        if let Some(call) = text::read_line(line) {
            told.push_str(&format!("{}\n", call.line()));
            let before = desk.clone();
            let answer = text::run(&mut desk, &call);
            let goes = met.prepared.follow(&before, &call, &answer, &desk);
            let followed =
                goes.and_then(|()| book.follow(&call, &answer, &desk, &mut met.seen));
            followed.map_err(|claim| format!("{words:?}\n{told}{claim}"))?;
        }
    }
    Ok(())
}
