//! Prints a script of calls for a seed: `generate SEED LINES [--count]`.
//!
//! It keeps a desk of its own, so that it can steer towards merges of rivals, evictions,
//! prepares, breaks, paths behind breaks and prepared runs that go through; audits stand between
//! the plots. With `--count` it says on standard error what the script meets.
#![allow(dead_code)]

#[path = "generate/audits.rs"]
mod audits;
#[path = "generate/booked.rs"]
mod booked;
#[path = "generate/branches.rs"]
mod branches;
#[path = "generate/chains.rs"]
mod chains;
#[path = "generate/counts.rs"]
mod counts;
mod desk;
#[path = "generate/everyday.rs"]
mod everyday;
#[path = "generate/foreseen.rs"]
mod foreseen;
#[path = "generate/forked.rs"]
mod forked;
#[path = "generate/odd.rs"]
mod odd;
#[path = "generate/plots.rs"]
mod plots;
mod prepared;
#[path = "generate/random.rs"]
mod random;
#[path = "generate/records.rs"]
mod records;
#[path = "generate/rights.rs"]
mod rights;
#[path = "generate/rivals.rs"]
mod rivals;
#[path = "generate/rounds.rs"]
mod rounds;
#[path = "generate/small.rs"]
mod small;
#[path = "generate/spared.rs"]
mod spared;
#[path = "generate/spoiled.rs"]
mod spoiled;
#[path = "generate/teller.rs"]
mod teller;
mod text;
#[path = "generate/unread.rs"]
mod unread;

use std::io::{self, Write};
use teller::Teller;

fn main() -> io::Result<()> {
    let arguments = std::env::args().skip(1).collect::<Vec<String>>();
    let count = arguments.iter().any(|word| word == "--count");
    let mut numbers = arguments.iter().filter_map(|word| word.parse::<u64>().ok());
    let (Some(seed), Some(lines)) = (numbers.next(), numbers.next()) else {
        eprintln!("usage: generate SEED LINES [--count]");
        std::process::exit(2);
    };
    let mut teller = Teller::new(seed);
    audits::between(&mut teller, 30);
    odd::before_new(&mut teller);
    plots::fresh_desk(&mut teller);
    while teller.counts.lines < lines {
        one_plot(&mut teller);
        audits::between(&mut teller, 25);
    }
    if teller.chance(50) {
        teller.script.pop(); // "the last line may lack" its line end
    }
    io::stdout().lock().write_all(&teller.script)?;
    if count {
        eprintln!("{}", teller.counts.print());
    }
    Ok(())
}

/// One plot: a few calls that belong together.
fn one_plot(teller: &mut Teller) {
    match teller.below(100) {
        number @ 0..=57 => plots::of_runs(teller, number),
        58..=61 => everyday::fetch_and_evict(teller),
        62..=64 => small::small_shelf(teller),
        65..=67 => rounds::dispatch(teller),
        68..=72 => rights::joint_project(teller),
        73..=78 => everyday::any_call(teller),
        79..=88 => odd::refused(teller),
        89..=94 => unread::line(teller),
        95 => unread::long_line(teller),
        _ => plots::fresh_desk(teller),
    }
}
