//! The static library against the reference on lent buffers.
//!
//! `differential [SEED [STORIES]]`: stories of steered calls, and after each one single calls
//! on copies of its desk: as it stands, damaged, lent too short; then its desk bent, and gone on with
//! if both admit it; then built desks and random words, audits of records, compare, covers and
//! merge on two clocks, and texts of calls.
//! Answers and every word are compared, of a forecast's scratch too, and words past the lent ones;
//! from an admission on demand 3 is tested by the book that begins there. Prints what was met; exits 1 if the two differ or a
//! claim fails, with the case as a script, or if too little was met. `differential --script FILE` works such a script again.
#![allow(dead_code)]

#[path = "../embed/sheetdesk.rs"]
mod embed;
mod exported;
#[path = "../embed/library.rs"]
mod library;

#[path = "../reference"]
mod reference {
    pub mod book;
    pub mod desk;
    pub mod prepared;
    pub mod script;
    pub mod text;
    pub mod walked;
}

// What steers the generated scripts steers the stories too.
#[path = "../reference/generate"]
mod generate {
    pub mod audits;
    pub mod bent;
    pub mod booked;
    pub mod branches;
    pub mod chains;
    pub mod counts;
    pub mod everyday;
    pub mod foreseen;
    pub mod forked;
    pub mod odd;
    pub mod plots;
    pub mod random;
    pub mod records;
    pub mod rights;
    pub mod rivals;
    pub mod rounds;
    pub mod small;
    pub mod spared;
    pub mod spoiled;
    pub mod teller;
    pub mod unread;
}

#[path = "differential"]
mod parts {
    pub mod admitted;
    pub mod arguments;
    pub mod audited;
    pub mod built;
    pub mod clocks;
    pub mod counted;
    pub mod damaged;
    pub mod due;
    pub mod handed;
    pub mod met;
    pub mod pair;
    pub mod random;
    pub mod script;
    pub mod stories;
    pub mod texts;
    pub mod written;
}

use generate::{audits, bent, booked, branches, chains, counts, everyday, foreseen, forked, odd};
use generate::{plots, records, rights, rivals, rounds, small, spared, spoiled, teller, unread};
use parts::{admitted, arguments, audited, built, clocks, counted, damaged, due, handed, met, pair};
use parts::{random, script, stories, texts, written};
use reference::{book, desk, prepared, text, walked};
// A script of `parts` is a printed case.
use reference::script as script_of;

use met::Met;
use random::Random;
use std::process::exit;

fn main() {
    let arguments = std::env::args().skip(1).collect::<Vec<String>>();
    if let [flag, file] = arguments.as_slice() {
        if flag == "--script" {
            exit(script::work(file));
        }
    }
    let number = |at: usize, usual: u64| match arguments.get(at) {
        None => Some(usual),
        Some(word) => word.parse::<u64>().ok(),
    };
    let (Some(seed), Some(count)) = (number(0, 1), number(1, 8000)) else {
        eprintln!("usage: differential [SEED [STORIES]] | differential --script FILE");
        exit(2);
    };
    let mut met = Met::default();
    for story in 0..count {
        // Each story has its own sequence, so that one story can be told alone.
        let mut random = Random::new(seed.wrapping_mul(1_000_003).wrapping_add(story));
        if let Err(case) = stories::all_of_one(&mut random, story, &mut met) {
            println!("{case}");
            println!("differential: seed {seed}, story {story}: library and reference differ");
            exit(1);
        }
    }
    println!("{}", met.print());
    let few = met.too_few(count);
    for line in &few {
        println!("differential: too few: {line}");
    }
    println!("differential: seed {seed}, {count} stories, {} calls, 0 differ", met.calls);
    exit(if few.is_empty() { 0 } else { 1 });
}
