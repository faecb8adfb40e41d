//! What each of the calls costs, and eight steps beside their forecast: the static library against
//! the reference, on the same desks, in one run, in turns.
//!
//! `calls`: a row for each call and size: median nanoseconds of both, and the ratio's least,
//! median and largest of all rounds; then how the library's cost grows with K, W, N and P; then
//! audits of long records. An audit is held against the reference's walk back, which goes the same
//! way as a program that has no room for sets.
//! `calls --count K W N P`: each case once on each side, inside `counted_library` and
//! `counted_reference`, for a tool that counts instructions.
#![allow(dead_code)]

#[path = "../embed/sheetdesk.rs"]
mod embed;
#[path = "../reference"]
mod reference {
    pub mod desk;
    pub mod text;
    pub mod walked;
}
#[path = "../embed/library.rs"]
mod library;
#[path = "calls/desks.rs"]
mod desks;
#[path = "calls/records.rs"]
mod records;
#[path = "calls/rounds.rs"]
mod rounds;

use reference::{desk, text, walked};

/// Small, middle and largest.
const SIZES: [[u32; 4]; 3] = [[2, 2, 2, 1], [8, 4, 4, 4], [32, 16, 8, 8]];

fn main() {
    let arguments = std::env::args().skip(1).collect::<Vec<String>>();
    if arguments.first().is_some_and(|word| word == "--count") {
        let counts = arguments.iter().skip(1).filter_map(|word| word.parse().ok());
        let Ok(sizes) = <[u32; 4]>::try_from(counts.collect::<Vec<u32>>()) else {
            eprintln!("usage: calls [--count K W N P]");
            std::process::exit(2);
        };
        return count(sizes);
    }
    println!("| Desk | Call | Library ns | Reference ns | Ratio (least, median, largest) |");
    println!("|---|---|---|---|---|");
    for sizes in SIZES {
        for case in desks::cases(sizes) {
            let cost = rounds::measure(&case, 21);
            let [k, w, n, p] = sizes;
            let [least, middle, most] = cost.ratio;
            println!(
                "| {k} {w} {n} {p} | {} | {:.0} | {:.0} | {least:.2} {middle:.2} {most:.2} |",
                case.name(), cost.library, cost.reference
            );
        }
    }
    growth();
    records::tables();
}

/// The library's median nanoseconds while one count of the middle desk changes.
fn growth() {
    println!();
    println!("| Call | Count | Values | Library ns | Reference ns |");
    println!("|---|---|---|---|---|");
    let steps = [[4, 8, 16, 32], [2, 4, 8, 16], [1, 2, 4, 8], [1, 2, 4, 8]];
    let names = desks::cases(SIZES[1]).iter().map(|case| case.name()).collect::<Vec<String>>();
    for (call, name) in names.iter().enumerate() {
        for (count, values) in steps.iter().enumerate() {
            let costs = values.map(|value| {
                let mut sizes = SIZES[1];
                sizes[count] = value;
                rounds::measure(&desks::cases(sizes)[call], 7)
            });
            let list = |cost: fn(&rounds::Cost) -> f64| {
                costs.iter().map(|c| format!("{:.0}", cost(c))).collect::<Vec<String>>().join(" ")
            };
            let values = values.map(|value| value.to_string()).join(" ");
            let (mine, theirs) = (list(|c| c.library), list(|c| c.reference));
            let letter = ["K", "W", "N", "P"][count];
            println!("| {name} | {letter} | {values} | {mine} | {theirs} |");
        }
    }
}

/// One call on each side for each case; the names of the cases in order.
fn count(sizes: [u32; 4]) {
    for case in desks::cases(sizes) {
        rounds::check(&case);
        let (mut mine, mut theirs) = (case.words.clone(), case.words.clone());
        let mut lent = rounds::Lent::beside(&mine);
        counted_library(&mut mine, &case, &mut lent);
        counted_reference(&mut theirs, &case, &mut lent);
        assert!(mine == theirs, "{}: the two differ", case.name());
        println!("{}", case.name());
    }
}

#[inline(never)]
#[no_mangle]
fn counted_library(words: &mut [u32], case: &desks::Case, lent: &mut rounds::Lent) -> u32 {
    rounds::by_library(words, case, lent)
}

#[inline(never)]
#[no_mangle]
fn counted_reference(
    words: &mut [u32],
    case: &desks::Case,
    lent: &mut rounds::Lent,
) -> desk::Answer {
    rounds::by_reference(words, case, lent)
}
