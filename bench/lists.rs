//! What a call of a list of 10,000 everyday calls costs, on desks that are fresh, in use or full:
//! by the single exports, by the one that takes a text, by the program, and by the reference.
//!
//! `lists [PROGRAM]`: a row for each desk: medians of all rounds, in nanoseconds of a call, and of
//! the rounds' ratios. Without PROGRAM its column is left empty.
//! `lists --try [PROGRAM]`: each list once on each side; all must answer alike and leave the same
//! desk. On the largest desk a shorter list.
#![allow(dead_code)]

#[path = "lists/drawn.rs"]
mod drawn;
#[path = "../embed/sheetdesk.rs"]
mod embed;
#[path = "../tests/exported.rs"]
mod exported;
#[path = "../reference"]
mod reference {
    pub mod desk;
    pub mod script;
    pub mod text;
    pub mod walked;
}
#[path = "calls/desks.rs"]
mod desks;
#[path = "../embed/library.rs"]
mod library;
#[path = "../reference/generate/random.rs"]
mod random;
#[path = "calls/records.rs"]
mod records;
#[path = "calls/rounds.rs"]
mod rounds;
#[path = "lists/sides.rs"]
mod sides;

use drawn::{list, Begun};
use reference::script as script_of;
use reference::{desk, text, walked};
use sides::{Cost, Lent};

/// Small, middle and largest.
const SIZES: [[u32; 4]; 3] = [[2, 2, 2, 1], [8, 4, 4, 4], [32, 16, 8, 8]];
const BEGUN: [(Begun, &str); 3] =
    [(Begun::Fresh, "fresh"), (Begun::Everyday, "everyday"), (Begun::Full, "full")];
const CALLS: usize = 10_000;

fn main() {
    let mut arguments = std::env::args().skip(1).collect::<Vec<String>>();
    let only_try = arguments.first().is_some_and(|word| word == "--try");
    if only_try {
        arguments.remove(0);
    }
    let program = arguments.first().map(String::as_str);
    if !only_try {
        println!(
            "| Desk | Begun | Single calls ns | Text ns | Program ns | Reference's calls ns \
             | Reference's text ns | Text against single calls | against the reference's text |"
        );
        println!("|---|---|---|---|---|---|---|---|---|");
    }
    for sizes in SIZES {
        for (begun, name) in BEGUN {
            let large = sizes == SIZES[2];
            let count = if only_try && large { 300 } else { CALLS };
            let list = list(sizes, begun, count);
            let mut lent = Lent::of(&list, program);
            let made = lent.check();
            assert!(2 * made > count, "{sizes:?} {name}: {made} of {count} calls weren't refused");
            if !only_try {
                let (rounds, turns) = if large { (5, 1) } else { (21, 3) };
                row(sizes, name, lent.measure(rounds, turns), program.is_some());
            }
        }
    }
}

fn row([k, w, n, p]: [u32; 4], name: &str, cost: Cost, program: bool) {
    let told = |side: usize| match cost.median(|round| round[side]) {
        Some(time) => format!("{time:.0}"),
        None if program => String::from("no room"),
        None => String::new(),
    };
    let ratio = |side: usize| {
        let ratio = cost.median(|round| Some(round[1]? / round[side]?));
        ratio.map_or(String::new(), |ratio| format!("{ratio:.2}"))
    };
    let columns = [0, 1, 2, 3, 4].map(told).join(" | ");
    println!("| {k} {w} {n} {p} | {name} | {columns} | {} | {} |", ratio(0), ratio(4));
}
