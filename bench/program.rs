//! What a line costs: the program against the reference's own, in turns, on the same scripts.
//!
//! `program PROGRAM REFERENCE SCRIPT`: SCRIPT is a long generated script. Besides it, scripts of
//! one call over and over, on desks of which one count grows: in the program the cost of a call
//! must not grow with parts of the desk that it doesn't touch.

use std::fs::File;
use std::io::Write;
use std::process::{exit, Command, Stdio};
use std::time::Instant;

const LINES: usize = 200_000;

/// Calls that come back to the same desk, and what makes the desk ready for them.
const LOOPS: [(&str, &str, &str); 7] = [
    ("look", "", "look 0 0 0\n"),
    ("stale", "fetch 0 0\n", "stale 0\n"),
    ("fetch", "", "fetch 0 0\n"),
    ("fetch, evict", "", "fetch 0 0\nevict 0 0\n"),
    ("open, drop", "", "open 0 0 1 0\ndrop 0\n"),
    ("open, step, drop", "fetch 0 0\n", "open 0 0 1 0\nstep 0 0\ndrop 0\n"),
    ("open, step, issue", "", "open 0 0 0 0\nstep 0 0\nissue 0 0 1\n"),
];

fn main() {
    let arguments = std::env::args().skip(1).collect::<Vec<String>>();
    let [program, reference, script] = arguments.as_slice() else {
        eprintln!("usage: program PROGRAM REFERENCE SCRIPT");
        exit(2);
    };
    let lines = lines_of(script);
    println!("| Script | Lines | Program ns a line | Reference ns a line | Ratio |");
    println!("|---|---|---|---|---|");
    let [mine, theirs, least, middle, most] = measure(program, reference, script, lines, 7);
    let ratio = format!("{least:.2} {middle:.2} {most:.2}");
    println!("| generated | {lines} | {mine:.0} | {theirs:.0} | {ratio} |");
    println!();
    println!("| Calls | Count | Values | Program ns a line | Reference ns a line |");
    println!("|---|---|---|---|---|");
    let values = [[4, 8, 16, 24], [1, 2, 4, 8], [1, 2, 4, 8], [1, 2, 4, 8]];
    for (name, before, calls) in LOOPS {
        for count in 0..4 {
            let costs = values[count].map(|value| {
                let mut sizes = [8, 2, 2, 2];
                sizes[count] = value;
                let script = write_script(sizes, before, calls);
                let lines = lines_of(&script);
                measure(program, reference, &script, lines, 3)
            });
            let list = |side: usize| costs.map(|cost| format!("{:.0}", cost[side])).join(" ");
            let values = values[count].map(|value| value.to_string()).join(" ");
            let letter = ["K", "W", "N", "P"][count];
            println!("| {name} | {letter} | {values} | {} | {} |", list(0), list(1));
        }
    }
}

fn lines_of(script: &str) -> usize {
    let bytes = std::fs::read(script).expect("the script can be read");
    bytes.iter().filter(|byte| **byte == b'\n').count().max(1)
}

/// A new desk with sheet 0 issued, then the calls over and over.
fn write_script([k, w, n, p]: [usize; 4], before: &str, calls: &str) -> String {
    let path = "target/bench/loop.txt";
    let start = format!("new {k} {w} {n} {p}\nopen 0 0 0 0\nstep 0 0\nissue 0 0 1\n{before}");
    let turns = LINES / calls.lines().count();
    let mut file = File::create(path).expect("target/bench is there");
    file.write_all(start.as_bytes()).expect("the script can be written");
    file.write_all(calls.repeat(turns).as_bytes()).expect("the script can be written");
    path.to_string()
}

/// Nanoseconds a line of one run.
fn time(program: &str, script: &str, lines: usize) -> f64 {
    let input = File::open(script).expect("the script can be read");
    let start = Instant::now();
    let status = Command::new(program).stdin(input).stdout(Stdio::null()).status();
    if !status.is_ok_and(|status| status.success()) {
        eprintln!("program: {program} failed on {script}");
        exit(1);
    }
    start.elapsed().as_nanos() as f64 / lines as f64
}

/// Medians of both, and the ratio's least, median and largest.
fn measure(program: &str, reference: &str, script: &str, lines: usize, rounds: usize) -> [f64; 5] {
    let (mut mine, mut theirs, mut ratios) = (Vec::new(), Vec::new(), Vec::new());
    for _ in 0..rounds {
        mine.push(time(program, script, lines));
        theirs.push(time(reference, script, lines));
        ratios.push(mine[mine.len() - 1] / theirs[theirs.len() - 1]);
    }
    for values in [&mut mine, &mut theirs, &mut ratios] {
        values.sort_by(f64::total_cmp);
    }
    let middle = rounds / 2;
    [mine[middle], theirs[middle], ratios[0], ratios[middle], ratios[rounds - 1]]
}
