//! Audits of long records: one of 10,000 issues, and how the cost grows with issues and reads.

use crate::desk::record::{Issue, Read, Record};
use crate::desk::Answer;
use crate::library;
use crate::rounds::middle;
use crate::walked;
use std::hint::black_box;
use std::time::Instant;

const K: usize = 8;
const W: usize = 4;

/// The words of a record that is accepted. Each issue reads the sheets saved last, as the issues
/// before it left them: all of these are read or stand behind what is.
pub fn record(k: usize, w: usize, issues: usize, reads: usize) -> Vec<u32> {
    let mut record = Record { k, w, issues: Vec::new() };
    // For each sheet its row, for each writer its issues.
    let (mut rows, mut own) = (vec![vec![0; w]; k], vec![0; w]);
    for at in 0..issues {
        let sheets = (0..reads.min(k).min(at)).map(|more| (at - 1 - more) % k);
        let reads = sheets.map(|sheet| Read { sheet, counts: rows[sheet].clone() });
        let reads = reads.collect();
        let (writer, sheet) = ((at + at / k) % w, at % k);
        own[writer] += 1;
        rows[sheet][writer] = own[writer];
        record.issues.push(Issue { writer, saved: 1 << sheet, reads });
    }
    record.words().expect("it fits")
}

/// Median nanoseconds of an audit on each side, and the ratio's least, median and largest.
struct Cost {
    library: f64,
    reference: f64,
    ratio: [f64; 3],
}

pub fn tables() {
    println!();
    println!("| Record | Library ns | Reference ns | Ratio (least, median, largest) |");
    println!("|---|---|---|---|");
    let cost = measure(10_000, 2, 3);
    let [least, middle, most] = cost.ratio;
    let (mine, theirs) = (cost.library, cost.reference);
    println!(
        "| {K} {W}, 10,000 issues, 2 reads each | {mine:.0} | {theirs:.0} | \
         {least:.2} {middle:.2} {most:.2} |"
    );
    println!();
    println!("| Record | Count | Values | Library ns | Reference ns |");
    println!("|---|---|---|---|---|");
    let shapes = [500, 1000, 2000, 4000].map(|issues| (issues, 2));
    row("2 reads each", "issues", shapes, |shape| shape.0);
    let shapes = [0, 1, 2, 4].map(|reads| (2000, reads));
    row("2000 issues", "reads of each", shapes, |shape| shape.1);
}

/// How the cost grows over these records of issues and reads.
fn row(what: &str, count: &str, shapes: [(usize, usize); 4], value: fn(&(usize, usize)) -> usize) {
    let costs = shapes.map(|(issues, reads)| measure(issues, reads, 5));
    let list = |side: fn(&Cost) -> f64| {
        costs.iter().map(|cost| format!("{:.0}", side(cost))).collect::<Vec<String>>().join(" ")
    };
    let values = shapes.iter().map(|shape| value(shape).to_string()).collect::<Vec<String>>();
    let (mine, theirs) = (list(|cost| cost.library), list(|cost| cost.reference));
    println!("| {K} {W}, {what} | {count} | {} | {mine} | {theirs} |", values.join(" "));
}

/// So many rounds, both sides in turns; both must accept.
fn measure(issues: usize, reads: usize, rounds: usize) -> Cost {
    let words = record(K, W, issues, reads);
    let mut answer = [0; 40];
    let count = library::audit(&words, &mut answer) as usize;
    assert!(answer[..count] == [0, 0] && walked::audit(&words) == Answer::Ok(vec![0]));
    let (mut mine, mut theirs, mut ratios) = (Vec::new(), Vec::new(), Vec::new());
    for _ in 0..rounds {
        mine.push(time(|| black_box(library::audit(black_box(&words), &mut answer)) as usize));
        theirs.push(time(|| black_box(walked::audit(black_box(&words))).words().len()));
        ratios.push(mine[mine.len() - 1] / theirs[theirs.len() - 1]);
    }
    let middle_ratio = middle(&mut ratios);
    let ratio = [ratios[0], middle_ratio, ratios[rounds - 1]];
    Cost { library: middle(&mut mine), reference: middle(&mut theirs), ratio }
}

fn time(audit: impl FnOnce() -> usize) -> f64 {
    let start = Instant::now();
    black_box(audit());
    start.elapsed().as_nanos() as f64
}
