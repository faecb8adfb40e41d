//! Rival saves: writers that save a sheet without having read each other's version of it.

use crate::plots::{end_run, free_run, publish, publish_by, some_sheets, writer_of};
use crate::teller::Teller;

/// Two writers issue one sheet, and neither has read the other's.
pub fn issue_rivals(t: &mut Teller) {
    let sheet = t.below(t.sizes().k);
    let first = writer_of(t, sheet);
    let second = (first + 1) % t.sizes().w;
    let also = if t.chance(15) { some_sheets(t, 20) } else { 0 };
    let run = free_run(t);
    publish_by(t, run, first, 1 << sheet | also, 0);
    publish_by(t, run, second, 1 << sheet, 0);
    if t.chance(40) {
        // The merge is read, and something is drawn against it.
        let drawn = t.below(t.sizes().k);
        publish(t, drawn, 1 << sheet);
    }
}

/// Several writers save one sheet: unread, or having read what some shelf has of it, which may
/// be behind. So several lead at a time, and a save ends the lead of those alone whom it has read.
pub fn rounds_of_rivals(t: &mut Teller) {
    let s = t.sizes();
    let sheet = t.below(s.k);
    for _ in 0..3 + t.below(4) {
        let (writer, office) = (t.below(s.w), t.below(s.n) as u32);
        let reads = if t.chance(40) { 1 << sheet } else { 0 };
        let run = free_run(t);
        publish_by(t, run, writer, 1 << sheet, reads);
        if t.chance(50) {
            t.tell("fetch", &[office, sheet as u32]);
        }
        if t.chance(50) {
            t.tell("look", &[0, 0, sheet as u32]);
        }
    }
    if t.chance(30) {
        behind_by_a_chain(t, sheet);
    }
    if t.chance(70) {
        from_several_offices(t, sheet);
    }
}

/// Another sheet is drawn against this one, and this one against that, without being read itself.
fn behind_by_a_chain(t: &mut Teller, sheet: usize) {
    let s = t.sizes();
    let between = (sheet + 1 + t.below(s.k.max(2) - 1)) % s.k;
    for (drawn, against) in [(between, sheet), (sheet, between)] {
        let office = t.below(s.n) as u32;
        if t.chance(50) {
            t.tell("fetch", &[office, against as u32]);
        }
        let (run, writer) = (free_run(t), t.below(s.w));
        publish_by(t, run, writer, 1 << drawn, 1 << against);
    }
    t.tell("look", &[0, 0, sheet as u32]);
}

/// A run that takes the sheet from two or three offices, each with a version of its own time.
fn from_several_offices(t: &mut Teller, sheet: usize) {
    let s = t.sizes();
    let run = free_run(t) as u32;
    let mut list = vec![run];
    for _ in 0..2 + t.below(2) {
        list.extend([t.below(s.n) as u32, 1 << sheet, 0]);
    }
    t.tell("open", &list);
    if t.chance(75) {
        t.tell("prepare", &[run]);
        t.tell("look", &[2, run, sheet as u32]);
    }
    for job in 0..(list.len() as u32 - 1) / 3 {
        t.tell("step", &[run, job]);
    }
    end_run(t, run as usize);
}
