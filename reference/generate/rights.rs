//! Joint projects: sheets that an office may not hold or a writer not save.

use crate::desk::rights::held_mask;
use crate::desk::{in_form, Answer};
use crate::plots::{free_run, publish, publish_by, some_sheets, untied_pair, writer_of};
use crate::small;
use crate::teller::Teller;
use crate::text::{run, Call};

/// The office may hold all sheets but these.
fn bar(t: &mut Teller, office: usize, sheets: u32) {
    let mask = t.sizes().all_sheets() & !sheets;
    t.tell("mayhold", &[office as u32, mask]);
}

fn give_back(t: &mut Teller, office: usize) {
    bar(t, office, 0);
}

/// In so many of a hundred cases every office and writer that lacks a right gets all sheets again.
pub fn give_back_all(t: &mut Teller, percent: usize) {
    if !t.chance(percent) {
        return;
    }
    let (s, all) = (t.sizes(), t.sizes().all_sheets());
    for office in 0..s.n {
        if t.words[s.mayhold_at(office)] != all {
            give_back(t, office);
        }
    }
    for writer in 0..s.w {
        if t.words[s.maysave_at(writer)] != all {
            t.tell("maysave", &[writer as u32, all]);
        }
    }
}

/// An office or a writer loses a sheet or two, or has all again.
pub fn change(t: &mut Teller) {
    let (s, all) = (t.sizes(), t.sizes().all_sheets());
    let lost = 1 << t.below(s.k) | if t.chance(30) { 1 << t.below(s.k) } else { 0 };
    let (name, count, first) = match t.chance(70) {
        true => ("mayhold", s.n, s.mayhold_at(0)),
        false => ("maysave", s.w, s.maysave_at(0)),
    };
    let number = t.below(count);
    let now = t.words[first + number];
    let mask = if now != all && t.chance(70) { all } else { now & !lost };
    t.tell(name, &[number as u32, mask]);
}

/// A right is taken and missed, then mostly given back.
pub fn joint_project(t: &mut Teller) {
    match t.below(7) {
        0 | 1 => take_from_a_chain(t),
        2 | 3 => read_without_right(t),
        4 => read_from_the_card(t),
        _ => save_without_right(t),
    }
    if t.chance(25) {
        // A bit at K, if a word has one.
        let mask = t.sizes().all_sheets().saturating_add(1 + t.below(2) as u32);
        let name = ["mayhold", "maysave"][t.below(2)];
        t.tell(name, &[0, mask]);
    }
    give_back_all(t, 85);
}

/// A sheet is taken from a shelf on which another was drawn against it: both leave, and neither
/// comes back alone.
fn take_from_a_chain(t: &mut Teller) {
    let (a, b) = untied_pair(t);
    let office = t.below(t.sizes().n);
    publish(t, a, 0);
    t.tell("fetch", &[office as u32, a as u32]);
    let (run, writer) = (free_run(t) as u32, writer_of(t, b) as u32);
    t.tell("open", &[run, office as u32, 1 << a, 0]);
    t.tell("step", &[run, 0]);
    t.tell("issue", &[run, writer, 1 << b]);
    t.tell("fetch", &[office as u32, b as u32]);
    let also = if t.chance(30) { some_sheets(t, 20) } else { 0 };
    bar(t, office, 1 << a | also);
    t.tell("fetch", &[office as u32, b as u32]);
    if t.chance(60) {
        // The job reads neither of the barred sheets: they are in T alone.
        t.tell("open", &[run, office as u32, 1 << b, 0]);
        t.tell("prepare", &[run]);
        t.tell("step", &[run, 0]);
        t.tell("drop", &[run]);
    }
    if t.chance(60) {
        give_back(t, office);
        t.tell("fetch", &[office as u32, b as u32]);
    }
}

/// Jobs at an office, one of which reads a barred sheet, another one a sheet that the master
/// lacks or for which there is no room.
fn read_without_right(t: &mut Teller) {
    let s = t.sizes();
    let (office, sheet) = (t.below(s.n), t.below(s.k));
    let lacks = (0..s.k).filter(|k| !t.on_master(*k)).collect::<Vec<usize>>();
    let first = if lacks.is_empty() { t.below(s.k) } else { lacks[t.below(lacks.len())] };
    if t.chance(40) {
        small::tighten(t, office);
    }
    let both = if t.chance(30) { 1 << first } else { 0 };
    bar(t, office, 1 << sheet | both);
    t.tell("fetch", &[office as u32, first as u32]);
    t.tell("fetch", &[office as u32, sheet as u32]);
    let run = free_run(t) as u32;
    let elsewhere = t.below(s.n) as u32;
    t.tell("open", &[run, elsewhere, 1 << first, 0, office as u32, 1 << sheet, 0]);
    t.tell("prepare", &[run]);
    for job in [0, 1] {
        t.tell("step", &[run, job]);
    }
    if t.chance(50) {
        give_back(t, office);
        t.tell("prepare", &[run]);
        t.tell("step", &[run, 1]);
    }
    t.tell("drop", &[run]);
    small::loosen(t, office);
}

/// "A job may not read it at that office, even from the card."
fn read_from_the_card(t: &mut Teller) {
    let s = t.sizes();
    let (sheet, here, there) = (t.below(s.k), t.below(s.n), t.below(s.n));
    if !t.on_master(sheet) {
        publish(t, sheet, 0);
    }
    let run = free_run(t) as u32;
    let more = 1 << sheet | if t.chance(30) { some_sheets(t, 20) } else { 0 };
    t.tell("open", &[run, here as u32, 1 << sheet, 0, there as u32, more, 0]);
    if t.chance(30) {
        t.tell("prepare", &[run]);
    }
    t.tell("step", &[run, 0]);
    bar(t, there, 1 << sheet);
    t.tell("look", &[2, run, sheet as u32]);
    t.tell("step", &[run, 1]);
    if t.chance(70) {
        give_back(t, there);
        t.tell("step", &[run, 1]);
    }
}

/// A writer that may not save a sheet: it is tried before its turn, with that sheet, with others.
fn save_without_right(t: &mut Teller) {
    let s = t.sizes();
    let (writer, sheet) = (t.below(s.w), t.below(s.k));
    let mask = s.all_sheets() & !(1 << sheet | some_sheets(t, 20));
    t.tell("maysave", &[writer as u32, mask]);
    let run = free_run(t) as u32;
    let office = t.below(s.n) as u32;
    t.tell("open", &[run, office, 0, 0]);
    if t.chance(30) {
        t.tell("issue", &[run, writer as u32, 1 << sheet]);
    }
    t.tell("step", &[run, 0]);
    let others = some_sheets(t, 30);
    t.tell("issue", &[run, writer as u32, 1 << sheet | others]);
    let may = if t.chance(30) { 0 } else { others & mask };
    t.tell("issue", &[run, writer as u32, may]);
    if t.chance(40) {
        let run = free_run(t);
        let other = (writer + 1) % s.w;
        publish_by(t, run, other, 1 << sheet, 0);
    }
}

/// A step of job 1 while its office may not hold the sheet.
pub fn step_without(t: &mut Teller, run: u32, office: usize, sheet: usize) {
    bar(t, office, 1 << sheet);
    t.tell("step", &[run, 1]);
    give_back(t, office);
}

/// What a script has met of rights.
#[derive(Default)]
pub struct Met {
    mayholds: u64,
    evicting: u64,
    evicting_more: u64,
    maysaves: u64,
    before_7: u64,
    before_12: u64,
    before_a_break: u64,
}

impl Met {
    pub fn names(&self) -> [(String, u64); 7] {
        [
            ("mayholds".into(), self.mayholds),
            ("mayholds-evicting".into(), self.evicting),
            ("mayholds-evicting-more".into(), self.evicting_more),
            ("maysaves".into(), self.maysaves),
            ("rights-before-7".into(), self.before_7),
            ("rights-before-12".into(), self.before_12),
            ("rights-before-a-break".into(), self.before_a_break),
        ]
    }

    /// Takes in a call on a desk, and its answer.
    pub fn enter(&mut self, before: &[u32], after: &[u32], call: &Call, answer: &Answer) {
        match (call, answer) {
            (Call::MayHold(office, mask), Answer::Ok(_)) => {
                let held = |words| in_form(words).map(|s| held_mask(words, s, *office as usize));
                let left = held(before).unwrap_or(0) & !held(after).unwrap_or(0);
                self.mayholds += 1;
                self.evicting += u64::from(left != 0);
                self.evicting_more += u64::from(left & mask != 0);
            }
            (Call::MaySave(..), Answer::Ok(_)) => self.maysaves += 1,
            (_, Answer::Refused(13)) => match with_all_rights(before, call) {
                Answer::Refused(7) => self.before_7 += 1,
                Answer::Refused(12) => self.before_12 += 1,
                Answer::Broken(_) => self.before_a_break += 1,
                _ => {}
            },
            _ => {}
        }
    }
}

/// What the call would be answered if no right were missing.
fn with_all_rights(before: &[u32], call: &Call) -> Answer {
    let mut words = before.to_vec();
    if let Some(s) = in_form(before) {
        words[s.mayhold_at(0)..s.total()].fill(s.all_sheets());
    }
    run(&mut words, call)
}
