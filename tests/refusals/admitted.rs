//! Admission on lent desks: each condition by itself, and what calls do after it.

use crate::desk::layout::{COUNT, LAST_ISSUE, LEADERS, NUMBER, PAST, WRITER_PAST};
use crate::desk::layout::{DONE, JOBS, JOB_LIST, READ, STATE};
use crate::lines::save;
use crate::text::Call;
use crate::trials::{Desk, Trials};

pub fn of_all(t: &mut Trials) {
    of_conditions(t);
    of_words(t);
    of_lists(t);
    of_pasts(t);
    of_line_leaders(t);
    of_hidden_lists(t);
    of_both_lines(t);
}

// A desk 2 1 1 1: the master's sheet 1 needs its sheet 0, the shelf has both, and an open run reads
// sheet 1 alone, which its card has. The need of the card's version lies outside of the plan.
fn saved() -> Desk {
    let mut d = Desk::fresh([2, 1, 1, 1]);
    let s = d.sizes();
    d.words[LAST_ISSUE] = 2;
    for at in [s.master_at(0), s.shelf_at(0, 0)] {
        d.put(at, &[1, 1, 1, 0, 2, 1, 1, 2]);
    }
    d.put(s.writer_at(0), &[2, 1, 2]);
    put_run(&mut d, [1, 1, 0, 0], &[0, 2, 0]);
    d.put(s.card_at(0, 1), &[2, 1, 1, 2]);
    d
}

// Run 0: state, number of jobs, done mask and read mask, then its jobs.
fn put_run(d: &mut Desk, [state, jobs, done, read]: [u32; 4], list: &[u32]) {
    let at = d.sizes().run_at(0);
    for (word, value) in [(STATE, state), (JOBS, jobs), (DONE, done), (READ, read)] {
        d.words[at + word] = value;
    }
    d.put(at + JOB_LIST, list);
}

// The saved desk with some words changed: what admit answers, and that 11 is from admission alone.
fn of_conditions(t: &mut Trials) {
    let s = saved().sizes();
    let (shelf, writer, run) = (s.shelf_at(0, 0), s.writer_at(0), s.run_at(0));
    let (card, mark, own) = (s.card_at(0, 1), s.stale_at(0), s.master_at(0) + PAST);
    let reads = run + JOB_LIST + 1;
    let cases: [(&str, &[(usize, u32)], u32); 16] = [
        ("as it is", &[], 0),
        ("a number over the last one", &[(LAST_ISSUE, 1)], 11),
        ("a last number that no version has", &[(LAST_ISSUE, 3)], 0),
        ("a count over its writer's", &[(writer + COUNT, 1)], 11),
        ("a writer's past over the master's row", &[(writer + WRITER_PAST, 2)], 11),
        ("a writer's past that lacks its saves", &[(writer + WRITER_PAST, 0)], 0),
        ("a shelf that is no cut", &[NUMBER, LEADERS, PAST].map(|word| (shelf + word, 0)), 11),
        ("a card that is no cut among its plan", &[(reads, 3)], 11),
        ("a card of a broken run", &[(reads, 3), (run + STATE, 2)], 11),
        ("a card's number over the last one", &[(card + NUMBER, 3)], 11),
        ("a card's row over the master's", &[(card + PAST, 2)], 11),
        ("a shelf's number that isn't the master's", &[(shelf + NUMBER, 2)], 0),
        ("a mark that isn't the shelf's", &[(mark, 1)], 1),
        ("a right that bars a held sheet", &[(s.mayhold_at(0), 1)], 1),
        ("a master ahead of the shelf", &[(own, 2), (mark, 1)], 0),
        ("a master over its writer's count", &[(own, 3), (mark, 1)], 11),
    ];
    for (what, changes, number) in cases {
        let mut d = saved();
        changes.iter().for_each(|(at, word)| d.words[*at] = *word);
        match number {
            0 => t.told(&format!("admit, {what}"), &mut d, Call::Admit, &[0, 0]),
            _ => t.refused(&format!("admit {number}, {what}"), &mut d, Call::Admit, number),
        }
        if number == 11 {
            t.ok(&format!("fetch, {what}"), &mut d, Call::Fetch(0, 0), &[1]);
        }
    }
}

// The desk is lent word by word, as it is written down.
fn of_words(t: &mut Trials) {
    let mut words = vec![2, 1, 1, 1, 2, 10, 18, 28, 31, 80];
    words.extend([1, 1, 1, 0, 2, 1, 1, 2, 1, 1, 1, 0, 2, 1, 1, 2, 0, 2, 2, 1, 2, 1, 1, 0, 0, 0, 2, 0]);
    words.extend([0; 21]);
    words.extend([0, 0, 0, 0, 2, 1, 1, 2]);
    words.extend([0; 10]);
    words.extend([0, 3, 3]);
    t.check("admit, the words as written down", saved().words[..words.len()] == words);
}

// Needs are listed, not chained: sheet 2 lists sheet 1, which needs sheet 0 at 2, and not sheet 0
// itself.
fn of_lists(t: &mut Trials) {
    let lent = |listed: u32| {
        let mut d = Desk::fresh([3, 1, 1, 1]);
        let s = d.sizes();
        d.words[LAST_ISSUE] = 3;
        d.put(s.master_at(0), &[2, 1, 2, 0, 0, 3, 1, 2, 1, 0, 1, 1, listed, 1, 1]);
        d.words[s.writer_at(0) + COUNT] = 2;
        put_run(&mut d, [1, 2, 1, 1], &[0, 1, 0, 0, 4, 0]);
        d.put(s.card_at(0, 0), &[1, 1, 1, 0, 0]);
        d
    };
    let mut d = lent(0);
    let s = d.sizes();
    t.told("lists, admit", &mut d, Call::Admit, &[0, 0]);
    t.told("lists, clear", &mut d, Call::Explain(0, 1, 0), &[3]);
    t.ok("lists, step", &mut d, Call::Step(0, 1, 0), &[0, 0, 4]);
    t.ok("lists, the read sheet stays", &mut d, Call::Look(2, 0, 0), &[1, 1, 1, 1]);
    t.ok("lists, issue", &mut d, Call::Issue(0, 0, 2), &[4]);
    let (master, past) = (s.master_at(1) + PAST, s.writer_at(0) + WRITER_PAST);
    t.check("lists, the master's rows", d.words[master..master + 3] == [2, 3, 1]);
    t.check("lists, the writer's past", d.words[past..past + 3] == [1, 3, 1]);
    t.told("lists, admit again", &mut d, Call::Admit, &[0, 0]);
    let mut d = lent(2);
    t.told("lists, sheet 0 listed, admit", &mut d, Call::Admit, &[0, 0]);
    t.told("lists, sheet 0 listed, path", &mut d, Call::Explain(0, 1, 0), &[4, 2, 0]);
    t.check("lists, sheet 0 listed, broken", d.call(&Call::Step(0, 1, 0)) == [1, 1]);
}

// What stands in a writer's past stands behind that writer's next issue, and behind no other's.
fn of_pasts(t: &mut Trials) {
    let lent = || {
        let mut d = Desk::fresh([2, 2, 1, 1]);
        let s = d.sizes();
        d.words[LAST_ISSUE] = 3;
        d.put(s.master_at(0), &[3, 1, 2, 0, 0, 0]);
        d.words[s.writer_at(0) + COUNT] = 2;
        d.put(s.writer_at(1), &[1, 2, 0]);
        d
    };
    let save = |d: &mut Desk, writer| {
        d.call(&Call::Open(0, vec![0, 0, 0]));
        d.call(&Call::Step(0, 0, 0));
        d.call(&Call::Issue(0, writer, 2))
    };
    let mut d = lent();
    t.told("pasts, admit", &mut d, Call::Admit, &[0, 0]);
    t.check("pasts, a save", save(&mut d, 1) == [0, 4]);
    t.ok("pasts, fetch with what the past has", &mut d, Call::Fetch(0, 1), &[3]);
    let mut d = lent();
    t.check("pasts, the other's save", save(&mut d, 0) == [0, 4]);
    t.ok("pasts, look", &mut d, Call::Look(0, 0, 1), &[4, 1, 3, 0, 0]);
    t.ok("pasts, fetch alone", &mut d, Call::Fetch(0, 1), &[2]);
}

// Rows are equal on both lines, but the merge has other leading writers: the sheet moves.
fn of_line_leaders(t: &mut Trials) {
    let mut words = vec![1, 2, 1, 1, 2, 10, 14, 20, 26, 68];
    words.extend([2, 3, 1, 1, 2, 3, 1, 1, 0, 1, 1, 1, 0, 1, 0, 0]);
    words.extend([1, 2, 3, 1, 0, 1, 0, 0, 1, 0]);
    words.extend([0; 18]);
    words.extend([2, 1, 1, 1, 1, 1, 2, 2, 1, 1, 0, 1, 1, 1]);
    let mut d = Desk::fresh([1, 2, 1, 1]);
    d.put(0, &words);
    t.told("leaders, admit", &mut d, Call::Admit, &[0, 0]);
    t.check("leaders, the join breaks", d.call(&Call::Join(0)) == [1, 1]);
}

// On both lines sheet 0 is one version, with lists that a later count hides: the join is ok.
fn of_hidden_lists(t: &mut Trials) {
    let mut d = Desk::fresh([4, 1, 2, 3]);
    let s = d.sizes();
    d.words[LAST_ISSUE] = 9;
    let versions = [1, 1, 1, 1, 0, 0, 2, 1, 0, 2, 0, 0, 3, 1, 1, 0, 1, 0];
    d.put(s.master_at(0), &versions);
    d.put(s.shelf_at(0, 0), &versions);
    d.words[s.shelf_at(0, 0) + 3] = 2;
    d.words[s.writer_at(0) + COUNT] = 2;
    d.put_marks();
    t.told("hidden, admit", &mut d, Call::Admit, &[0, 0]);
    save(&mut d, 3);
    save(&mut d, 8);
    d.call(&Call::Open(0, vec![0, 4, 0, 1, 8, 0, 0, 1, 0, 1, 1, 0]));
    d.call(&Call::Fork(0));
    t.ok("hidden, job 0", &mut d, Call::Step(0, 0, 0), &[0, 4, 0]);
    t.ok("hidden, job 1", &mut d, Call::Step(0, 1, 0), &[0, 0, 8]);
    t.ok("hidden, job 2", &mut d, Call::Step(0, 2, 0), &[1, 0, 0]);
    t.ok("hidden, job 3", &mut d, Call::Step(0, 3, 1), &[0, 1, 0]);
    for line in [0, 1] {
        let at = s.line_card_at(0, line, 0);
        t.check("hidden, one version", d.words[at..at + 6] == [10, 1, 3, 3, 0, 0]);
    }
    t.ok("hidden, join", &mut d, Call::Join(0), &[0]);
}

// The card of line 1 alone is no cut of its plan.
fn of_both_lines(t: &mut Trials) {
    let mut d = Desk::fresh([2, 1, 1, 1]);
    let s = d.sizes();
    d.words[LAST_ISSUE] = 2;
    d.put(s.master_at(0), &[1, 1, 1, 0, 2, 1, 1, 2]);
    d.put(s.writer_at(0), &[2, 1, 2]);
    put_run(&mut d, [1, 1, 0, 0], &[0, 3, 0]);
    d.words[s.mark_at(0)] = 1;
    d.put(s.line_card_at(0, 1, 1), &[2, 1, 1, 2]);
    t.refused("lines, admit 11", &mut d, Call::Admit, 11);
    let mut carried = d.clone();
    carried.words[69..72].fill(1);
    t.told("lines, admit, carried", &mut carried, Call::Admit, &[0, 0]);
    d.words[36] = 2;
    t.told("lines, admit, not in the plan", &mut d, Call::Admit, &[0, 0]);
}
