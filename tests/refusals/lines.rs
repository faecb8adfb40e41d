//! Two lines of one run: the calls that fork and join it, and those that take a line.

use crate::calls_but_new;
use crate::desk::layout::STATE;
use crate::text::Call;
use crate::trials::{Desk, Trials};

pub fn of_all(t: &mut Trials) {
    of_marks(t);
    of_order(t);
    of_words(t);
    of_joins(t);
    of_broken_joins(t);
    of_form(t);
    of_the_largest(t);
}

// Sheets of a mask saved by writer 0, with run 0, which is free before and behind it.
pub fn save(d: &mut Desk, sheets: u32) {
    d.call(&Call::Open(0, vec![0, 0, 0]));
    d.call(&Call::Step(0, 0, 0));
    d.call(&Call::Issue(0, 0, sheets));
}

// What each mark turns down.
fn of_marks(t: &mut Trials) {
    let mut d = Desk::fresh([2, 2, 2, 2]);
    t.refused("fork 3", &mut d, Call::Fork(2), 3);
    t.refused("join 3", &mut d, Call::Join(u32::MAX), 3);
    t.refused("fork 4, free", &mut d, Call::Fork(1), 4);
    t.refused("join 4, free", &mut d, Call::Join(1), 4);
    d.call(&Call::Open(0, vec![0, 0, 0, 1, 0, 1]));
    t.refused("join 14, never forked", &mut d, Call::Join(0), 14);
    t.refused("step 14, never forked", &mut d, Call::Step(0, 0, 1), 14);
    t.refused("explain 14, never forked", &mut d, Call::Explain(0, 0, 1), 14);
    t.ok("fork", &mut d, Call::Fork(0), &[0]);
    t.refused("fork 14, forked", &mut d, Call::Fork(0), 14);
    t.refused("prepare 14", &mut d, Call::Prepare(0), 14);
    t.refused("issue 14 before 6", &mut d, Call::Issue(0, 0, 1), 14);
    t.refused("issue 14, of nothing", &mut d, Call::Issue(0, 0, 0), 14);
    t.refused("issue 3 before 14", &mut d, Call::Issue(0, 2, 0), 3);
    for line in [2, 3, 32, u32::MAX] {
        t.refused("step 14, a line above 1", &mut d, Call::Step(0, 0, line), 14);
        t.refused("explain 14, a line above 1", &mut d, Call::Explain(0, 0, line), 14);
    }
    t.told("explain on line 1", &mut d, Call::Explain(0, 0, 1), &[3]);
    t.ok("step on line 1", &mut d, Call::Step(0, 0, 1), &[0, 0, 0]);
    t.refused("prepare 14 before 6", &mut d, Call::Prepare(0), 14);
    t.refused("step 6, done on line 1", &mut d, Call::Step(0, 0, 0), 6);
    t.ok("join", &mut d, Call::Join(0), &[0]);
    t.refused("join 14, joined", &mut d, Call::Join(0), 14);
    t.refused("fork 14, joined", &mut d, Call::Fork(0), 14);
    t.refused("step 14, joined, before 6", &mut d, Call::Step(0, 0, 1), 14);
    t.refused("prepare 6, joined", &mut d, Call::Prepare(0), 6);
    t.ok("step, joined", &mut d, Call::Step(0, 1, 0), &[0, 0, 0]);
    t.ok("issue, joined", &mut d, Call::Issue(0, 0, 1), &[1]);
    t.refused("fork 4, issued", &mut d, Call::Fork(0), 4);
}

// 14 behind 3 and 4, before 6, 13 and 7. A run that is dropped and opened again has no mark.
fn of_order(t: &mut Trials) {
    let mut d = Desk::fresh([2, 2, 2, 2]);
    for call in [Call::Step(0, 0, 7), Call::Explain(0, 0, 7)] {
        t.refused("4 before 14", &mut d, call, 4);
    }
    t.refused("3 before 14, job", &mut d, Call::Step(0, 8, 7), 3);
    t.refused("3 before 14, run", &mut d, Call::Explain(2, 0, 7), 3);
    d.call(&Call::Open(0, vec![0, 1, 0, 0, 0, 1]));
    d.call(&Call::MayHold(0, 2));
    t.refused("3 before 14, no such job", &mut d, Call::Step(0, 2, 1), 3);
    t.refused("14 before 13", &mut d, Call::Step(0, 0, 1), 14);
    t.refused("14 before 6", &mut d, Call::Explain(0, 1, 1), 14);
    t.ok("order, fork", &mut d, Call::Fork(0), &[0]);
    t.refused("6 on line 1", &mut d, Call::Step(0, 1, 1), 6);
    t.refused("13 on line 1", &mut d, Call::Step(0, 0, 1), 13);
    d.call(&Call::MayHold(0, 3));
    t.refused("7 on line 1", &mut d, Call::Explain(0, 0, 1), 7);
    t.ok("order, drop", &mut d, Call::Drop(0), &[0]);
    d.call(&Call::Open(0, vec![0, 0, 0]));
    t.refused("order, join 14", &mut d, Call::Join(0), 14);
    t.ok("order, fork again", &mut d, Call::Fork(0), &[0]);
}

// A desk 1 1 1 1 whose run has forked and read its sheet on line 1.
fn read_on_1() -> Desk {
    let mut d = Desk::fresh([1, 1, 1, 1]);
    save(&mut d, 1);
    d.call(&Call::Open(0, vec![0, 1, 0, 0, 1, 0]));
    d.call(&Call::Fork(0));
    d.call(&Call::Step(0, 0, 1));
    d
}

// The run word by word; then what a join leaves of it.
fn of_words(t: &mut Trials) {
    let mut d = read_on_1();
    let mut due = vec![1, 2, 1, 0, 0, 1, 0, 0, 1, 0];
    due.extend([0; 18]);
    due.extend([0, 0, 0, 1, 1, 1, 1, 1]);
    t.check("lines, the words as written down", d.words[20..56] == due);
    t.refused("lines, a look shows line 0", &mut d, Call::Look(2, 0, 0), 8);
    t.ok("lines, join", &mut d, Call::Join(0), &[0]);
    let joined = [1, 1, 1, 2, 0, 0, 0, 0];
    t.check("lines, joined", d.words[20..24] == [1, 2, 1, 1] && d.words[48..56] == joined);
}

// Each line has its own reads: job 1 breaks on line 1, and not on line 0.
fn of_joins(t: &mut Trials) {
    let mut d = Desk::fresh([3, 1, 2, 1]);
    save(&mut d, 1);
    d.call(&Call::Fetch(0, 0));
    save(&mut d, 3);
    d.call(&Call::Fetch(1, 1));
    d.call(&Call::Open(0, vec![0, 1, 0, 1, 2, 0, 0, 4, 0]));
    d.call(&Call::Fork(0));
    t.ok("own reads, line 1", &mut d, Call::Step(0, 0, 1), &[0, 1, 0]);
    t.told("own reads, a path on line 1", &mut d, Call::Explain(0, 1, 1), &[4, 1, 0]);
    t.told("own reads, clear on line 0", &mut d, Call::Explain(0, 1, 0), &[3]);
    let mut on_1 = d.clone();
    let state = d.sizes().run_at(0) + STATE;
    let mut after = on_1.words.clone();
    after[state] = 2;
    let broken = on_1.call(&Call::Step(0, 1, 1)) == [1, 1];
    t.check("own reads, broken on line 1, the state alone", broken && on_1.words == after);
    t.ok("own reads, line 0", &mut d, Call::Step(0, 1, 0), &[0, 2, 0]);
    let mut after = d.words.clone();
    after[state] = 2;
    let broken = d.call(&Call::Join(0)) == [1, 1];
    t.check("own reads, the join breaks, the state alone", broken && d.words == after);
    for call in [Call::Join(0), Call::Fork(0), Call::Step(0, 2, 1), Call::Prepare(0)] {
        t.refused("4, broken by a join", &mut d, call, 4);
    }
    t.ok("own reads, drop", &mut d, Call::Drop(0), &[0]);
}

// One sheet read in two versions; and carried in two, read in the older one.
fn of_broken_joins(t: &mut Trials) {
    let mut d = Desk::fresh([2, 1, 2, 2]);
    save(&mut d, 1);
    d.call(&Call::Fetch(0, 0));
    save(&mut d, 1);
    d.call(&Call::Fetch(1, 0));
    d.call(&Call::Open(0, vec![0, 1, 0, 1, 1, 0]));
    d.call(&Call::Fork(0));
    t.ok("two versions, line 0", &mut d, Call::Step(0, 0, 0), &[0, 1, 0]);
    t.ok("two versions, line 1", &mut d, Call::Step(0, 1, 1), &[0, 1, 0]);
    t.check("two versions, join", d.call(&Call::Join(0)) == [1, 1]);
    t.ok("two versions, look", &mut d, Call::Look(2, 0, 0), &[1, 1, 1, 1]);
    let mut d = Desk::fresh([2, 1, 2, 1]);
    save(&mut d, 1);
    d.call(&Call::Fetch(0, 0));
    d.call(&Call::Open(0, vec![0, 1, 0]));
    d.call(&Call::Step(0, 0, 0));
    d.call(&Call::Issue(0, 0, 2));
    save(&mut d, 1);
    t.ok("by rule, fetch", &mut d, Call::Fetch(1, 1), &[3]);
    d.call(&Call::Open(0, vec![0, 1, 0, 1, 2, 0]));
    d.call(&Call::Fork(0));
    t.ok("by rule, line 0", &mut d, Call::Step(0, 0, 0), &[0, 1, 0]);
    t.ok("by rule, line 1", &mut d, Call::Step(0, 1, 1), &[0, 2, 0]);
    t.check("by rule, join", d.call(&Call::Join(0)) == [1, 1]);
}

// One word of a forked run changed, such that it isn't in form any more; then of a joined one.
fn of_form(t: &mut Trials) {
    let mut d = read_on_1();
    let marks = [0, 2, 3, u32::MAX].map(|mark| (51, mark));
    let others = [(23, 1), (52, 0), (52, 3), (53, 0), (54, 2), (55, 0)];
    for (at, word) in marks.into_iter().chain(others) {
        let before = std::mem::replace(&mut d.words[at], word);
        for call in calls_but_new() {
            t.refused(&format!("line 1, {}", call.name()), &mut d, call, 1);
        }
        d.words[at] = before;
    }
    t.refused("lines, drop 3", &mut d, Call::Drop(5), 3);
    d.words[20 + STATE] = 2;
    t.refused("lines, broken, drop 3", &mut d, Call::Drop(5), 3);
    d.words[20 + STATE] = 1;
    d.call(&Call::Join(0));
    for (at, word) in [(51, 1), (51, 3), (52, 1), (53, 1), (55, 1)] {
        let taken = (at, word) == (51, 1);
        let before = std::mem::replace(&mut d.words[at], word);
        t.refused("joined, drop", &mut d, Call::Drop(5), if taken { 3 } else { 1 });
        d.words[at] = before;
    }
    d.words[51] = 0;
    t.refused("joined, as if never forked, drop 3", &mut d, Call::Drop(5), 3);
}

// The last run of the largest desk: its second card ends where the last picked run stands.
fn of_the_largest(t: &mut Trials) {
    let mut d = Desk::fresh([32, 16, 8, 8]);
    let s = d.sizes();
    save(&mut d, u32::MAX);
    let round = d.words[s.round_at()..s.total()].to_vec();
    d.call(&Call::Open(7, vec![7, u32::MAX, 0, 6, 1 << 31, 0]));
    t.ok("largest, fork", &mut d, Call::Fork(7), &[0]);
    t.ok("largest, line 1", &mut d, Call::Step(7, 0, 1), &[0, 0, u32::MAX]);
    let last = s.line_card_at(7, 1, 31);
    t.check("largest, the last version", last + s.version() == s.round_at() && d.words[last] == 1);
    t.check("largest, what follows", d.words[s.round_at()..s.total()] == round);
    t.ok("largest, line 0", &mut d, Call::Step(7, 1, 0), &[0, 0, 1 << 31]);
    t.ok("largest, join", &mut d, Call::Join(7), &[0]);
    t.ok("largest, issue", &mut d, Call::Issue(7, 15, 1 << 31), &[2]);
}
