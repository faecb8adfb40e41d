//! Rights: what an office may hold and a writer may save, on new and on lent desks.

use crate::desk::layout::{COUNT, LAST_ISSUE};
use crate::text::Call;
use crate::trials::{Desk, Trials};
use crate::{calls_but_new, chain};

pub fn of_all(t: &mut Trials) {
    of_numbers(t);
    of_words(t);
    of_shelves(t);
    of_no_cut(t);
    of_form(t);
    of_jobs(t);
    of_prepares(t);
    of_issues(t);
    of_the_largest(t);
}

// An office, a writer or a sheet that there isn't.
fn of_numbers(t: &mut Trials) {
    let mut d = Desk::fresh([2, 2, 1, 1]);
    for (office, mask) in [(1, 0), (1, 3), (u32::MAX, 0), (0, 4), (0, 7), (0, u32::MAX), (1, 4)] {
        t.refused("mayhold 3", &mut d, Call::MayHold(office, mask), 3);
    }
    for (writer, mask) in [(2, 0), (2, 3), (u32::MAX, 3), (0, 4), (1, 1 << 31), (2, u32::MAX)] {
        t.refused("maysave 3", &mut d, Call::MaySave(writer, mask), 3);
    }
}

// Each right has a word of its own, offices first, and only that is written.
fn of_words(t: &mut Trials) {
    let mut d = Desk::fresh([3, 2, 3, 1]);
    let s = d.sizes();
    let round = s.round_at();
    let (first, behind) = (s.mayhold_at(0), s.maysave_at(0));
    t.check("rights, where they are", (first, behind) == (round + 1, round + 4));
    t.check("rights, all on a new desk", d.words[round + 1..s.total()] == [7; 5]);
    let offices = (0..3).map(|office| Call::MayHold(office, 2 + office));
    let writers = (0..2).map(|writer| Call::MaySave(writer, writer));
    for (call, at) in offices.chain(writers).zip(round + 1..) {
        let mut after = d.words.clone();
        after[at] = call.numbers()[1];
        t.ok("rights, set", &mut d, call, &[0]);
        t.check("rights, its word alone", d.words == after);
    }
    t.check("rights, as they were set", d.words[round + 1..s.total()] == [2, 3, 4, 0, 1]);
}

// Sheet 2 needs 1, which needs 0: taking 1 from an office takes 2 off its shelf, and not 0.
fn of_shelves(t: &mut Trials) {
    let mut d = Desk::fresh([3, 2, 2, 1]);
    chain(&mut d);
    t.ok("right, fetch", &mut d, Call::Fetch(0, 2), &[7]);
    t.ok("right, fetch elsewhere", &mut d, Call::Fetch(1, 1), &[3]);
    t.ok("right, taken", &mut d, Call::MayHold(0, 5), &[0]);
    t.ok("right, what isn't barred stays", &mut d, Call::Look(1, 0, 0), &[1, 1, 1, 0, 0]);
    t.refused("right, what is barred leaves", &mut d, Call::Look(1, 0, 1), 8);
    t.refused("right, what needs it leaves", &mut d, Call::Look(1, 0, 2), 8);
    t.ok("right, another shelf stays", &mut d, Call::Look(1, 1, 1), &[1, 1, 1, 0, 0]);
    t.refused("fetch 13", &mut d, Call::Fetch(0, 1), 13);
    t.refused("fetch 13, drawn in", &mut d, Call::Fetch(0, 2), 13);
    t.ok("fetch, not barred", &mut d, Call::Fetch(0, 0), &[1]);
    t.ok("allow, what it holds", &mut d, Call::Allow(0, 1), &[0]);
    t.refused("fetch 13 before 12", &mut d, Call::Fetch(0, 2), 13);
    t.ok("right, given", &mut d, Call::MayHold(0, 7), &[0]);
    t.refused("right, given, not fetched", &mut d, Call::Look(1, 0, 1), 8);
    t.refused("fetch 12, with the right", &mut d, Call::Fetch(0, 2), 12);
    t.ok("allow, all", &mut d, Call::Allow(0, 3), &[0]);
    t.ok("fetch, with the right", &mut d, Call::Fetch(0, 2), &[6]);
}

// A shelf that is no cut: it holds 1, which needs 0, and not 0. Taking 0 takes nothing: only what
// is held begins an eviction.
fn of_no_cut(t: &mut Trials) {
    let mut d = Desk::fresh([2, 2, 1, 1]);
    let s = d.sizes();
    d.put(s.shelf_at(0, 1), &[1, 1, 1, 0, 1, 0]);
    d.put_marks();
    let mut after = d.words.clone();
    after[s.mayhold_at(0)] = 2;
    t.ok("no cut, taken", &mut d, Call::MayHold(0, 2), &[0]);
    t.check("no cut, the right alone", d.words == after);
    t.told("no cut, still marked", &mut d, Call::Stale(0), &[0, 2]);
    t.ok("no cut, taken too", &mut d, Call::MayHold(0, 0), &[0]);
    t.told("no cut, marked no more", &mut d, Call::Stale(0), &[0, 0]);
}

// A right with a bit that is no sheet, or one that bars what the shelf holds, is refused by every
// call.
fn of_form(t: &mut Trials) {
    let mut d = Desk::fresh([2, 2, 2, 1]);
    let s = d.sizes();
    d.put(s.shelf_at(1, 1), &[1, 1, 0, 0, 1, 0]);
    d.put_marks();
    let (held, empty, writer) = (s.mayhold_at(1), s.mayhold_at(0), s.maysave_at(1));
    for (at, right, taken) in [
        (held, 2, true), (held, 3, true), (held, 0, false), (held, 1, false), (held, 6, false),
        (empty, 0, true), (empty, 1, true), (empty, 4, false), (empty, u32::MAX, false),
        (writer, 0, true), (writer, 2, true), (writer, 4, false), (writer, 1 << 31, false),
    ] {
        let before = std::mem::replace(&mut d.words[at], right);
        match taken {
            true => t.refused("right, drop 3", &mut d, Call::Drop(5), 3),
            false => calls_but_new().into_iter().for_each(|call| {
                t.refused(&format!("right 1, {}", call.name()), &mut d, call, 1);
            }),
        }
        d.words[at] = before;
    }
    let mut d = Desk::fresh([32, 1, 1, 1]);
    for right in [0, 1 << 31, u32::MAX] {
        let at = d.sizes().mayhold_at(0);
        d.words[at] = right;
        t.refused("right of 32 sheets, drop 3", &mut d, Call::Drop(5), 3);
    }
}

// A read that is barred at the job's office is 13 though the card has it, and one that the master
// lacks is 13 before 7; the card keeps what it carries.
fn of_jobs(t: &mut Trials) {
    let mut d = Desk::fresh([3, 2, 2, 1]);
    chain(&mut d);
    t.ok("job, open", &mut d, Call::Open(0, vec![0, 1, 0, 1, 1, 0, 1, 2, 1]), &[3]);
    t.ok("job, the first", &mut d, Call::Step(0, 0, 0), &[0, 0, 1]);
    t.ok("job, taken", &mut d, Call::MayHold(1, 6), &[0]);
    for job in [1, 2] {
        t.refused("step 13", &mut d, Call::Step(0, job, 0), 13);
        t.refused("explain 13", &mut d, Call::Explain(0, job, 0), 13);
    }
    t.refused("step 6 before 13", &mut d, Call::Step(0, 0, 0), 6);
    t.ok("job, the card keeps it", &mut d, Call::Look(2, 0, 0), &[1, 1, 1, 0, 0]);
    t.ok("job, given", &mut d, Call::MayHold(1, 3), &[0]);
    t.ok("job, from the card", &mut d, Call::Step(0, 1, 0), &[1, 0, 0]);
    let mut d = Desk::fresh([2, 1, 1, 1]);
    t.ok("job, barred", &mut d, Call::MayHold(0, 2), &[0]);
    t.ok("job, open both", &mut d, Call::Open(0, vec![0, 3, 0]), &[1]);
    t.refused("step 13 before 7", &mut d, Call::Step(0, 0, 0), 13);
    t.refused("explain 13 before 7", &mut d, Call::Explain(0, 0, 0), 13);
    t.ok("job, not barred", &mut d, Call::MayHold(0, 3), &[0]);
    t.refused("step 7", &mut d, Call::Step(0, 0, 0), 7);
}

// Job 0 alone is 7 or 12, job 1 at the other office is 13: it comes first. A done job is 6.
fn of_prepares(t: &mut Trials) {
    let mut d = Desk::fresh([3, 2, 2, 2]);
    t.ok("prepare, open", &mut d, Call::Open(0, vec![0, 1, 0, 1, 2, 0]), &[2]);
    t.ok("prepare, taken", &mut d, Call::MayHold(1, 1), &[0]);
    t.refused("prepare 13 before 7", &mut d, Call::Prepare(0), 13);
    chain(&mut d);
    t.ok("prepare, none allowed", &mut d, Call::Allow(0, 0), &[0]);
    t.refused("prepare 13 before 12", &mut d, Call::Prepare(0), 13);
    t.ok("prepare, drawn in", &mut d, Call::MayHold(1, 2), &[0]);
    t.refused("prepare 13, drawn in", &mut d, Call::Prepare(0), 13);
    t.ok("prepare, given", &mut d, Call::MayHold(1, 3), &[0]);
    t.refused("prepare 12", &mut d, Call::Prepare(0), 12);
    t.ok("prepare, allowed", &mut d, Call::Allow(0, 3), &[0]);
    t.ok("prepare", &mut d, Call::Prepare(0), &[3]);
    t.ok("prepare, the first", &mut d, Call::Step(0, 0, 0), &[1, 0, 0]);
    t.ok("prepare, taken again", &mut d, Call::MayHold(1, 0), &[0]);
    t.refused("prepare 6 before 13", &mut d, Call::Prepare(0), 6);
    t.refused("step 13, prepared", &mut d, Call::Step(0, 1, 0), 13);
}

// A writer's right is asked behind 6 and before 9 and 10, and an empty issue needs none.
fn of_issues(t: &mut Trials) {
    let mut d = Desk::fresh([2, 2, 1, 1]);
    let count = d.sizes().writer_at(0) + COUNT;
    d.call(&Call::Open(0, vec![0, 0, 0]));
    t.ok("issue, the other writer's right", &mut d, Call::MaySave(1, 0), &[0]);
    t.ok("issue, taken", &mut d, Call::MaySave(0, 1), &[0]);
    t.refused("issue 6 before 13", &mut d, Call::Issue(0, 0, 2), 6);
    d.call(&Call::Step(0, 0, 0));
    for (at, number) in [(LAST_ISSUE, 9), (count, 10)] {
        let before = std::mem::replace(&mut d.words[at], u32::MAX);
        t.refused("issue 13 before 9 and 10", &mut d, Call::Issue(0, 0, 2), 13);
        t.refused("issue 9 and 10", &mut d, Call::Issue(0, 0, 1), number);
        d.words[at] = before;
    }
    t.refused("issue 13, one of two", &mut d, Call::Issue(0, 0, 3), 13);
    t.refused("issue 13, the other writer", &mut d, Call::Issue(0, 1, 1), 13);
    t.refused("issue 3 before 13", &mut d, Call::Issue(0, 0, 6), 3);
    t.ok("issue, what it may", &mut d.clone(), Call::Issue(0, 0, 1), &[1]);
    t.ok("issue, nothing", &mut d, Call::Issue(0, 1, 0), &[0]);
}

// All 32 sheets, of which each needs the one before it.
fn of_the_largest(t: &mut Trials) {
    let mut d = Desk::fresh([32, 16, 8, 8]);
    chain(&mut d);
    t.refused("largest, mayhold 3", &mut d, Call::MayHold(8, 0), 3);
    t.refused("largest, maysave 3", &mut d, Call::MaySave(16, 0), 3);
    t.ok("largest, fetch all", &mut d, Call::Fetch(7, 31), &[u32::MAX]);
    t.ok("largest, a right taken", &mut d, Call::MayHold(7, !(1 << 16)), &[0]);
    t.refused("largest, the last is gone", &mut d, Call::Look(1, 7, 31), 8);
    t.ok("largest, the lower half stays", &mut d, Call::Evict(7, 0), &[0xFFFF]);
    t.refused("largest, fetch 13", &mut d, Call::Fetch(7, 31), 13);
    t.ok("largest, fetch 15", &mut d, Call::Fetch(7, 15), &[0xFFFF]);
    t.ok("largest, a right given", &mut d, Call::MayHold(7, u32::MAX), &[0]);
    t.ok("largest, fetch the rest", &mut d, Call::Fetch(7, 31), &[0xFFFF_0000]);
    t.ok("largest, no save", &mut d, Call::MaySave(15, 0), &[0]);
    t.ok("largest, open", &mut d, Call::Open(0, vec![0, 0, 0]), &[1]);
    t.ok("largest, step", &mut d, Call::Step(0, 0, 0), &[0, 0, 0]);
    t.refused("largest, issue 13", &mut d, Call::Issue(0, 15, 1 << 31), 13);
    t.ok("largest, another's issue", &mut d, Call::Issue(0, 14, 1 << 31), &[1]);
}
