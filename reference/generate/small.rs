//! Small disks: allowances that a fetch, a step or a prepare runs into.

use crate::plots::{end_run, free_run, some_sheets};
use crate::teller::Teller;

/// An allowance of what the shelf holds, or a little more.
pub fn tighten(t: &mut Teller, office: usize) {
    let held = (0..t.sizes().k).filter(|k| t.on_shelf(office, *k)).count();
    let more = [0, 0, 1, 2][t.below(4)];
    t.tell("allow", &[office as u32, (held + more).min(t.sizes().k) as u32]);
}

/// "K on a new desk": no shelf is too small.
pub fn loosen(t: &mut Teller, office: usize) {
    let k = t.sizes().k as u32;
    t.tell("allow", &[office as u32, k]);
}

/// A shelf with little room: fetches, evictions and a run, then mostly room again.
pub fn small_shelf(t: &mut Teller) {
    let s = t.sizes();
    let office = t.below(s.n);
    tighten(t, office);
    for _ in 0..1 + t.below(3) {
        let sheet = t.below(s.k);
        let held = t.on_shelf(office, sheet) && t.chance(40);
        t.tell(if held { "evict" } else { "fetch" }, &[office as u32, sheet as u32]);
    }
    if t.chance(60) {
        small_run(t, office);
    }
    if t.chance(30) {
        // Below what is held, or above K.
        let number = [0, 1, s.k + 1][t.below(3)] as u32;
        t.tell("allow", &[office as u32, number]);
    }
    if t.chance(90) {
        loosen(t, office);
    }
}

/// Jobs at the office, each of which may fit where all of them don't, and one elsewhere.
fn small_run(t: &mut Teller, office: usize) {
    let run = free_run(t);
    let mut list = vec![run as u32];
    for _ in 0..2 {
        list.extend([office as u32, on_master(t), 0]);
    }
    let elsewhere = t.below(t.sizes().n) as u32;
    list.extend([elsewhere, on_master(t), 0]);
    t.tell("open", &list);
    if t.chance(60) {
        t.tell("prepare", &[run as u32]);
    }
    let forks = t.chance(20);
    if forks {
        t.tell("fork", &[run as u32]);
    }
    for job in 0..3 {
        let line = if forks { t.below(2) as u32 } else { 0 };
        t.tell("step", &[run as u32, job, line]);
        if t.chance(20) {
            tighten(t, office);
        }
    }
    if forks {
        t.tell("join", &[run as u32]);
    }
    end_run(t, run);
}

/// Some sheets that the master holds.
fn on_master(t: &mut Teller) -> u32 {
    let wanted = some_sheets(t, 30);
    (0..t.sizes().k).filter(|k| t.on_master(*k)).fold(0, |mask, k| mask | wanted & 1 << k)
}
