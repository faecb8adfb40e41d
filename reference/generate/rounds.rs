//! A dispatcher: runs that wait side by side, picked one after the other.

use crate::desk::{Answer, FREE};
use crate::plots::some_sheets;
use crate::teller::Teller;

/// Opens runs that are free, then picks, and mostly steps what was picked; some runs end between.
pub fn dispatch(t: &mut Teller) {
    let runs = t.sizes().p;
    for run in 0..runs {
        if t.run_head(run)[0] == FREE && t.chance(70) {
            open_waiting(t, run);
        }
    }
    for _ in 0..3 + t.below(2 * runs + 3) {
        let Some(Answer::Ok(picked)) = t.tell("pick", &[]) else {
            break;
        };
        if t.chance(8) {
            t.tell("fork", &picked[..1]);
        }
        if t.chance(75) {
            // "Dispatching goes by the shared done mask."
            let line = u32::from(t.chance(20));
            t.tell("step", &[picked[0], picked[1], line]);
        }
        if t.chance(5) {
            t.tell("join", &picked[..1]);
        }
        if t.chance(10) {
            let run = t.below(runs) as u32;
            t.tell("drop", &[run]);
        }
        if t.chance(15) {
            let (run, writer) = (picked[0], t.below(t.sizes().w) as u32);
            let sheets = some_sheets(t, 20);
            t.tell("issue", &[run, writer, sheets]);
        }
    }
}

/// One to four jobs, most of which wait for others; some can't be stepped.
fn open_waiting(t: &mut Teller, run: usize) {
    let s = t.sizes();
    let mut list = vec![run as u32];
    for job in 0..1 + t.below(4) {
        let held = (0..s.k).filter(|k| t.on_master(*k)).fold(0, |mask, k| mask | 1 << k);
        let wanted = some_sheets(t, 20);
        let reads = if t.chance(90) { wanted & held } else { wanted };
        let upstream = t.next() as u32 & ((1 << job) - 1);
        list.extend([t.below(s.n) as u32, reads, upstream]);
    }
    t.tell("open", &list);
}
