//! The calls on any buffer: "buffer too short, or (not for new) desk not in form" gives 1. New is
//! answered without a desk, and so is audit.

use super::form::in_form;
use super::{formed, Answer, NOT_IN_FORM};

macro_rules! tested {
    ($name:ident, $desk:ty $(, $number:ident)*) => {
        pub fn $name(desk: $desk, $($number: u32),*) -> Answer {
            match in_form(desk) {
                None => Answer::Refused(NOT_IN_FORM),
                Some(s) => formed::$name(desk, s, $($number),*),
            }
        }
    };
}

tested!(fetch, &mut [u32], office, sheet);
tested!(evict, &mut [u32], office, sheet);
tested!(prepare, &mut [u32], run);
tested!(step, &mut [u32], run, job, line);
tested!(issue, &mut [u32], run, writer, mask);
tested!(drop_run, &mut [u32], run);
tested!(look, &[u32], place, number, sheet);
tested!(explain, &[u32], run, job, line);
tested!(stale, &[u32], office);
tested!(admit, &[u32]);
tested!(allow, &mut [u32], office, number);
tested!(pick, &mut [u32]);
tested!(mayhold, &mut [u32], office, mask);
tested!(maysave, &mut [u32], writer, mask);
tested!(fork, &mut [u32], run);
tested!(join, &mut [u32], run);

pub fn open(desk: &mut [u32], run: u32, list: &[u32]) -> Answer {
    match in_form(desk) {
        None => Answer::Refused(NOT_IN_FORM),
        Some(s) => formed::open(desk, s, run, list),
    }
}

pub fn forecast(desk: &[u32], scratch: &mut [u32], run: u32) -> Answer {
    match in_form(desk) {
        None => Answer::Refused(NOT_IN_FORM),
        Some(s) => formed::forecast(desk, s, scratch, run),
    }
}
