//! The reference's calls under the library's names, so that the differential test can be
//! tried on a copy of the reference with a fault in it. Copied next to that copy and built as
//! a shared library.
#![allow(dead_code)]

mod desk;
mod script;
mod text;

use desk::Answer;

/// A slice of C's: a pointer and a length in words.
unsafe fn lent<'a>(words: *mut u32, len: usize) -> &'a mut [u32] {
    std::slice::from_raw_parts_mut(words, len)
}

/// Writes the answer's words, unless the slice is too short: then nothing is done.
fn answer(out: &mut [u32], call: impl FnOnce() -> Answer) -> u32 {
    if out.len() < 40 {
        return 0;
    }
    let words = call().words();
    out[..words.len()].copy_from_slice(&words);
    words.len() as u32
}

// "Step and explaining gain a line, 0 or 1, 0 if left out."
fn step(words: &mut [u32], run: u32, job: u32) -> Answer {
    desk::step(words, run, job, 0)
}

fn explain(words: &mut [u32], run: u32, job: u32) -> Answer {
    desk::explain(words, run, job, 0)
}

macro_rules! export {
    ($name:ident, $call:path $(, $argument:ident)*) => {
        #[no_mangle]
        pub unsafe extern "C" fn $name(
            words: *mut u32, len: usize, $($argument: u32,)* out: *mut u32, room: usize,
        ) -> u32 {
            answer(lent(out, room), || $call(lent(words, len), $($argument),*))
        }
    };
}

export!(sheetdesk_new, desk::new, k, w, n, p);
export!(sheetdesk_fetch, desk::fetch, office, sheet);
export!(sheetdesk_evict, desk::evict, office, sheet);
export!(sheetdesk_prepare, desk::prepare, run);
export!(sheetdesk_step, step, run, job);
export!(sheetdesk_step_on, desk::step, run, job, line);
export!(sheetdesk_issue, desk::issue, run, writer, mask);
export!(sheetdesk_drop, desk::drop_run, run);
export!(sheetdesk_look, desk::look, place, number, sheet);
export!(sheetdesk_explain, explain, run, job);
export!(sheetdesk_explain_on, desk::explain, run, job, line);
export!(sheetdesk_stale, desk::stale, office);
export!(sheetdesk_admit, desk::admit);
export!(sheetdesk_allow, desk::allow, office, number);
export!(sheetdesk_pick, desk::pick);
export!(sheetdesk_mayhold, desk::mayhold, office, mask);
export!(sheetdesk_maysave, desk::maysave, writer, mask);
export!(sheetdesk_fork, desk::fork, run);
export!(sheetdesk_join, desk::join, run);

#[no_mangle]
pub unsafe extern "C" fn sheetdesk_open(
    words: *mut u32,
    len: usize,
    run: u32,
    jobs: *const u32,
    count: usize,
    out: *mut u32,
    room: usize,
) -> u32 {
    let jobs = std::slice::from_raw_parts(jobs, count);
    answer(lent(out, room), || desk::open(lent(words, len), run, jobs))
}

#[no_mangle]
pub unsafe extern "C" fn sheetdesk_forecast(
    words: *mut u32,
    len: usize,
    scratch: *mut u32,
    scratch_len: usize,
    run: u32,
    out: *mut u32,
    room: usize,
) -> u32 {
    let scratch = lent(scratch, scratch_len);
    answer(lent(out, room), || desk::forecast(lent(words, len), scratch, run))
}

#[no_mangle]
pub unsafe extern "C" fn sheetdesk_audit(
    record: *const u32,
    len: usize,
    out: *mut u32,
    room: usize,
) -> u32 {
    let record = std::slice::from_raw_parts(record, len);
    answer(lent(out, room), || desk::audit(record))
}

/// The text alone is only read; the other slices are lent as they are.
#[no_mangle]
pub unsafe extern "C" fn sheetdesk_script(
    words: *mut u32,
    len: usize,
    text: *const u8,
    text_len: usize,
    out: *mut u8,
    room: usize,
    scratch: *mut u32,
    scratch_len: usize,
    counts: *mut usize,
    counts_len: usize,
) -> u32 {
    if counts_len < 2 {
        return 0;
    }
    let text = std::slice::from_raw_parts(text, text_len);
    let done = script::script(lent(words, len), text, room, lent(scratch, scratch_len));
    let put = done.answers.len();
    std::slice::from_raw_parts_mut(out, room)[..put].copy_from_slice(&done.answers);
    std::slice::from_raw_parts_mut(counts, counts_len)[..2].copy_from_slice(&[done.taken, put]);
    2
}

#[no_mangle]
pub unsafe extern "C" fn sheetdesk_compare(
    p: *mut u32,
    p_len: usize,
    q: *mut u32,
    q_len: usize,
) -> u32 {
    if p_len != q_len || p_len > 16 {
        return 4;
    }
    let standing = desk::version::compare(lent(p, p_len), lent(q, q_len));
    desk::version::standing_number(standing)
}

#[no_mangle]
pub unsafe extern "C" fn sheetdesk_covers(
    p: *mut u32,
    p_len: usize,
    q: *mut u32,
    q_len: usize,
) -> u32 {
    if p_len != q_len || p_len > 16 {
        return 2;
    }
    u32::from(desk::version::covers(lent(p, p_len), lent(q, q_len)))
}

#[no_mangle]
pub unsafe extern "C" fn sheetdesk_merge(
    target: *mut u32,
    target_len: usize,
    source: *mut u32,
    source_len: usize,
) -> u32 {
    if target_len != source_len || target_len > 16 {
        return 0;
    }
    desk::version::take_larger(lent(target, target_len), lent(source, source_len));
    1
}
