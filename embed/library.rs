//! The library's calls over the exports, for tests, benchmarks and tools: a call as the reference
//! reads it (reference/text.rs), on words of any content and with an answer's slice of any length.

use crate::embed::exports::*;
use crate::text::Call;

// A run with two lines.
extern "C" {
    fn sheetdesk_fork(
        desk: *mut u32, desk_len: usize, run: u32, answer: *mut u32, answer_len: usize,
    ) -> u32;
    fn sheetdesk_join(
        desk: *mut u32, desk_len: usize, run: u32, answer: *mut u32, answer_len: usize,
    ) -> u32;
    fn sheetdesk_step_on(
        desk: *mut u32, desk_len: usize, run: u32, job: u32, line: u32,
        answer: *mut u32, answer_len: usize,
    ) -> u32;
    fn sheetdesk_explain_on(
        desk: *const u32, desk_len: usize, run: u32, job: u32, line: u32,
        answer: *mut u32, answer_len: usize,
    ) -> u32;
}

/// One call on lent words. Gives how many words of the answer were written.
pub fn call(desk: &mut [u32], call: &Call, answer: &mut [u32]) -> u32 {
    let (d, dn) = (desk.as_mut_ptr(), desk.len());
    let (a, an) = (answer.as_mut_ptr(), answer.len());
    // Each pointer goes with the length of what it points to.
    unsafe {
        match call {
            Call::New([k, w, n, p]) => sheetdesk_new(d, dn, *k, *w, *n, *p, a, an),
            Call::Open(run, jobs) => {
                sheetdesk_open(d, dn, *run, jobs.as_ptr(), jobs.len(), a, an)
            }
            Call::Fetch(office, sheet) => sheetdesk_fetch(d, dn, *office, *sheet, a, an),
            Call::Evict(office, sheet) => sheetdesk_evict(d, dn, *office, *sheet, a, an),
            Call::Drop(run) => sheetdesk_drop(d, dn, *run, a, an),
            Call::Look(place, number, sheet) => {
                sheetdesk_look(d, dn, *place, *number, *sheet, a, an)
            }
            Call::Prepare(run) => sheetdesk_prepare(d, dn, *run, a, an),
            // Line 0 has exports without a line too: they are taken for even jobs.
            Call::Step(run, job, 0) if job % 2 == 0 => sheetdesk_step(d, dn, *run, *job, a, an),
            Call::Explain(run, job, 0) if job % 2 == 0 => {
                sheetdesk_explain(d, dn, *run, *job, a, an)
            }
            Call::Step(run, job, line) => sheetdesk_step_on(d, dn, *run, *job, *line, a, an),
            Call::Explain(run, job, line) => {
                sheetdesk_explain_on(d, dn, *run, *job, *line, a, an)
            }
            Call::Fork(run) => sheetdesk_fork(d, dn, *run, a, an),
            Call::Join(run) => sheetdesk_join(d, dn, *run, a, an),
            // As many words again are lent as a scratch.
            Call::Forecast(run) => {
                let mut scratch = vec![0; dn];
                sheetdesk_forecast(d, dn, scratch.as_mut_ptr(), dn, *run, a, an)
            }
            Call::Audit(record) => sheetdesk_audit(record.as_ptr(), record.len(), a, an),
            Call::Stale(office) => sheetdesk_stale(d, dn, *office, a, an),
            Call::Admit => sheetdesk_admit(d, dn, a, an),
            Call::Allow(office, number) => sheetdesk_allow(d, dn, *office, *number, a, an),
            Call::Pick => sheetdesk_pick(d, dn, a, an),
            Call::MayHold(office, mask) => sheetdesk_mayhold(d, dn, *office, *mask, a, an),
            Call::MaySave(writer, mask) => sheetdesk_maysave(d, dn, *writer, *mask, a, an),
            Call::Issue(run, writer, mask) => {
                sheetdesk_issue(d, dn, *run, *writer, *mask, a, an)
            }
        }
    }
}

/// A forecast with a scratch of any length.
pub fn forecast(desk: &[u32], scratch: &mut [u32], run: u32, answer: &mut [u32]) -> u32 {
    let (d, dn) = (desk.as_ptr(), desk.len());
    let (s, sn) = (scratch.as_mut_ptr(), scratch.len());
    unsafe { sheetdesk_forecast(d, dn, s, sn, run, answer.as_mut_ptr(), answer.len()) }
}

/// A text of calls, with slices of any length. Gives how many counts were laid.
pub fn script(
    desk: &mut [u32], text: &[u8], out: &mut [u8], scratch: &mut [u32], counts: &mut [usize],
) -> u32 {
    let (d, dn) = (desk.as_mut_ptr(), desk.len());
    let (t, tn) = (text.as_ptr(), text.len());
    let (o, on) = (out.as_mut_ptr(), out.len());
    let (s, sn) = (scratch.as_mut_ptr(), scratch.len());
    unsafe { sheetdesk_script(d, dn, t, tn, o, on, s, sn, counts.as_mut_ptr(), counts.len()) }
}

/// An audit of a lent record.
pub fn audit(record: &[u32], answer: &mut [u32]) -> u32 {
    let (r, rn) = (record.as_ptr(), record.len());
    unsafe { sheetdesk_audit(r, rn, answer.as_mut_ptr(), answer.len()) }
}

/// How clock p stands against clock q.
pub fn compare(p: &[u32], q: &[u32]) -> u32 {
    unsafe { sheetdesk_compare(p.as_ptr(), p.len(), q.as_ptr(), q.len()) }
}

/// Whether clock p covers clock q.
pub fn covers(p: &[u32], q: &[u32]) -> u32 {
    unsafe { sheetdesk_covers(p.as_ptr(), p.len(), q.as_ptr(), q.len()) }
}

pub fn merge(target: &mut [u32], source: &[u32]) -> u32 {
    let (to, len) = (target.as_mut_ptr(), target.len());
    unsafe { sheetdesk_merge(to, len, source.as_ptr(), source.len()) }
}
