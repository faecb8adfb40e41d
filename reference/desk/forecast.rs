//! Forecast: "Forecast before starting", after document 001's hybrid protocol.

use super::layout::{has, Sizes, DONE, JOBS, STATE};
use super::lines::is_forked;
use super::reads::step;
use super::*;

/// "Says whether stepping the jobs not done, lowest first, nothing in between, ends without a
/// break. It answers the first job that breaks and its mask, or "goes through", or the first job
/// turned down and its number, and stops at whichever comes first. The scratch holds the desk as
/// those steps would leave it, its words past the total untouched; the desk isn't written."
pub fn forecast(desk: &[u32], s: Sizes, scratch: &mut [u32], run: u32) -> Answer {
    if let Err(number) = forecast_refusal(desk, s, scratch.len(), run) {
        return Answer::Refused(number);
    }
    let copy = &mut scratch[..s.total()];
    copy.copy_from_slice(&desk[..s.total()]);
    let head = &desk[s.run_at(run as usize)..];
    for job in (0..head[JOBS]).filter(|job| !has(head[DONE], *job as usize)) {
        match step(copy, s, run, job, 0) {
            Answer::Broken(mask) => return Answer::Breaks(job, mask),
            Answer::Refused(number) => return Answer::Turned(job, number),
            _ => {}
        }
    }
    Answer::Through
}

/// "A scratch too short gives 1, a forked run 14": a joined one is unforked.
fn forecast_refusal(desk: &[u32], s: Sizes, scratch: usize, run: u32) -> Result<(), u32> {
    if scratch < s.total() {
        return Err(NOT_IN_FORM);
    }
    if u64::from(run) >= s.p as u64 {
        return Err(OUT_OF_RANGE);
    }
    if desk[s.run_at(run as usize) + STATE] != OPEN {
        return Err(WRONG_STATE);
    }
    if is_forked(desk, s, run as usize) {
        return Err(WRONG_LINE);
    }
    Ok(())
}
