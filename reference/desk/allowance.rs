//! "Shelf allowances": how many sheets an office's shelf may hold.

use super::layout::{has, Sizes};
use super::version::held;
use super::{Answer, OUT_OF_RANGE, OVER_ALLOWANCE};

/// The number of sheets that an office's shelf holds.
pub fn held_count(desk: &[u32], s: Sizes, office: usize) -> u32 {
    count_with(desk, s, office, 0)
}

/// "A fetch, step or prepare that would leave any shelf above its allowance": with these sheets
/// fetched the office's shelf would hold too many. A sheet that it holds already counts once.
pub fn over_with(desk: &[u32], s: Sizes, office: usize, fetched: u32) -> bool {
    count_with(desk, s, office, fetched) > desk[s.allowance_at(office)]
}

/// How many sheets the shelf holds once these are fetched; the master holds each of them.
fn count_with(desk: &[u32], s: Sizes, office: usize, fetched: u32) -> u32 {
    let holds = |k: &usize| has(fetched, *k) || held(s.words(desk, s.shelf_at(office, *k)));
    (0..s.k).filter(holds).count() as u32
}

/// "An allowance 0..K", and "no shelf ever holds more (form asks it)".
pub fn allowance_in_form(desk: &[u32], s: Sizes, office: usize) -> bool {
    desk[s.allowance_at(office)] <= s.k as u32 && !over_with(desk, s, office, 0)
}

/// Allow: "a call sets it; one above K gives 3, one below the number now held gives 12".
pub fn allow(desk: &mut [u32], s: Sizes, office: u32, number: u32) -> Answer {
    if u64::from(office) >= s.n as u64 || u64::from(number) > s.k as u64 {
        return Answer::Refused(OUT_OF_RANGE);
    }
    if number < held_count(desk, s, office as usize) {
        return Answer::Refused(OVER_ALLOWANCE);
    }
    desk[s.allowance_at(office as usize)] = number;
    Answer::Ok(vec![0])
}
