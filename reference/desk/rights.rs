//! "Who may hold and who may issue": "each office gets a mask of sheets it may hold, each writer
//! one of sheets it may save".

use super::evict::let_go;
use super::layout::{among, Sizes};
use super::version::held;
use super::{Answer, OUT_OF_RANGE};

/// Is one of these sheets barred to the office?
pub fn barred(desk: &[u32], s: Sizes, office: usize, sheets: u32) -> bool {
    sheets & !desk[s.mayhold_at(office)] != 0
}

/// May the writer save all of these sheets? None needs no right.
pub fn may_save(desk: &[u32], s: Sizes, writer: usize, sheets: u32) -> bool {
    sheets & !desk[s.maysave_at(writer)] == 0
}

/// The sheets that the office's shelf holds.
pub fn held_mask(desk: &[u32], s: Sizes, office: usize) -> u32 {
    let holds = |k: &usize| held(s.words(desk, s.shelf_at(office, *k)));
    (0..s.k).filter(holds).fold(0, |mask, k| mask | 1 << k)
}

/// "A bit at K or above gives 3; a stored one isn't in form", and "no shelf ever holds a sheet
/// barred to its office (form asks it too)".
pub fn rights_in_form(desk: &[u32], s: Sizes) -> bool {
    (0..s.n).all(|office| among(desk[s.mayhold_at(office)], s.k))
        && (0..s.w).all(|writer| among(desk[s.maysave_at(writer)], s.k))
        && (0..s.n).all(|office| !barred(desk, s, office, held_mask(desk, s, office)))
}

/// Mayhold: "taking a sheet from an office evicts it there by the evict rule". Only sheets that
/// are held there start E; giving a sheet back fetches nothing.
pub fn mayhold(desk: &mut [u32], s: Sizes, office: u32, mask: u32) -> Answer {
    if u64::from(office) >= s.n as u64 || !among(mask, s.k) {
        return Answer::Refused(OUT_OF_RANGE);
    }
    let office = office as usize;
    desk[s.mayhold_at(office)] = mask;
    let taken = held_mask(desk, s, office) & !mask;
    let_go(desk, s, office, taken);
    Answer::Ok(vec![0])
}

/// Maysave: what the writer has saved stays.
pub fn maysave(desk: &mut [u32], s: Sizes, writer: u32, mask: u32) -> Answer {
    if u64::from(writer) >= s.w as u64 || !among(mask, s.k) {
        return Answer::Refused(OUT_OF_RANGE);
    }
    desk[s.maysave_at(writer as usize)] = mask;
    Answer::Ok(vec![0])
}
