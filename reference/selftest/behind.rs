//! The book's ledger against "stands behind" taken word by word.

use crate::book::ledger::Ledger;
use crate::book::saves::Saves;
use crate::random::Draw;

pub const SHEETS: usize = 4;
pub const WRITERS: usize = 3;

/// A save with all that its issue was entered with.
pub struct Plain {
    pub issue: usize,
    pub sheet: usize,
    pub writer: usize,
    pub read: Saves,
}

/// Enters some issues into a ledger and holds it against the plain relation.
pub fn compare(seed: u64) {
    let mut draw = Draw::new(seed);
    let mut ledger = Ledger::default();
    let mut saves: Vec<Plain> = Vec::new();
    for issue in 1..=10 {
        let (writer, mask) = (draw.below(WRITERS as u64) as usize, 1 + draw.below(15));
        let copies = (0..draw.below(3)).map(|_| any_copy(&mut draw, &saves)).collect::<Vec<_>>();
        assert_eq!(ledger.enter(writer, mask, &copies), issue as u32);
        let mut read = Saves::default();
        copies.iter().for_each(|copy| read.join(copy));
        for sheet in (0..SHEETS).filter(|sheet| (mask >> sheet) & 1 == 1) {
            saves.push(Plain { issue, sheet, writer, read: read.clone() });
        }
    }
    let behind = chains(&saves);
    for t in 0..saves.len() {
        let mut copy = Saves::default();
        copy.add(t);
        for d in 0..SHEETS {
            let need = ledger.need(&copy, d);
            for (s, save) in saves.iter().enumerate() {
                assert_eq!(need.has(s), save.sheet == d && behind[t][s]);
            }
        }
    }
    for _ in 0..10 {
        let copy = any_copy(&mut draw, &saves);
        let led = (0..WRITERS).filter(|writer| leads(&saves, &behind, &copy, *writer));
        assert_eq!(ledger.leading(&copy, WRITERS), led.fold(0, |mask, u| mask | 1 << u));
    }
}

/// Does the writer's "last included save" stand "behind no other included save"?
fn leads(saves: &[Plain], behind: &[Vec<bool>], copy: &Saves, writer: usize) -> bool {
    let included = (0..saves.len()).filter(|save| copy.has(*save)).collect::<Vec<usize>>();
    let own = included.iter().filter(|save| saves[**save].writer == writer);
    let last = own.max_by_key(|save| saves[**save].issue);
    last.is_some_and(|last| included.iter().all(|t| t == last || !behind[*t][*last]))
}

/// Any saves of one sheet.
pub fn any_copy(draw: &mut Draw, saves: &[Plain]) -> Saves {
    let sheet = draw.below(SHEETS as u64) as usize;
    let mut copy = Saves::default();
    for (number, save) in saves.iter().enumerate() {
        if save.sheet == sheet && draw.below(2) == 0 {
            copy.add(number);
        }
    }
    copy
}

/// `[t][s]`: "Save s stands behind save t if both are of one issue and differ in sheet; if s
/// is of an earlier issue by t's writer; if the run that issued t had read a version that
/// includes s; or through a chain of these."
pub fn chains(saves: &[Plain]) -> Vec<Vec<bool>> {
    let one = |t: &Plain, s: &Plain, number: usize| {
        (t.issue == s.issue && t.sheet != s.sheet)
            || (s.issue < t.issue && s.writer == t.writer)
            || t.read.has(number)
    };
    let row = |t: &Plain| saves.iter().enumerate().map(|(n, s)| one(t, s, n)).collect();
    let mut behind = saves.iter().map(row).collect::<Vec<Vec<bool>>>();
    for middle in 0..saves.len() {
        for t in 0..saves.len() {
            for s in 0..saves.len() {
                if behind[t][middle] && behind[middle][s] {
                    behind[t][s] = true;
                }
            }
        }
    }
    behind
}
