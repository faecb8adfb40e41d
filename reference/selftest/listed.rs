//! Which admitted saves stand behind a save: the book's ledger against the words of the request.

use crate::behind::{any_copy, chains, Plain, SHEETS, WRITERS};
use crate::book::ledger::{Base, Ledger};
use crate::book::rows::Rows;
use crate::book::saves::Saves;
use crate::random::Draw;

/// Each admitted save by sheet, writer and count: an admitted desk has counts up to this.
const MOST: u32 = 3;

/// Rows with small counts, half of them 0.
fn any_rows(draw: &mut Draw) -> Rows {
    let count = |draw: &mut Draw| draw.below(2) * draw.below(u64::from(MOST) + 1);
    let past = (0..SHEETS * WRITERS).map(|_| count(draw)).collect::<Vec<u32>>();
    Rows::of_past(&past, WRITERS)
}

/// The rows that count one writer's first saves of a sheet.
fn one(sheet: usize, writer: usize, count: u32) -> Rows {
    let mut past = vec![0; SHEETS * WRITERS];
    past[sheet * WRITERS + writer] = count;
    Rows::of_past(&past, WRITERS)
}

/// Enters some issues on top of an admitted desk, and holds the ledger against the plain relation.
pub fn compare(seed: u64) {
    let mut draw = Draw::new(seed);
    let pasts = (0..WRITERS).map(|_| any_rows(&mut draw)).collect::<Vec<Rows>>();
    let base = Base { last: 9, counts: vec![MOST; WRITERS], pasts: pasts.clone() };
    let mut ledger = Ledger::on(base);
    let mut saves: Vec<Plain> = Vec::new();
    for issue in 1..=8 {
        let (writer, mask) = (draw.below(WRITERS as u64) as usize, 1 + draw.below(15));
        let count = draw.below(3);
        let copies = (0..count).map(|_| with_rows(&mut draw, &saves)).collect::<Vec<Saves>>();
        ledger.enter(writer, mask, &copies);
        let mut read = Saves::default();
        copies.iter().for_each(|copy| read.join(copy));
        for sheet in (0..SHEETS).filter(|sheet| (mask >> sheet) & 1 == 1) {
            saves.push(Plain { issue, sheet, writer, read: read.clone() });
        }
    }
    let behind = chains(&saves);
    for t in 0..saves.len() {
        let mut copy = Saves::default();
        copy.add(t);
        for (d, writer) in (0..SHEETS * WRITERS).map(|place| (place / WRITERS, place % WRITERS)) {
            let need = ledger.need(&copy, d).admitted;
            for save in (1..=MOST).map(|count| one(d, writer, count)) {
                let stands = |t: usize| stands_first(&saves[t], &pasts, &save);
                let due = stands(t) || (0..saves.len()).any(|s| behind[t][s] && stands(s));
                assert_eq!(need.includes(&save), due);
            }
        }
    }
}

/// Any entered saves of a sheet, and any rows as a version of a sheet has them.
fn with_rows(draw: &mut Draw, saves: &[Plain]) -> Saves {
    let mut copy = any_copy(draw, saves);
    let sheet = draw.below(SHEETS as u64) as usize;
    copy.join(&Saves::admitted(sheet, &any_rows(draw), 1));
    copy
}

/// An admitted save behind a later one, but for chains: it is in the past of the later one's writer,
/// or its run had read a version that includes or lists it.
fn stands_first(t: &Plain, pasts: &[Rows], save: &Rows) -> bool {
    pasts[t.writer].includes(save) || t.read.rows().includes(save)
}
