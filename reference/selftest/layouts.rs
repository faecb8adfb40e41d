//! Desks of an older layout: none is in form by this one, whatever its counts.

use crate::desk::layout::{HEADER, OFFSETS, RUN_HEAD};
use crate::desk::*;
use crate::forms::all_refuse;
use crate::marked::fresh;

/// A layout by the words of a version before its rows, those of a shelf behind its versions, those
/// behind the runs, how many of each office and writer follow, and a run's further lines.
#[derive(Clone, Copy)]
struct Layout {
    version: usize,
    shelf: usize,
    tail: usize,
    rights: usize,
    lines: usize,
}

/// Document 01's, with leading writers, with stale marks, with allowances, with the last picked
/// run, with rights, with two lines of a run.
const LAYOUTS: [Layout; 7] = [
    Layout { version: 1, shelf: 0, tail: 0, rights: 0, lines: 0 },
    Layout { version: 2, shelf: 0, tail: 0, rights: 0, lines: 0 },
    Layout { version: 2, shelf: 1, tail: 0, rights: 0, lines: 0 },
    Layout { version: 2, shelf: 2, tail: 0, rights: 0, lines: 0 },
    Layout { version: 2, shelf: 2, tail: 1, rights: 0, lines: 0 },
    Layout { version: 2, shelf: 2, tail: 1, rights: 1, lines: 0 },
    Layout { version: 2, shelf: 2, tail: 1, rights: 1, lines: 1 },
];

/// The layout's offsets and total.
fn offsets(layout: Layout, [k, w, n, p]: [usize; 4]) -> [u32; 5] {
    let (version, writer) = (layout.version + k * w, 1 + k * w);
    let shelves = HEADER + k * version;
    let writers = shelves + n * (k * version + layout.shelf);
    let runs = writers + w * writer;
    let tail = layout.tail + layout.rights * (n + w);
    let lines = layout.lines * (2 + k * version);
    let total = runs + p * (RUN_HEAD + k * version + lines) + tail;
    [HEADER, shelves, writers, runs, total].map(|place| place as u32)
}

/// For no counts do two layouts have the same offsets and total: shelves or writers begin elsewhere,
/// or only the total differs. So every call but new refuses a desk of an older one.
pub fn none_agree() {
    for counts in (0..32 * 16 * 8 * 8).map(|n| [n / 1024, n / 64 % 16, n / 8 % 8, n % 8]) {
        let counts = counts.map(|count| count + 1);
        let [k, w, n, p] = counts.map(|count| count as u32);
        let all = LAYOUTS.map(|layout| offsets(layout, counts));
        assert_eq!(all[all.len() - 1], Sizes::of(k, w, n, p).unwrap().offsets());
        for (one, older) in all.iter().enumerate() {
            assert!(all[one + 1..].iter().all(|newer| older != newer));
        }
    }
    let older = [
        [10, 20, 30, 40, 78],
        [10, 22, 34, 44, 84],
        [10, 22, 35, 45, 85],
        [10, 22, 36, 46, 86],
        [10, 22, 36, 46, 87],
        [10, 22, 36, 46, 90],
    ];
    for (layout, due) in LAYOUTS.iter().zip(older) {
        let (mut words, _) = fresh(2, 2, 1, 1);
        assert_eq!(offsets(*layout, [2, 2, 1, 1]), due);
        words[OFFSETS..HEADER].copy_from_slice(&due);
        all_refuse(&mut words, 1);
    }
}
