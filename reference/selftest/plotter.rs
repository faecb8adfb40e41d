//! Prepared runs on the examples worked out for them.

use crate::lines::works;

/// A run that was prepared goes through where its twin breaks, whatever leaves the shelves.
pub fn beside_a_twin() {
    works(&[
        "new 2 1 2 3 -> ok 183",
        "save 2 0 1",
        "save 2 0 2",
        "open 0 0 1 0 1 2 0",
        "open 1 0 1 0 1 2 0",
        "prepare 0 -> ok 3",
        "step 1 0 -> ok 0 1 0",
        "save 2 0 3",
        "fetch 1 1 -> ok 3",
        "step 1 1 -> broken 1",
        "evict 0 0",
        "allow 0 0",
        "evict 1 0",
        "allow 1 0",
        "open 2 0 1 0",
        "step 2 0 -> refused 12",
        "step 0 1 -> ok 2 0 0",
        "step 0 0 -> ok 1 0 0",
        "look 2 0 0 -> ok 1 1 1 1",
        "look 2 0 1 -> ok 2 1 2 1",
    ]);
}

/// "A missing right may still turn a step down."
pub fn with_a_right() {
    works(&[
        "new 2 1 2 2",
        "save 0 0 3",
        "open 0 0 1 0 1 2 0",
        "open 1 1 3 0",
        "prepare 0",
        "prepare 1",
        "step 1 0 -> ok 3 0 0",
        "mayhold 0 2 -> ok 0",
        "step 0 0 -> refused 13",
        "step 0 1 -> ok 2 0 0",
        "mayhold 0 3",
        "step 0 0 -> ok 1 0 0",
        "prepare 0 -> refused 6",
        "look 1 0 0 -> refused 8",
    ]);
}

/// What one of two prepared runs reads doesn't hang on the other's steps.
pub fn two_of_them() {
    let opened = ["new 2 1 1 3", "save 0 0 1", "open 1 0 1 0", "open 2 0 1 0"];
    let before = [&opened[..], &["prepare 1", "prepare 2"]].concat();
    let behind = ["evict 0 0", "step 1 0 -> ok 1 0 0", "look 2 1 0 -> ok 1 1 1 1"];
    let with = ["step 2 0 -> ok 1 0 0", "issue 2 0 1 -> ok 2"];
    let anew = ["drop 1", "open 1 0 1 0", "prepare 1", "look 2 1 0 -> ok 2 1 2 0"];
    works(&[&before[..], &with, &behind, &anew].concat());
    // Run 2 isn't stepped, so it isn't issued: the master's version is the one that was read.
    let behind = ["evict 0 0", "step 1 0 -> ok 1 0 0", "look 2 1 0 -> ok 1 1 1 0"];
    works(&[&before[..], &["issue 2 0 1 -> refused 6"], &behind].concat());
}
