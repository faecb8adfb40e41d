//! Many calls at once, on examples worked out by hand.

use crate::lines::works_on;
use crate::script::{script, Done, LINE_ROOM};

/// More room than these answers need.
const ROOM: usize = 4000;

/// Works a text on these words, with so many bytes for the answers and without a scratch: so many
/// bytes are taken, and these answers are given.
fn works(words: &mut [u32], text: &str, room: usize, taken: usize, answers: &str) {
    let done = script(words, text.as_bytes(), room, &mut []);
    assert_eq!(done, Done { taken, answers: answers.into() }, "{text:?}, room {room}");
}

/// Every line is whole, and each is answered.
pub fn whole_lines() {
    let text = "new 1 1 1 1\nopen 0 0 0 0\nstep 0 0\nissue 0 0 1\nfetch 0 0\nlook 1 0 0\n";
    let answers = "ok 59\nok 1\nok 0 0 0\nok 1\nok 1\nok 1 1 1 0\n";
    let mut words = vec![0; 61];
    works(&mut words, text, ROOM, 67, answers);
    let mut due = vec![0; 59];
    works_on(&mut due, &["new 1 1 1 1", "save 0 0 1", "fetch 0 0"]);
    assert_eq!((&words[..59], &words[59..]), (&due[..], &[0, 0][..]));
}

/// What follows the last line feed isn't taken; with its line feed it is. An empty line is one.
pub fn cut_lines() {
    let mut words = vec![0; 59];
    works(&mut words, "new 1 1 1 1", ROOM, 0, "");
    assert_eq!(words, [0; 59]);
    works(&mut words, "new 1 1 1 1\nfetch 0 0", ROOM, 12, "ok 59\n");
    works(&mut words, "fetch 0 0\n", ROOM, 10, "refused 7\n");
    works(&mut words, "", ROOM, 0, "");
    works(&mut words, "\n", ROOM, 1, "unread\n");
    works(&mut words, "\n\npick\n\nx", ROOM, 8, "unread\nunread\nnothing\nunread\n");
}

/// 384 bytes must be left for a line, whatever its answer is.
pub fn room() {
    let fresh = || vec![0; 59];
    let text = "new 1 1 1 1\npick\npick\n";
    assert_eq!(LINE_ROOM, 384);
    for room in [0, 1, 6, 383] {
        let mut words = fresh();
        works(&mut words, text, room, 0, "");
        assert_eq!(words, [0; 59]);
    }
    works(&mut fresh(), text, 384, 12, "ok 59\n");
    works(&mut fresh(), text, 389, 12, "ok 59\n");
    works(&mut fresh(), text, 390, 17, "ok 59\nnothing\n");
    works(&mut fresh(), text, 397, 17, "ok 59\nnothing\n");
    works(&mut fresh(), text, 398, 22, "ok 59\nnothing\nnothing\n");
}

/// A line of 400 bytes is a call, one of 401 is unread.
pub fn long_lines() {
    let line = |length: usize| format!("drop {}\n", "0".repeat(length - 5));
    let mut words = vec![0; 59];
    works_on(&mut words, &["new 1 1 1 1"]);
    works(&mut words, &line(400), ROOM, 401, "refused 4\n");
    works(&mut words, &line(401), ROOM, 402, "unread\n");
    let both = format!("{}{}drop 4294967296\ndrop 4294967295\n", line(401), line(400));
    works(&mut words, &both, ROOM, 402 + 401 + 32, "unread\nrefused 4\nunread\nrefused 3\n");
}

/// A new in the middle: the desk is fresh, or another one; one that is refused leaves it.
pub fn new_between() {
    let mut words = vec![0; 91];
    works_on(&mut words, &["new 1 1 1 1", "save 0 0 1"]);
    let text = "look 0 0 0\nnew 2 2 2 1\nlook 0 0 0\nnew 1 1 1 1\nlook 0 0 0\n";
    works(&mut words, text, ROOM, 57, "ok 1 1 1 0\nrefused 1\nok 1 1 1 0\nok 59\nrefused 8\n");
    let text = "fetch 1 1\nnew 2 1 2 1\nfetch 1 1\nnew 3 0 2 1\nfetch 1 1\n";
    works(&mut words, text, ROOM, 54, "refused 3\nok 91\nrefused 7\nrefused 2\nrefused 7\n");
}

/// On a buffer that isn't in form every call but new and audit is refused with 1.
pub fn not_in_form() {
    let mut words = vec![0; 59];
    let calls = "pick\nstale 0\nadmit\naudit 1 1 0 0 7 7 7\nforecast 9\nx\n";
    let refused = "refused 1\nrefused 1\nrefused 1\nok 0\nrefused 1\nunread\n";
    works(&mut words, calls, ROOM, 52, refused);
    let made = format!("{calls}new 1 1 1 1\npick\n");
    works(&mut words, &made, ROOM, 69, &format!("{refused}ok 59\nnothing\n"));
    // One word is changed from outside: state 3.
    words[20] = 3;
    works(&mut words, calls, ROOM, 52, refused);
    // Lent a word short.
    words[20] = 0;
    works(&mut words[..58], calls, ROOM, 52, refused);
}

/// The scratch is lent to each forecast, and holds what the last one left that wasn't refused.
pub fn forecasts() {
    let mut words = vec![0; 59];
    works_on(&mut words, &["new 1 1 1 1", "save 0 0 1", "open 0 0 1 0 0 1 0"]);
    let before = words.clone();
    let asked = |words: &mut [u32], text: &str, scratch: &mut [u32], answers: &str| {
        let done = script(words, text.as_bytes(), ROOM, scratch);
        assert_eq!(done, Done { taken: text.len(), answers: answers.into() });
    };
    let mut short = [7; 58];
    asked(&mut words, "forecast 0\nforecast 9\n", &mut short, "refused 1\nrefused 1\n");
    assert_eq!((short, &words), ([7; 58], &before));
    asked(&mut words, "forecast 0\n", &mut [], "refused 1\n");
    let mut due = before.clone();
    works_on(&mut due, &["step 0 0 -> ok 0 0 1", "step 0 1 -> ok 1 0 0"]);
    let mut scratch = [7; 61];
    asked(&mut words, "forecast 0\nforecast 1\n", &mut scratch, "through\nrefused 3\n");
    assert_eq!((&scratch[..59], &scratch[59..], &words), (&due[..], &[7, 7][..], &before));
    // What a later call does isn't in it.
    let text = "forecast 0\nstep 0 0\nevict 0 0\n";
    asked(&mut words, text, &mut scratch, "through\nok 0 0 1\nok 1\n");
    assert_eq!(scratch[..59], due);
}

/// An audit goes by the line's numbers, and needs no desk and no scratch.
pub fn audits() {
    let text = "audit 1 1 0 0 7 7 7\naudit 1 1 0 0 7 7 8\naudit 1 1 0 0 7 7 7 9\naudit\n";
    works(&mut [], text, ROOM, 68, "ok 0\nrefused 15\nok 0\nrefused 15\n");
    // Issue 1 saves sheet 0, issue 2 both sheets. Issue 3 reads sheet 0 as of issue 1, and sheet 1
    // as of issue 2, behind which the newer sheet 0 stands.
    let text = "audit 2 1 3 2 7 19 23 0 1 0 0 0 3 0 0 0 1 0 2 0 1 1 2\n";
    works(&mut [], text, ROOM, text.len(), "ok 3\n");
}
