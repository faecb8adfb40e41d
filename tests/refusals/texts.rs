//! Many calls at once: what is taken of a text, what is answered, that nothing else is written.

use crate::desk::layout::{LEADERS, STATE};
use crate::exported::script;
use crate::lines::save;
use crate::text::Call;
use crate::trials::{total, Desk, Trials, GUARD, MARK};

// More room than these answers need.
const ROOM: usize = 4000;
const BYTE: u8 = 0xA5;

pub fn of_all(t: &mut Trials) {
    of_lines(t);
    of_room(t);
    of_long_lines(t);
    of_counts(t);
    of_form(t);
    of_new(t);
    of_two_lines(t);
    of_the_scratch(t);
    of_audits(t);
    of_the_longest_look(t);
    of_many_lines(t);
    of_the_largest(t);
}

// What a text comes to with so many bytes of out, a scratch (7 everywhere) and words of counts:
// what is returned, the counts, out without the bytes behind it, and the scratch.
struct Made {
    laid: u32,
    counts: Vec<usize>,
    out: Vec<u8>,
    scratch: Vec<u32>,
}

// Bytes and words behind what is lent stay.
fn make(t: &mut Trials, d: &mut Desk, text: &[u8], [room, len, words]: [usize; 3]) -> Made {
    let (mut out, mut counts) = (vec![BYTE; room + GUARD], vec![9; words + GUARD]);
    let mut scratch = [vec![7; len], vec![MARK; GUARD]].concat();
    let (desk, lent) = (&mut d.words[..d.len], &mut scratch[..len]);
    let laid = script(desk, text, &mut out[..room], lent, &mut counts[..words]);
    let kept = out[room..].iter().all(|byte| *byte == BYTE)
        && counts[words..].iter().all(|count| *count == 9)
        && scratch[len..].iter().chain(&d.words[d.len..]).all(|word| *word == MARK);
    t.check("text, guard bytes and words", kept);
    out.truncate(room);
    counts.truncate(words);
    scratch.truncate(len);
    Made { laid, counts, out, scratch }
}

// So many bytes are taken, these answers are put, and all else of out, counts and scratch stays.
fn makes(t: &mut Trials, d: &mut Desk, text: &[u8], room: usize, taken: usize, answers: &str) {
    let Made { laid, counts, out, scratch } = make(t, d, text, [room, 3, 4]);
    let told = String::from_utf8_lossy(text).into_owned();
    let put = answers.len();
    let good = laid == 2 && counts == [taken, put, 9, 9] && scratch == [7; 3];
    let behind = out.iter().skip(put).all(|byte| *byte == BYTE);
    if !good || !out.starts_with(answers.as_bytes()) || !behind {
        println!("  {laid} {counts:?} {:?}", String::from_utf8_lossy(&out[..put.min(room)]));
    }
    let all = good && behind && out.starts_with(answers.as_bytes());
    t.check(&format!("text, room {room}: {told:?}"), all);
}

// Case A's first calls; a line that is cut; no line at all; empty lines and byte soup.
fn of_lines(t: &mut Trials) {
    let mut d = Desk::of(total([2, 2, 2, 1]) + 2, 7);
    let text = b"new 2 2 2 1\nopen 0 0 0 0\nstep 0 0\nissue 0 0 3\nfetch 0 0\nlook 1 0 1\nlook 1";
    makes(t, &mut d, text, ROOM, 67, "ok 119\nok 1\nok 0 0 0\nok 1\nok 3\nok 1 1 1 0 0\n");
    let before = d.words.clone();
    makes(t, &mut d, b"look 1 1 1\n", ROOM, 11, "refused 8\n");
    for text in ["", "evict 0 0", "e", "new 1 1 1 1", " "] {
        makes(t, &mut d, text.as_bytes(), ROOM, 0, "");
    }
    let soup = b"\n\nevict 0 0\r\n\xff\0\n evict 0 0\nevict 0 0";
    makes(t, &mut d, soup, ROOM, 27, &"unread\n".repeat(5));
    t.check("text, a desk that is only looked at", d.words == before);
    makes(t, &mut d, b"evict 0 0\n", ROOM, 10, "ok 3\n");
}

// 384 bytes must be left for a line, whatever its answer is.
fn of_room(t: &mut Trials) {
    let text = b"fetch 0 0\npick\npick\n";
    let none = [0, 9, 383].map(|room| (room, 0, ""));
    let one = [384, 393].map(|room| (room, 10, "refused 7\n"));
    let two = [394, 401].map(|room| (room, 15, "refused 7\nnothing\n"));
    let all = [402, 900].map(|room| (room, 20, "refused 7\nnothing\nnothing\n"));
    for (room, taken, answers) in none.into_iter().chain(one).chain(two).chain(all) {
        makes(t, &mut Desk::fresh([1, 1, 1, 1]), text, room, taken, answers);
    }
    // A call that isn't made leaves every word.
    let mut d = Desk::of(60, 7);
    makes(t, &mut d, b"new 1 1 1 1\n", 383, 0, "");
    t.check("text, no room, no desk", d.words[..60] == [7; 60]);
    makes(t, &mut d, b"new 1 1 1 1\n", 384, 12, "ok 59\n");
}

fn of_long_lines(t: &mut Trials) {
    let mut d = Desk::fresh([1, 1, 1, 1]);
    let line = |length: usize| format!("drop {}\n", "0".repeat(length - 5));
    for length in [399, 400, 401, 9000] {
        let answer = if length <= 400 { "refused 4\n" } else { "unread\n" };
        makes(t, &mut d, line(length).as_bytes(), ROOM, length + 1, answer);
    }
    let text = [line(401), line(400), String::from("drop 4294967296\ndrop 4294967295\n")].concat();
    makes(t, &mut d, text.as_bytes(), ROOM, 835, "unread\nrefused 4\nunread\nrefused 3\n");
    // Eight jobs with zeros in front, and as many numbers as 400 bytes hold.
    let jobs = format!("open {:016}{}\n", 0, format!(" {:014} {:014} {:014}", 0, 1, 0).repeat(8));
    makes(t, &mut d, jobs.as_bytes(), ROOM, 382, "ok 8\n");
    let text = format!("drop 0\nopen 0{}\n", " 0".repeat(197));
    makes(t, &mut d, text.as_bytes(), ROOM, 408, "ok 0\nrefused 5\n");
}

// With counts of fewer than two words nothing is done.
fn of_counts(t: &mut Trials) {
    for words in [0, 1, 2, 5] {
        let mut d = Desk::of(60, 7);
        let made = make(t, &mut d, b"new 1 1 1 1\naudit\n", [ROOM, 60, words]);
        let none = made.laid == 0 && made.out == vec![BYTE; ROOM] && made.counts == vec![9; words];
        let due = made.laid == 2 && made.out.starts_with(b"ok 59\nrefused 15\n\xA5");
        let laid = [18, 17, 9, 9, 9];
        let fresh = d.words[..60] != [7; 60];
        let done = due && fresh && made.counts == laid[..words];
        t.check("text, counts", if words < 2 { none && !fresh } else { done });
        t.check("text, counts, scratch", made.scratch == [7; 60]);
    }
}

// On a buffer that isn't in form every call but new and audit is refused with 1.
fn of_form(t: &mut Trials) {
    let calls = b"pick\naudit 1 1 0 0 7 7 7\nforecast 0\nlook 9 9 9\nnew 33 1 1 1\n-\nopen 0\n";
    let refused = "refused 1\nok 0\nrefused 1\nrefused 1\nrefused 2\nunread\nrefused 1\n";
    let mut state = Desk::fresh([1, 1, 1, 1]);
    let run = state.sizes().run_at(0);
    state.words[run + STATE] = 3;
    let mut short = Desk::fresh([1, 1, 1, 1]);
    short.words[58] = MARK;
    short.words.truncate(58);
    short.words.extend([MARK; GUARD]);
    short.len = 58;
    for mut d in [Desk::of(59, 0), Desk::of(59, 7), Desk::of(0, 7), Desk::of(9, 1), state, short] {
        let before = d.words.clone();
        makes(t, &mut d, calls, ROOM, 69, refused);
        t.check("text, not in form", d.words == before);
        let answer = if d.len < 59 { "refused 1\nrefused 1\n" } else { "ok 59\nnothing\n" };
        makes(t, &mut d, b"new 1 1 1 1\npick\n", ROOM, 17, answer);
    }
}

// A new in the middle makes another desk; one that is refused leaves it.
fn of_new(t: &mut Trials) {
    let mut d = Desk::of(91, 7);
    let text = b"fetch 1 1\nnew 2 1 2 1\nfetch 1 1\nnew 2 2 2 1\nfetch 1 1\nnew 1 1 1 1\n\
        fetch 1 1\n";
    let answers = "refused 1\nok 91\nrefused 7\nrefused 1\nrefused 7\nok 59\nrefused 3\n";
    makes(t, &mut d, text, ROOM, 76, answers);
    let fresh = Desk::fresh([1, 1, 1, 1]);
    t.check("text, a smaller desk", d.words[..59] == fresh.words[..59]);
}

// A step and an explain name their line.
fn of_two_lines(t: &mut Trials) {
    let mut d = Desk::fresh([1, 1, 1, 1]);
    let text = b"open 0 0 0 0 0 0 0\nstep 0 0 1\nfork 0\nexplain 0 0 1\nstep 0 0 1\nstep 0 1 2\n\
        step 0 1 0\njoin 0\nissue 0 0 1\n";
    let answers = "ok 2\nrefused 14\nok 0\nclear\nok 0 0 0\nrefused 14\nok 0 0 0\nok 0\nok 1\n";
    makes(t, &mut d, text, ROOM, text.len(), answers);
}

// The scratch is lent to each forecast, and holds what the last one left that wasn't refused.
fn of_the_scratch(t: &mut Trials) {
    let mut d = Desk::fresh([1, 1, 1, 1]);
    save(&mut d, 1);
    d.call(&Call::Open(0, vec![0, 1, 0, 0, 1, 0]));
    let mut stepped = d.clone();
    stepped.call(&Call::Step(0, 0, 0));
    stepped.call(&Call::Step(0, 1, 0));
    let before = d.words.clone();
    let text = b"forecast 0\nforecast 1\n";
    for len in [0, 58, 59, 62] {
        let told = if len < 59 { "refused 1\nrefused 1\n" } else { "through\nrefused 3\n" };
        let made = make(t, &mut d, text, [ROOM, len, 2]);
        let mut due = vec![7; len];
        if len >= 59 {
            due[..59].copy_from_slice(&stepped.words[..59]);
        }
        let answered = made.out.starts_with(told.as_bytes());
        t.check("text, forecast", made.counts == [22, told.len()] && answered);
        t.check("text, its scratch", made.scratch == due && d.words == before);
    }
    // What a later call does isn't in it.
    let text = b"forecast 0\nstep 0 0\nevict 0 0\ndrop 0\nforecast 0\n";
    let made = make(t, &mut d, text, [ROOM, 59, 2]);
    let answers = b"through\nok 0 0 1\nok 1\nok 0\nrefused 4\n";
    t.check("text, calls behind a forecast", made.out.starts_with(answers));
    t.check("text, the last forecast's scratch", made.scratch == stepped.words[..59]);
}

// Audits need neither a desk nor a scratch.
fn of_audits(t: &mut Trials) {
    let mut d = Desk::of(0, 7);
    let text = b"audit 1 1 0 0 7 7 7\naudit 1 1 0 0 7 7 8\naudit 1 1 0 0 7 7 7 9\naudit\naudit \n\
        audit 2 1 3 2 7 19 23 0 1 0 0 0 3 0 0 0 1 0 2 0 1 1 2\n";
    let answers = "ok 0\nrefused 15\nok 0\nrefused 15\nunread\nok 3\n";
    makes(t, &mut d, text, ROOM, text.len(), answers);
}

// A long answer, with just the room that is asked for.
fn of_the_longest_look(t: &mut Trials) {
    let mut d = Desk::fresh([1, 16, 1, 1]);
    let at = d.sizes().master_at(0);
    d.put(at, &[u32::MAX; 18]);
    d.words[at + LEADERS] = 0xFFFF;
    let answer = format!("ok 4294967295 65535{} 0\n", " 4294967295".repeat(16));
    makes(t, &mut d, b"look 0 0 0\nlook 0 0 0\n", 384, 11, &answer);
    makes(t, &mut d, b"look 0 0 0\nlook 0 0 0\n", 383 + answer.len(), 11, &answer);
    makes(t, &mut d, b"look 0 0 0\nlook 0 0 0\n", 384 + answer.len(), 22, &answer.repeat(2));
}

fn of_many_lines(t: &mut Trials) {
    let mut d = Desk::fresh([1, 1, 1, 1]);
    makes(t, &mut d, &[b'\n'; 9000], 70_000, 9000, &"unread\n".repeat(9000));
    let text = "open 0 0 0 0\nstep 0 0\nissue 0 0 1\n".repeat(2000);
    let answers = (1..=2000).map(|n| format!("ok 1\nok 0 0 0\nok {n}\n")).collect::<String>();
    makes(t, &mut d, text.as_bytes(), 60_000, text.len(), &answers);
}

// Far more words than the program lends.
fn of_the_largest(t: &mut Trials) {
    let mut d = Desk::of(total([32, 16, 8, 8]) + 2, 7);
    let text = b"new 32 16 8 8\nopen 7 7 0 0\nstep 7 0\nissue 7 15 4294967295\nfetch 7 31\n\
        look 1 7 31\nadmit\n";
    let look = format!("ok 1 32768 {}1 0", "0 ".repeat(15));
    let answers = format!("ok 419699\nok 1\nok 0 0 0\nok 1\nok 4294967295\n{look}\nok 0\n");
    makes(t, &mut d, text, ROOM, text.len(), &answers);
}
