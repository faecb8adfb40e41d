//! The Rust wrapper's promises: the size of a desk before it is lent, names of refusals, standings and what a look, a forecast or an
//! audit shows, answers printed as the program prints them, over the golden scripts, and what is made of a text of calls. Prints what
//! went wrong and exits 1, or what was tried.

mod calls;
#[path = "../embed/sheetdesk.rs"]
mod sheetdesk;

use calls::call;
use sheetdesk::{audit, compare, is_linked_right, words, Answer, Desk, Job, Look, Place, Ran, Refusal, Standing, LINE_ROOM, MOST_WORDS};
use std::{fs, process::exit, sync::Mutex};

/// New takes just as many words as `words` says, and not one less, for all counts from 0 to one above the largest.
fn sizes() -> bool {
    let mut room = vec![0; MOST_WORDS];
    let mut fits = |k, w, n, p| {
        let size = words(k, w, n, p);
        if size == 0 {
            return Desk::lend(&mut room).new(k, w, n, p) == Answer::Refused(Refusal::BadCount);
        }
        let less = Desk::lend(&mut room[..size - 1]).new(k, w, n, p);
        let just = Desk::lend(&mut room[..size]).new(k, w, n, p);
        less == Answer::Refused(Refusal::NotInForm) && just.ok() == Some(&[size as u32])
    };
    (0..=33).all(|k| (0..=17).all(|w| (0..=9).all(|n| (0..=9).all(|p| fits(k, w, n, p)))))
}

/// A name for each number of the refusal table, and each number back.
fn refusals() -> bool {
    let named = |number| !matches!(Refusal::of(number), Refusal::Other(_));
    (0..40).all(|number| Refusal::of(number).number() == number && named(number) == (1..=15).contains(&number))
}

/// A name for each number of a standing, and the standing of two clocks.
fn standings() -> bool {
    let stands = |p: u32, q: u32| compare(&[p, 1], &[q, 1]);
    (0..40).all(|number| Standing::of(number).is_some() == (number < 4))
        && [stands(1, 1), stands(1, 2), stands(2, 1)] == [Standing::Equal, Standing::Older, Standing::Newer].map(Some)
        && compare(&[1, 2], &[2, 1]) == Some(Standing::Rival)
        && compare(&[1; 17], &[1; 17]).is_none()
}

/// A job that reads nothing is clear, which has no numbers; before there is a desk, explain is refused.
fn explanations() -> bool {
    let mut room = [0; words(1, 1, 1, 1)];
    let mut desk = Desk::lend(&mut room);
    let none = desk.explain(0, 0);
    desk.new(1, 1, 1, 1);
    desk.open(0, &[Job { office: 0, reads: 0, upstream: 0 }]);
    let clear = desk.explain(0, 0);
    none == Answer::Refused(Refusal::NotInForm) && clear == Answer::Clear && clear.ok().or(clear.path()).is_none()
}

/// What a forecast answers, by names, and which are handed over: all but those refused with 1, whose scratch stays as it was.
fn forecasts() -> bool {
    const LENT: usize = words(1, 1, 1, 1);
    let taken = Mutex::new(String::new());
    let take = |text: &str| taken.lock().unwrap().push_str(text);
    let (mut room, mut scratch) = ([0; LENT], [7; LENT + 1]);
    let mut desk = Desk::lend(&mut room);
    let job = |reads| Job { office: 0, reads, upstream: 0 };
    let none = desk.forecast(0, &mut scratch);
    desk.new(1, 1, 1, 1);
    desk.open(0, &[job(0), job(1)]);
    desk.record(Some(&take));
    let short = desk.forecast(0, &mut scratch[..LENT - 1]);
    let stays = scratch == [7; LENT + 1];
    let turned = desk.forecast(0, &mut scratch);
    desk.record(None);
    desk.step(0, 0);
    let foretold = scratch[..LENT] == *desk.words() && scratch[LENT] == 7;
    desk.drop(0);
    desk.open(0, &[job(0)]);
    let through = desk.forecast(0, &mut scratch);
    // Its tenth line is a forecast of a break at job 1 over sheet 2.
    let script = fs::read_to_string("scripts/forecast-job-and-mask.txt").unwrap_or_default();
    let mut other = [0; words(3, 1, 2, 1)];
    let mut desk = Desk::lend(&mut other);
    let breaks = script.lines().take(10).filter_map(|line| call(&mut desk, line)).last();
    none == Answer::Refused(Refusal::NotInForm) && short == none && stays && foretold
        && turned == Answer::Turned { job: 1, refusal: Refusal::NotOnMaster } && through == Answer::Through
        && through.ok().is_none() && breaks == Some(Answer::Breaks { job: 1, mask: 4 }) && *taken.lock().unwrap() == "forecast 0\nturned 1 7\n"
}

/// An audit needs no desk; what it answers, by names.
fn audits() -> bool {
    // The third issue's read lacks the save that the second had read.
    let lacks = [1, 2, 3, 2, 7, 19, 25, 0, 1, 0, 0, 1, 1, 0, 1, 0, 1, 1, 1, 0, 1, 0, 0, 0, 1];
    let empty = [1, 1, 0, 0, 7, 7, 7, 99];
    audit(&lacks).ok() == Some(&[3]) && audit(&lacks[..24]) == Answer::Refused(Refusal::NotReadable)
        && audit(&empty).ok() == Some(&[0]) && audit(&[]) == Answer::Refused(Refusal::NotReadable)
}

/// A golden script as a text, in parts of so many bytes and with so much room for answers: the answers, and the words left.
fn ran(script: &[u8], part: usize, room: usize) -> (Vec<u8>, Vec<u32>) {
    let (mut words, mut scratch) = (vec![0; 16384], vec![0; 16384]);
    let (mut out, mut kept, mut answers) = (vec![0; room], Vec::new(), Vec::new());
    let mut desk = Desk::lend(&mut words);
    for more in script.chunks(part) {
        kept.extend_from_slice(more);
        loop {
            let Ran { taken, put } = desk.run(&kept, &mut out, &mut scratch);
            answers.extend_from_slice(&out[..put]);
            kept.drain(..taken);
            if taken == 0 {
                break;
            }
        }
    }
    (answers, words)
}

/// The golden scripts as texts: answers as their files say, and the words that single calls leave, whatever the parts and the room.
fn texts() -> bool {
    let scripts = fs::read_dir("scripts").unwrap().map(|entry| entry.unwrap().path());
    let mut tried = scripts.filter(|path| path.extension().is_some_and(|end| end == "txt")).map(|path| {
        let (mut script, due) = (fs::read(&path).unwrap(), fs::read(path.with_extension("out")).unwrap());
        let mut words = vec![0; 16384];
        let mut desk = Desk::lend(&mut words);
        for (line, due) in script.split(|byte| *byte == b'\n').zip(due.split(|byte| *byte == b'\n')) {
            let made = std::str::from_utf8(line).ok().filter(|_| due != b"unread").and_then(|line| call(&mut desk, line));
            if made.is_some_and(|answer| answer.to_string().as_bytes() != due) {
                return false;
            }
        }
        if script.last().is_some_and(|byte| *byte != b'\n') {
            script.push(b'\n');
        }
        [(7, LINE_ROOM), (100, LINE_ROOM + 20), (1 << 20, 1 << 20)].iter().all(|(part, room)| ran(&script, *part, *room) == (due.clone(), words.clone()))
    });
    tried.all(|good| good)
}

/// What is handed over of a text: each line that made a call, as it stands, but no audit, and no forecast whose scratch is too short.
fn handed() -> bool {
    let text = b"new 1 01 1 1\nforecast 0\nopen 0 0 0 0\nno call\naudit 1\nforecast 0\nstep 0 0 000\npick\nstale 0";
    let taken = Mutex::new(Vec::new());
    let take = |lines: &str| taken.lock().unwrap().push(lines.to_string());
    let (mut room, mut out, mut scratch) = ([0; words(1, 1, 1, 1)], [7; 1000], [0; words(1, 1, 1, 1)]);
    let mut desk = Desk::lend(&mut room);
    let none = desk.run(text, &mut out[..LINE_ROOM - 1], &mut []) == Ran { taken: 0, put: 0 } && out == [7; 1000];
    desk.record(Some(&take));
    let first = desk.run(text, &mut out, &mut scratch[1..]);
    let answers = out[..first.put] == *b"ok 59\nrefused 1\nok 1\nunread\nrefused 15\nrefused 1\nok 0 0 0\nnothing\n";
    let second = desk.run(b"forecast 0\n", &mut out, &mut scratch);
    desk.record(None);
    desk.run(b"pick\n", &mut out, &mut []);
    let due = ["new 1 01 1 1\nok 59\n", "open 0 0 0 0\nok 1\n", "step 0 0 000\nok 0 0 0\n", "pick\nnothing\n", "forecast 0\nthrough\n"];
    none && first.taken == text.len() - 7 && answers && second == Ran { taken: 11, put: 8 } && *taken.lock().unwrap() == due
}

/// What a look shows, by names; nothing of an answer that is none.
fn looks() -> bool {
    let mut room = [0; words(1, 3, 1, 1)];
    let mut desk = Desk::lend(&mut room);
    let mut none = vec![desk.new(1, 3, 1, 1), desk.look(Place::Master, 0), desk.open(0, &[]), desk.drop(0)];
    for writer in [0, 2] {
        desk.open(0, &[Job { office: 0, reads: 0, upstream: 0 }]);
        none.push(desk.step(0, 0));
        none.push(desk.issue(0, writer, 1));
    }
    let rivals = Look { issue: 2, leaders: 5, clock: &[1, 0, 1], standing: Standing::Equal };
    none.iter().all(|answer| answer.look().is_none() && answer.standing().is_none()) && desk.look(Place::Master, 0).look() == Some(rivals)
}

/// How many lines of the golden scripts were answered, each as its file says.
fn golden() -> Option<usize> {
    let mut lines = 0;
    for entry in fs::read_dir("scripts").ok()? {
        let path = entry.ok()?.path();
        if path.extension().map_or(true, |end| end != "txt") {
            continue;
        }
        let Ok(script) = fs::read_to_string(&path) else { continue };
        let due = fs::read_to_string(path.with_extension("out")).ok()?;
        // The program's desk.
        let mut room = vec![0; 16384];
        let mut desk = Desk::lend(&mut room);
        for (line, due) in script.lines().zip(due.lines()).filter(|pair| pair.1 != "unread") {
            let Some(answer) = call(&mut desk, line) else { continue };
            if answer.to_string() != due || answer.path().is_some() != due.starts_with("path ") {
                println!("wrapper: {}: {line}: {answer}, due {due}", path.display());
                return None;
            }
            lines += 1;
        }
    }
    Some(lines)
}

fn main() {
    let lines = golden().unwrap_or(0);
    let named = refusals() && standings() && explanations() && forecasts() && audits() && looks();
    if lines < 500 || !is_linked_right() || !sizes() || !named || !texts() || !handed() {
        println!("wrapper: a promise of sheetdesk.rs isn't kept ({lines} golden lines answered)");
        exit(1);
    }
}
