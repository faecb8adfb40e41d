//! Texts of calls as they are drawn: steered plots, calls with any numbers, unread lines and
//! lines of about 400 bytes.

use crate::arguments::{any_call, sizes};
use crate::desk::{in_form, Sizes};
use crate::random::Random;
use crate::teller::Teller;
use crate::text::Call;
use crate::{audits, plots, unread};

/// About so many lines, each with its line feed, for a desk that these words hold or may hold.
pub fn text(random: &mut Random, words: &[u32], lines: u64) -> Vec<u8> {
    let mut t = Teller::new(random.next());
    t.words = words.to_vec();
    let mut long = 0;
    while t.counts.lines + t.counts.asides < lines {
        let formed = in_form(&t.words);
        match random.below(40) {
            0..=13 if formed.is_some() => plots::without_new(&mut t),
            0..=24 => {
                let line = any_call(random, &t.words).line();
                t.say(line.as_bytes());
            }
            25..=27 => unread::line(&mut t),
            28 => _ = t.say(b""),
            29 | 30 => audits::between(&mut t, 100),
            31..=33 => {
                let run = random.near(formed.map_or(2, |s| s.p));
                t.tell("forecast", &[run]);
            }
            34 => {
                let counts = fitting(random, words.len());
                t.tell("new", &counts);
            }
            35 | 36 if formed.is_some() => full_open(random, &mut t),
            37..=39 if long < 2 => {
                long += 1;
                long_line(random, &mut t);
            }
            _ => {}
        }
    }
    t.script
}

/// Counts of a desk that has room, if some draws find one.
fn fitting(random: &mut Random, lent: usize) -> [u32; 4] {
    let mut counts = sizes(random);
    for _ in 0..6 {
        let [k, w, n, p] = counts;
        if Sizes::of(k, w, n, p).is_some_and(|s| s.total() <= lent) {
            break;
        }
        counts = counts.map(|count| 1 + count / 2);
    }
    counts
}

/// Eight jobs, and now and then a few words more or less, with zeros in front of the numbers.
fn full_open(random: &mut Random, t: &mut Teller) {
    let s = t.sizes();
    let mut numbers = vec![plots::free_run(t) as u32];
    for job in 0..8 {
        let upstream = random.mask(job, 25);
        numbers.extend([random.below(s.n) as u32, random.mask(s.k, 35), upstream]);
    }
    if random.chance(20) {
        numbers.resize(23 + random.below(5), 0);
    }
    let width = 1 + random.below(9);
    let mut line = String::from("open");
    for number in numbers {
        line.push_str(&format!(" {number:0width$}"));
    }
    t.say(line.as_bytes());
}

/// A call of 399 to 402 bytes: zeros in front of its last number, or numbers behind it.
fn long_line(random: &mut Random, t: &mut Teller) {
    let length = random.one_of(&[399, 400, 400, 401, 401, 402]);
    let mut line = random_short(random, &t.words);
    match random.below(3) {
        0 => {
            line = String::from(if random.chance(50) { "open 0" } else { "audit 1 1 0 0 7 7 7" });
            while line.len() + 2 <= length {
                line.push_str(" 0");
            }
            line.push_str(&"0".repeat(length - line.len()));
        }
        _ => {
            if let Some((front, last)) = line.clone().rsplit_once(' ') {
                let zeros = "0".repeat(length.saturating_sub(line.len()));
                line = format!("{front} {zeros}{last}");
            }
        }
    }
    t.say(line.as_bytes());
}

/// A call of few numbers.
fn random_short(random: &mut Random, words: &[u32]) -> String {
    loop {
        let call = any_call(random, words);
        if !matches!(call, Call::Audit(_) | Call::Open(..) | Call::Pick | Call::Admit) {
            return call.line();
        }
    }
}
