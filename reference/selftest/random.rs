//! Random calls with random numbers on buffers that are damaged or random themselves.

use crate::desk::*;
pub use crate::sequence::Random;
use crate::text::{run, Call};

pub struct Draw(u64);

impl Draw {
    pub fn new(seed: u64) -> Draw {
        Draw(seed.wrapping_mul(0x9E37_79B9_7F4A_7C15) | 1)
    }

    fn next(&mut self) -> u64 {
        self.0 ^= self.0 << 13;
        self.0 ^= self.0 >> 7;
        self.0 ^= self.0 << 17;
        self.0
    }

    pub fn below(&mut self, count: u64) -> u32 {
        (self.next() % count) as u32
    }

    /// A small number, or now and then any.
    fn number(&mut self) -> u32 {
        match self.below(20) {
            0 => self.next() as u32,
            1 => u32::MAX,
            _ => self.below(4).min(self.below(3)),
        }
    }
}

/// Works random calls; now and then one finds a damaged word. Each call must come back, a
/// refused one must leave every word, an accepted one must leave a desk in form, and words
/// past the total must stay.
pub fn damaged(seed: u64, calls: u32) -> (u32, u32) {
    let mut draw = Draw::new(seed);
    let mut words = Vec::new();
    let mut accepted = 0;
    for number in 0..calls {
        if number % 150 == 0 {
            words = start(&mut draw);
        }
        let call = any_call(&mut draw);
        let sound = words.clone();
        let damaged = draw.below(6) == 0 && !words.is_empty();
        if damaged {
            let at = draw.below(words.len() as u64) as usize;
            words[at] = draw.number();
        }
        accepted += u32::from(one(&mut words, &call));
        if damaged && draw.below(10) > 0 {
            words = sound;
        }
    }
    (calls, accepted)
}

fn one(words: &mut [u32], call: &Call) -> bool {
    let before = words.to_vec();
    let answer = run(words, call);
    if let Call::Audit(_) = call {
        // It needs no desk.
        assert!(matches!(answer, Answer::Ok(_) | Answer::Refused(15)) && words == before);
        return matches!(answer, Answer::Ok(_));
    }
    if let Answer::Refused(number) = answer {
        assert_eq!(words, before);
        let form = in_form(words).is_some();
        assert!((1..=14).contains(&number));
        assert!(number != 11 || matches!(call, Call::Admit));
        assert!(matches!(call, Call::New(_)) || (number == 1) != form);
        return false;
    }
    let s = in_form(words).expect("an accepted call leaves the form");
    if let Call::Forecast(run) = call {
        let mut scratch = vec![7; words.len() + 3];
        assert_eq!(forecast(words, &mut scratch, *run), answer);
        assert!(in_form(&scratch).is_some() && scratch[s.total()..].iter().all(|word| *word == 7));
    }
    assert_eq!(words[s.total()..], before[s.total()..]);
    assert!(!call.only_answers() || words == before);
    true
}

/// A fresh desk with room past its total, or random words.
fn start(draw: &mut Draw) -> Vec<u32> {
    let length = draw.below(1500) as usize;
    let mut words = (0..length).map(|_| draw.number()).collect::<Vec<u32>>();
    let sizes = [3, 2, 2, 3].map(|more| 2 + draw.below(more));
    if draw.below(10) > 0 {
        let _ = run(&mut words, &Call::New(sizes));
    }
    words
}

fn any_call(draw: &mut Draw) -> Call {
    let [a, b, c] = [draw.number(), draw.number(), draw.number()];
    let line = if draw.below(4) > 0 { draw.below(2) } else { c };
    match draw.below(72) {
        0 => Call::New([a, b, c, draw.number()]),
        1..=6 => {
            let length = if draw.below(8) == 0 { draw.below(30) } else { 3 + 3 * draw.below(3) };
            let mut list = (0..length).map(|_| draw.number()).collect::<Vec<u32>>();
            for job in list.chunks_mut(3).filter(|_| draw.below(4) > 0) {
                *job.last_mut().expect("a chunk has a word") = 0;
            }
            Call::Open(a, list)
        }
        7..=12 => Call::Fetch(a, b),
        13..=15 => Call::Evict(a, b),
        16..=18 => Call::Prepare(a),
        19..=28 => Call::Step(a, b, line),
        29..=35 => Call::Issue(a, b, c),
        36 => Call::Drop(a),
        37..=39 => Call::Explain(a, b, line),
        40 | 41 => Call::Stale(a),
        42 | 43 => Call::Admit,
        44 | 45 => Call::Allow(a, b),
        46 | 47 => Call::Pick,
        48 | 49 => Call::MayHold(a, b | draw.below(4)),
        50 | 51 => Call::MaySave(a, b | draw.below(4)),
        52..=56 => Call::Fork(a),
        57..=60 => Call::Join(a),
        61..=65 => Call::Forecast(a),
        66 => Call::Audit([1, 1, 0, 0, 7, 7, 7, a, b][..5 + draw.below(5) as usize].to_vec()),
        67 => Call::Audit((0..draw.below(30)).map(|_| draw.number()).collect()),
        _ => Call::Look(a, b, c),
    }
}
