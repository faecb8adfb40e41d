//! The script so far, the desk that it leads to, and the counts.

use crate::counts::Counts;
use crate::desk::layout::{DONE, JOBS, JOB_LIST, READ, STATE};
use crate::desk::version::{compare, held, row, Standing};
use crate::desk::{in_form, Answer, Sizes};
use crate::random::Random;
use crate::text;

pub struct Teller {
    pub script: Vec<u8>,
    pub words: Vec<u32>,
    pub counts: Counts,
    /// A sequence for lines between the plots.
    pub asides: Random,
    random: Random,
}

impl Teller {
    pub fn new(seed: u64) -> Teller {
        let words = vec![0; text::LENT];
        let (asides, random) = (Random::new(!seed), Random::new(seed));
        Teller { script: Vec::new(), words, counts: Counts::default(), asides, random }
    }

    pub fn next(&mut self) -> u64 {
        self.random.next()
    }

    pub fn below(&mut self, count: usize) -> usize {
        self.random.below(count)
    }

    pub fn chance(&mut self, percent: usize) -> bool {
        self.random.chance(percent)
    }

    /// The desk's sizes; the script makes one before any plot needs them.
    pub fn sizes(&self) -> Sizes {
        in_form(&self.words).expect("a new was accepted")
    }

    /// Writes a line and works it on the own desk.
    pub fn say(&mut self, line: &[u8]) -> Option<Answer> {
        self.script.extend_from_slice(line);
        self.script.push(b'\n');
        self.counts.lines += 1;
        let Some(call) = text::read_line(line) else {
            self.counts.unread += 1;
            return None;
        };
        let before = self.words.clone();
        let answer = text::run(&mut self.words, &call);
        self.counts.enter(&before, &self.words, &call, &answer);
        Some(answer)
    }

    /// A line that is no part of a plot: how many lines the plots have is counted without it.
    pub fn say_aside(&mut self, line: &[u8]) {
        self.say(line);
        self.counts.lines -= 1;
        self.counts.asides += 1;
    }

    /// A call's word and its numbers, as a line. Some steps are explained before, some runs are
    /// forecast.
    pub fn tell(&mut self, name: &str, numbers: &[u32]) -> Option<Answer> {
        if name == "step" && self.chance(25) {
            self.tell("explain", numbers);
        }
        if name == "step" && self.chance(6) {
            self.tell("forecast", &numbers[..1]);
        }
        let mut line = name.to_string();
        for number in numbers {
            line.push_str(&format!(" {number}"));
        }
        let answer = self.say(line.as_bytes());
        if matches!(answer, Some(Answer::Ok(_))) && self.chance(30) {
            self.glance(name, numbers);
        }
        if name == "issue" && self.chance(30) {
            self.look_behind();
        }
        if matches!(answer, Some(Answer::Ok(_))) && self.chance(3) {
            self.say(b"admit");
        }
        let percent = match answer {
            Some(Answer::Ok(_)) => 8,
            Some(Answer::Broken(_)) => 50,
            _ => 0,
        };
        if self.chance(percent) {
            self.ask_stale(name, numbers);
        }
        answer
    }

    /// A shelf's mark where the call may have changed it.
    fn ask_stale(&mut self, name: &str, numbers: &[u32]) {
        let office = match name {
            "fetch" | "evict" | "mayhold" => numbers[0] as usize,
            "prepare" => self.job(numbers[0] as usize, 0)[0] as usize,
            "step" => self.job(numbers[0] as usize, numbers[1] as usize)[0] as usize,
            "issue" => self.below(self.sizes().n),
            _ => return,
        };
        self.say(format!("stale {office}").as_bytes());
    }

    /// A look where the call may have changed a sheet: masks alone hide a wrong version. Some
    /// draws look for a sheet that is held there.
    fn glance(&mut self, name: &str, numbers: &[u32]) {
        let s = self.sizes();
        let (place, number) = match name {
            "prepare" | "step" | "join" => (2, numbers[0] as usize),
            "fetch" | "evict" | "mayhold" => (1, numbers[0] as usize),
            "issue" => (0, 0),
            _ => return,
        };
        let mut sheet = 0;
        for _ in 0..8 {
            sheet = self.below(s.k);
            let at = match place {
                0 => s.master_at(sheet),
                1 => s.shelf_at(number, sheet),
                _ => s.card_at(number, sheet),
            };
            if self.words[at] != 0 {
                break;
            }
        }
        self.say(format!("look {place} {number} {sheet}").as_bytes());
    }

    /// A look at a copy that an issue has left behind, if there is one.
    fn look_behind(&mut self) {
        let s = self.sizes();
        let mut behind = Vec::new();
        for k in 0..s.k {
            let shelves = (0..s.n).map(|office| (1, office, s.shelf_at(office, k)));
            let cards = (0..s.p).map(|run| (2, run, s.card_at(run, k)));
            let master = row(s.words(&self.words, s.master_at(k)), s.w, k);
            for (place, number, at) in shelves.chain(cards) {
                let version = s.words(&self.words, at);
                if held(version) && compare(row(version, s.w, k), master) != Standing::Equal {
                    behind.push((place, number, k));
                }
            }
        }
        if !behind.is_empty() {
            let (place, number, k) = behind[self.below(behind.len())];
            self.say(format!("look {place} {number} {k}").as_bytes());
        }
    }

    pub fn on_master(&self, k: usize) -> bool {
        self.words[self.sizes().master_at(k)] != 0
    }

    pub fn on_shelf(&self, office: usize, k: usize) -> bool {
        self.words[self.sizes().shelf_at(office, k)] != 0
    }

    /// State, number of jobs, done mask and read mask of a run.
    pub fn run_head(&self, run: usize) -> [u32; 4] {
        let at = self.sizes().run_at(run);
        [STATE, JOBS, DONE, READ].map(|place| self.words[at + place])
    }

    /// Office, reads and upstream mask of a job.
    pub fn job(&self, run: usize, job: usize) -> [u32; 3] {
        let at = self.sizes().run_at(run) + JOB_LIST + 3 * job;
        [self.words[at], self.words[at + 1], self.words[at + 2]]
    }
}
