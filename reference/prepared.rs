//! "A prepared run goes through": what is claimed of the steps of prepared runs, tested as the
//! calls of a list are made.
//!
//! A run stands as prepared from an accepted prepare on, until a prepare, fork, issue or drop of
//! it is accepted, or a new. It needs no book: desk and answers alone decide.

use crate::desk::layout::{has, DONE};
use crate::desk::reads::job_words;
use crate::desk::{in_form, Answer, Sizes};
use crate::desk::{NO_RIGHT, OUT_OF_RANGE, WRONG_LINE, WRONG_TURN};
use crate::text::{self, Call};

/// What turns down a step of a prepared run: "a missing right", or the call's own numbers.
const TURNED_DOWN: [u32; 4] = [OUT_OF_RANGE, WRONG_LINE, WRONG_TURN, NO_RIGHT];

/// How much a list of calls gave to test: steps of prepared runs that went through, that a right
/// turned down, and those of two prepared runs that were held against the list without the other's
/// steps, on unlike masters too.
#[derive(Default)]
pub struct Tested {
    pub steps: usize,
    pub rights: usize,
    pub beside: usize,
    pub beside_unlike: usize,
}

impl Tested {
    pub fn print(&self) -> String {
        format!(
            "{} steps of prepared runs, {} without a right, {} held against a list without \
             another's steps, {} of these on another master",
            self.steps, self.rights, self.beside, self.beside_unlike
        )
    }
}

/// The runs that stand as prepared, and the pairs of them.
#[derive(Default)]
pub struct Prepared {
    runs: u32,
    pairs: Vec<Pair>,
    pub tested: Tested,
}

/// A prepared run, another one, and the desk on which all calls were made but the other's steps,
/// since both stood as prepared.
struct Pair {
    run: u32,
    other: u32,
    without: Vec<u32>,
}

/// Does the call, if it is accepted, end what a prepare began?
pub fn disturbs(call: &Call, run: u32) -> bool {
    match call {
        Call::New(_) => true,
        Call::Prepare(_) | Call::Fork(_) | Call::Issue(..) | Call::Drop(_) => {
            call.run() == Some(run)
        }
        _ => false,
    }
}

fn is_ok(answer: &Answer) -> bool {
    matches!(answer, Answer::Ok(_))
}

impl Prepared {
    /// Another list begins.
    pub fn start_over(&mut self) {
        (self.runs, self.pairs) = (0, Vec::new());
    }

    pub fn stands(&self, run: u32) -> bool {
        run < 32 && has(self.runs, run as usize)
    }

    /// A call with its answer, and the desk before and behind it.
    pub fn follow(
        &mut self,
        before: &[u32],
        call: &Call,
        answer: &Answer,
        after: &[u32],
    ) -> Result<(), String> {
        if let Call::Step(run, job, _) = call {
            if self.stands(*run) {
                check_smooth(before, [*run, *job], answer, after)?;
                self.tested.steps += usize::from(is_ok(answer));
                self.tested.rights += usize::from(*answer == Answer::Refused(NO_RIGHT));
            }
        }
        if let Call::Forecast(run) = call {
            let goes = matches!(answer, Answer::Through | Answer::Turned(_, NO_RIGHT));
            if self.stands(*run) && !goes {
                return Err(format!("prepared run {run}: forecast answered {answer:?}"));
            }
        }
        let mut pairs = std::mem::take(&mut self.pairs);
        for pair in &mut pairs {
            pair.follow(call, answer, after, &mut self.tested)?;
        }
        pairs.retain_mut(|pair| !pair.ends(call, answer));
        self.pairs = pairs;
        if is_ok(answer) {
            self.enter(call, after);
        }
        Ok(())
    }

    /// Which runs stand as prepared behind an accepted call; a new pair begins with each prepare.
    fn enter(&mut self, call: &Call, after: &[u32]) {
        for run in (0..32).filter(|run| disturbs(call, *run)) {
            self.runs &= !(1 << run);
        }
        let Call::Prepare(run) = call else {
            return;
        };
        for other in (0..32).filter(|other| has(self.runs, *other as usize)) {
            for (run, other) in [(*run, other), (other, *run)] {
                if !self.pairs.iter().any(|pair| (pair.run, pair.other) == (run, other)) {
                    self.pairs.push(Pair { run, other, without: after.to_vec() });
                }
            }
        }
        self.runs |= 1 << run;
    }
}

/// A step of a prepared run answers `ok R 0 0` and changes the done mask and line 0's read mask,
/// no other word; or it is turned down by its numbers or a missing right.
fn check_smooth(
    before: &[u32],
    [run, job]: [u32; 2],
    answer: &Answer,
    after: &[u32],
) -> Result<(), String> {
    if matches!(answer, Answer::Refused(number) if TURNED_DOWN.contains(number)) {
        let same = before == after;
        return same.then_some(()).ok_or("a refused step changed the desk".into());
    }
    let s = in_form(before).ok_or("the desk is not in form")?;
    let reads = reads_of(before, s, run, job);
    if *answer != Answer::Ok(vec![reads, 0, 0]) {
        return Err(format!("prepared run {run}: job {job} reads {reads}, answered {answer:?}"));
    }
    let mut due = before.to_vec();
    due[s.run_at(run as usize) + DONE] |= 1 << job;
    due[s.read_at(run as usize, 0)] |= reads;
    if due != after {
        return Err(format!("prepared run {run}: job {job} changed more than what it has read"));
    }
    Ok(())
}

fn reads_of(desk: &[u32], s: Sizes, run: u32, job: u32) -> u32 {
    job_words(desk, s, run as usize, job as usize).1
}

impl Pair {
    /// Makes the call on the desk without the other's steps. "Each, stepped in any mixture, reads
    /// what it would read were the other never stepped."
    fn follow(
        &mut self,
        call: &Call,
        answer: &Answer,
        after: &[u32],
        tested: &mut Tested,
    ) -> Result<(), String> {
        if matches!(call, Call::Step(run, ..) if *run == self.other) {
            return Ok(());
        }
        let alone = text::run(&mut self.without, call);
        if disturbs(call, self.run) && is_ok(&alone) {
            self.run = u32::MAX; // This list doesn't leave it as prepared.
        }
        let Call::Step(run, job, _) = call else {
            return Ok(());
        };
        if *run != self.run {
            return Ok(());
        }
        let [with, without] = [
            has_read(after, [*run, *job], answer),
            has_read(&self.without, [*run, *job], &alone),
        ];
        if with != without {
            let other = self.other;
            return Err(format!("run {run}: job {job} reads otherwise if {other} isn't stepped"));
        }
        if with.is_some() {
            tested.beside += 1;
            tested.beside_unlike += usize::from(masters_differ(after, &self.without));
        }
        Ok(())
    }

    /// Has one of the two lists ended what the run's prepare began?
    fn ends(&self, call: &Call, answer: &Answer) -> bool {
        self.run == u32::MAX || disturbs(call, self.run) && is_ok(answer)
    }
}

/// What an accepted step has read: for each sheet of the job the version on the card behind it.
fn has_read(after: &[u32], [run, job]: [u32; 2], answer: &Answer) -> Option<Vec<Vec<u32>>> {
    let s = in_form(after).filter(|_| is_ok(answer))?;
    let reads = reads_of(after, s, run, job);
    let sheets = (0..s.k).filter(|k| has(reads, *k));
    Some(sheets.map(|k| s.words(after, s.card_at(run as usize, k)).to_vec()).collect())
}

fn masters_differ(one: &[u32], other: &[u32]) -> bool {
    in_form(one).is_some_and(|s| one[s.master()..s.shelves()] != other[s.master()..s.shelves()])
}
