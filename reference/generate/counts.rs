//! What a script has met so far.

use crate::audits;
use crate::chains::tied_and_carried;
use crate::desk::layout::{has, JOBS, JOB_LIST, LEADERS};
use crate::desk::reads::step_view;
use crate::desk::version::{covers, held, row};
use crate::desk::{in_form, Answer};
use crate::foreseen;
use crate::forked;
use crate::rights;
use crate::spared;
use crate::text::{run, Call};

#[derive(Default)]
pub struct Counts {
    /// The plots' lines, and those between them.
    pub lines: u64,
    pub asides: u64,
    pub unread: u64,
    pub rivals: u64,
    fetches_of_more: u64,
    evicts_of_more: u64,
    prepares: u64,
    prepares_unlike: u64,
    steps: u64,
    breaks: u64,
    issues: u64,
    looks: u64,
    looks_older: u64,
    looks_several: u64,
    stales: u64,
    stales_marked: u64,
    admits: u64,
    allows: u64,
    hidden_breaks: u64,
    picks: u64,
    nothing: u64,
    breaks_marked: u64,
    clear: u64,
    paths: u64,
    long_paths: u64,
    tied_paths: u64,
    carried_paths: u64,
    rights: rights::Met,
    forked: forked::Met,
    spared: spared::Met,
    foreseen: foreseen::Met,
    audits: audits::Met,
    refused: [u64; 16],
}

impl Counts {
    /// One line of names and numbers.
    pub fn print(&self) -> String {
        let mut names = vec![
            ("lines".to_string(), self.lines + self.asides),
            ("unread".into(), self.unread),
            ("rivals".into(), self.rivals),
            ("fetches-of-more".into(), self.fetches_of_more),
            ("evicts-of-more".into(), self.evicts_of_more),
            ("prepares".into(), self.prepares),
            ("prepares-unlike".into(), self.prepares_unlike),
            ("steps".into(), self.steps),
            ("breaks".into(), self.breaks),
            ("issues".into(), self.issues),
            ("looks".into(), self.looks),
            ("looks-older".into(), self.looks_older),
            ("looks-several".into(), self.looks_several),
            ("stales".into(), self.stales),
            ("stales-marked".into(), self.stales_marked),
            ("admits".into(), self.admits),
            ("allows".into(), self.allows),
            ("hidden-breaks".into(), self.hidden_breaks),
            ("picks".into(), self.picks),
            ("nothing".into(), self.nothing),
            ("breaks-marked".into(), self.breaks_marked),
            ("clear".into(), self.clear),
            ("paths".into(), self.paths),
            ("paths-of-3".into(), self.long_paths),
            ("paths-tied".into(), self.tied_paths),
            ("paths-carried".into(), self.carried_paths),
        ];
        names.extend(self.rights.names());
        names.extend(self.forked.names());
        names.extend(self.spared.names());
        names.extend(self.foreseen.names());
        names.extend(self.audits.names());
        let refused = (1..=8).chain(12..=15);
        names.extend(refused.map(|number| (format!("refused-{number}"), self.refused[number])));
        names.iter().map(|(name, count)| format!("{name} {count}")).collect::<Vec<_>>().join(" ")
    }

    /// Takes in a call on a desk, and its answer.
    pub fn enter(&mut self, before: &[u32], after: &[u32], call: &Call, answer: &Answer) {
        self.rights.enter(before, after, call, answer);
        self.forked.enter(before, call, answer);
        self.spared.enter(before, call, answer);
        self.foreseen.enter(before, call, answer);
        self.audits.enter(call, answer);
        match (call, answer) {
            (_, Answer::Ok(numbers)) => self.enter_ok(before, after, call, numbers),
            (_, Answer::Refused(number)) => {
                self.refused[*number as usize] += 1;
                self.hidden_breaks += u64::from(*number == 12 && hides_break(before, call));
            }
            (Call::Step(run, job, line), Answer::Broken(_)) => {
                self.breaks += 1;
                self.breaks_marked += u64::from(fetches_stale(before, [*run, *job, *line]));
            }
            (_, Answer::Nothing) => self.nothing += 1,
            (_, Answer::Clear) => self.clear += 1,
            (Call::Explain(run, job, line), Answer::Path(path)) => {
                self.enter_path(before, [*run, *job, *line], path);
            }
            _ => {}
        }
    }

    /// Takes in a call that was answered `ok` with these numbers.
    fn enter_ok(&mut self, before: &[u32], after: &[u32], call: &Call, numbers: &[u32]) {
        let several = u64::from(numbers[0].count_ones() > 1);
        match call {
            Call::Fetch(..) => self.fetches_of_more += several,
            Call::Evict(..) => self.evicts_of_more += several,
            Call::Prepare(run) => {
                self.prepares += 1;
                self.prepares_unlike += u64::from(merges_unlike(after, *run as usize));
            }
            Call::Step(..) => self.steps += 1,
            Call::Issue(_, writer, mask) => {
                self.issues += u64::from(*mask != 0);
                self.rivals += rivals_met(before, after, *writer as usize, *mask);
            }
            Call::Look(..) => {
                self.looks += 1;
                self.looks_older += u64::from(numbers.last() == Some(&1));
                self.looks_several += u64::from(numbers[1].count_ones() > 1);
            }
            Call::Stale(_) => {
                self.stales += 1;
                self.stales_marked += u64::from(numbers[0] != 0);
            }
            Call::Admit => self.admits += 1,
            Call::Allow(..) => self.allows += 1,
            Call::Pick => self.picks += 1,
            _ => {}
        }
    }

    /// Takes in a path that an explain answered.
    fn enter_path(&mut self, before: &[u32], step: [u32; 3], path: &[u32]) {
        let (tied, carried) = tied_and_carried(before, step, path);
        self.paths += 1;
        self.long_paths += u64::from(path.len() > 2);
        self.tied_paths += u64::from(tied);
        self.carried_paths += u64::from(carried);
    }
}

/// The sheets whose master version the new version doesn't cover: it never is covered itself.
fn rivals_met(before: &[u32], after: &[u32], writer: usize, mask: u32) -> u64 {
    let Some(s) = in_form(before) else {
        return 0;
    };
    let made = s.writer_past(after, writer);
    let met = (0..s.k).filter(|k| {
        let old = s.words(before, s.master_at(*k));
        let own = &made[*k * s.w..(*k + 1) * s.w];
        has(mask, *k) && held(old) && !covers(own, row(old, s.w, *k))
    });
    met.count() as u64
}

/// Would the call break its run if no allowance were too small?
fn hides_break(before: &[u32], call: &Call) -> bool {
    let mut words = before.to_vec();
    if let Some(s) = in_form(before) {
        (0..s.n).for_each(|office| words[s.allowance_at(office)] = s.k as u32);
    }
    matches!(run(&mut words, call), Answer::Broken(_))
}

/// Would the step's fetch have taken a sheet again that is marked as stale?
fn fetches_stale(before: &[u32], step: [u32; 3]) -> bool {
    let Some(s) = in_form(before) else {
        return false;
    };
    let [run, job, line] = step.map(|number| number as usize);
    let view = step_view(before, s, run, job, line);
    view.fetched & before[s.stale_at(view.office)] != 0
}

/// Do shelves of the run's offices hold a sheet on its card with unequal leading writers?
fn merges_unlike(words: &[u32], run: usize) -> bool {
    let Some(s) = in_form(words) else {
        return false;
    };
    let head = &words[s.run_at(run)..];
    let jobs = head[JOB_LIST..].chunks(3).take(head[JOBS] as usize);
    let offices = jobs.map(|job| job[0] as usize).collect::<Vec<usize>>();
    (0..s.k).any(|k| {
        let shelves = offices.iter().map(|office| s.words(words, s.shelf_at(*office, k)));
        let mut masks = shelves.filter(|version| held(version)).map(|version| version[LEADERS]);
        let first = masks.next();
        held(s.words(words, s.card_at(run, k))) && masks.any(|mask| Some(mask) != first)
    })
}
