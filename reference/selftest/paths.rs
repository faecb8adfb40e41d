//! Explain against all paths without a sheet twice: on random graphs, and on random small desks
//! in form.

use crate::desk::layout::{has, DONE, JOBS, JOB_LIST, LEADERS, NUMBER, PAST, READ, STATE};
use crate::desk::version::{held, meets, needs, row};
use crate::desk::*;
use crate::random::Draw;

/// What the tries met: paths by their number of sheets, and those with an equally short other.
#[derive(Default)]
pub struct Met {
    clear: u32,
    sheets: [u32; 8],
    tied: u32,
}

impl Met {
    /// The counts in words, once there is enough of each.
    pub fn print(&self) -> String {
        let long = self.sheets[4..].iter().sum::<u32>();
        assert!(self.clear > 1000 && self.sheets[3] > 300 && long > 30 && self.tied > 300);
        let [two, three, tied, clear] = [self.sheets[2], self.sheets[3], self.tied, self.clear];
        format!("{clear} clear, {two} of 2 sheets, {three} of 3, {long} of more, {tied} tied")
    }

    /// Takes the answer in; it must be "a shortest such path; of equally short ones, the
    /// smallest sheet by sheet" of all paths.
    fn enter(&mut self, given: Option<&[u32]>, all: &[Vec<u32>]) {
        let Some(given) = given else {
            assert!(all.is_empty());
            self.clear += 1;
            return;
        };
        assert!(all.iter().any(|path| path == given));
        assert!(all.iter().all(|path| path.len() >= given.len()));
        let short = all.iter().filter(|path| path.len() == given.len());
        assert!(short.clone().all(|path| sheet_by_sheet(given, path)));
        self.sheets[given.len()] += 1;
        self.tied += u32::from(short.count() > 1);
    }
}

/// Is a path the same as the other, or smaller at the first sheet where they differ?
fn sheet_by_sheet(path: &[u32], other: &[u32]) -> bool {
    let differ = path.iter().zip(other).find(|(mine, theirs)| mine != theirs);
    differ.map_or(true, |(mine, theirs)| mine < theirs)
}

/// All paths from a sheet of `starts` to one of `ends` that have no sheet twice.
fn all_paths(next: &[u32], starts: u32, ends: u32) -> Vec<Vec<u32>> {
    let mut found = Vec::new();
    let mut open = vec![(Vec::new(), starts)];
    while let Some((path, on)) = open.pop() {
        for t in (0..next.len()).filter(|t| has(on, *t) && !path.contains(&(*t as u32))) {
            let longer = [&path[..], &[t as u32]].concat();
            if has(ends, t) {
                found.push(longer.clone());
            }
            open.push((longer, next[t]));
        }
    }
    found
}

fn mask(draw: &mut Draw, count: usize, percent: u32) -> u32 {
    (0..count).fold(0, |mask, k| mask | u32::from(draw.below(100) < percent) << k)
}

/// Graphs of up to 7 sheets.
pub fn on_graphs(seed: u64, graphs: u32) -> Met {
    let mut draw = Draw::new(seed);
    let mut met = Met::default();
    for _ in 0..graphs {
        let k = 2 + draw.below(6) as usize;
        let percent = [15, 25, 40][draw.below(3) as usize];
        let next = (0..k).map(|_| mask(&mut draw, k, percent)).collect::<Vec<u32>>();
        let starts = mask(&mut draw, k, 20);
        let ends = mask(&mut draw, k, 15) & !starts;
        let given = explain::path(k, starts, ends, |c, d| has(next[c], d));
        met.enter(given.as_deref(), &all_paths(&next, starts, ends));
    }
    met
}

/// Desks of 5 or 6 sheets whose run has done job 0. Each of the other jobs is explained, and
/// the step on a copy must go with the answer.
pub fn on_desks(seed: u64, desks: u32) -> Met {
    let mut draw = Draw::new(seed);
    let mut met = Met::default();
    for _ in 0..desks {
        let (words, s) = any_desk(&mut draw);
        let lines = 1 + words[s.mark_at(0)];
        for job in 1..words[s.run_at(0) + JOBS] {
            (0..lines).for_each(|line| explain_one(&words, s, [job, line], &mut met));
        }
    }
    met
}

/// One job on a line: its explain, and the step on a copy.
fn explain_one(words: &[u32], s: Sizes, [job, line]: [u32; 2], met: &mut Met) {
    let answer = explain(words, 0, job, line);
    match (&answer, step(&mut words.to_vec(), 0, job, line)) {
        (Answer::Refused(number), due) => assert_eq!(due, Answer::Refused(*number)),
        (Answer::Path(path), Answer::Broken(broken)) => {
            assert!(has(broken, path[path.len() - 1] as usize));
            met.enter(Some(path), &paths_of(words, s, job as usize, line as usize));
        }
        (Answer::Clear, Answer::Ok(_)) => {
            met.enter(None, &paths_of(words, s, job as usize, line as usize));
        }
        (given, due) => panic!("explain {given:?}, step {due:?}"),
    }
}

/// All paths of a job by the request's words. The shelf as the step's fetch would leave it is
/// had by one fetch after the other.
fn paths_of(words: &[u32], s: Sizes, job: usize, line: usize) -> Vec<Vec<u32>> {
    let run = s.run_at(0);
    let jobs = words[run + JOB_LIST..].chunks(3).take(words[run + JOBS] as usize);
    let plan = jobs.fold(0, |plan, job| plan | job[1]);
    let (office, reads) = (words[run + JOB_LIST + 3 * job], words[run + JOB_LIST + 3 * job + 1]);
    let shelf = |k| s.shelf_at(office as usize, k);
    let card = |k| s.words(words, s.line_card_at(0, line, k));
    let lacks = (0..s.k).filter(|k| has(reads, *k) && !held(card(*k))).collect::<Vec<usize>>();
    let mut after = words.to_vec();
    for k in lacks.iter().filter(|k| !held(s.words(words, shelf(**k)))) {
        assert!(matches!(fetch(&mut after, office, *k as u32), Answer::Ok(_)));
    }
    let mut next = vec![0; s.k];
    for t in 0..s.k {
        let version = s.words(&after, shelf(t));
        for d in (0..s.k).filter(|d| has(plan, *d) && held(s.words(&after, shelf(*d)))) {
            let need = row(version, s.w, d);
            if needs(version, s.w, t, d) && !meets(card(d), s.w, d, need) {
                next[t] |= 1 << d;
            }
        }
    }
    let read = words[s.read_at(0, line)];
    all_paths(&next, lacks.iter().fold(0, |mask, k| mask | 1 << k), read)
}

/// A desk in form with few needs, and a run of three or four jobs that has read some sheets.
fn any_desk(draw: &mut Draw) -> (Vec<u32>, Sizes) {
    let (mut words, s) = crate::marked::fresh(5 + draw.below(2), 2, 2, 1);
    for k in 0..s.k {
        version(draw, &mut words, s, s.master_at(k), k, 90);
        version(draw, &mut words, s, s.shelf_at(0, k), k, 80);
        version(draw, &mut words, s, s.shelf_at(1, k), k, 40);
    }
    let run = s.run_at(0);
    let read = mask(draw, s.k, 10) | 1 << draw.below(s.k as u64);
    let jobs = 3 + draw.below(2);
    for (at, word) in [(STATE, OPEN), (JOBS, jobs), (DONE, 1), (READ, read)] {
        words[run + at] = word;
    }
    words[run + JOB_LIST + 1] = read;
    let mut plan = read;
    for job in 1..jobs as usize {
        let reads = mask(draw, s.k, [0, 15, 25, 80][job]);
        words[run + JOB_LIST + 3 * job] = draw.below(2);
        words[run + JOB_LIST + 3 * job + 1] = reads;
        plan |= reads;
    }
    words[s.mark_at(0)] = draw.below(2);
    if words[s.mark_at(0)] == FORKED {
        words[s.read_at(0, 1)] = read & mask(draw, s.k, 70);
    }
    for line in 0..1 + words[s.mark_at(0)] as usize {
        for k in (0..s.k).filter(|k| has(plan, *k)) {
            let percent = if has(words[s.read_at(0, line)], k) { 100 } else { 20 };
            version(draw, &mut words, s, s.line_card_at(0, line, k), k, percent);
        }
    }
    crate::marked::put_marks(&mut words, s);
    assert!(in_form(&words).is_some());
    (words, s)
}

/// In so many of a hundred cases a held version of sheet k with small counts and few needs.
fn version(draw: &mut Draw, words: &mut [u32], s: Sizes, at: usize, k: usize, percent: u32) {
    if draw.below(100) >= percent {
        return;
    }
    words[at + NUMBER] = 1 + draw.below(9);
    words[at + LEADERS] = 1 + draw.below(3);
    let rows = mask(draw, s.k, 25) | 1 << k;
    for d in (0..s.k).filter(|d| has(rows, *d)) {
        words[at + PAST + d * s.w] = 1 + draw.below(2);
        words[at + PAST + 1 + d * s.w] = draw.below(2);
    }
}
