//! Breaks: for each sheet that the run has read and the call would move, the path that leads a
//! step there, with the versions of its sheets; a join has none, there two lines have two versions.

use super::copies::{leads, Saves, StepFound};
use super::remedy::Remedy;
use super::told::{Brought, Stepped, Told};
use super::versions::{sheets, Version};
use super::words;

/// A sheet of a path, as it is on the shelf, and the next one: as it needs that, and as the shelf
/// has it.
pub struct Link {
    pub from: Version,
    pub needs: Version,
    pub shelf: Version,
}

/// Why a run breaks over a sheet.
pub struct Chain {
    /// The path of a step.
    pub links: Vec<Link>,
    /// The last sheet as the run had read it.
    pub read: Version,
    /// The line of the step that had read it.
    pub read_at: usize,
    pub run: usize,
    /// The office of the job that breaks the run; 0 of a join.
    pub office: usize,
    pub sentence: String,
    /// Where what the run had read came from.
    pub brought: Vec<Brought>,
    /// Of a join: the sheet on the run's other line.
    pub other: Option<Other>,
    /// Of explain: the step isn't made.
    pub would: bool,
}

/// A sheet on a line's card, and where it came from.
pub struct Other {
    pub version: Version,
    pub brought: Vec<Brought>,
}

/// A call that broke its run: a step, or a join.
pub struct Broken {
    pub run: usize,
    pub step: Option<Stepped>,
    pub remedy: Remedy,
}

/// The path that explain gave for the job, on the desk's copies before the step, and one like it
/// for each other sheet that the step would move.
pub fn chains(told: &Told, run: usize, step: Stepped, path: &[u32], would: bool) -> Vec<Chain> {
    let found = told.book.find_step(run, step.job, step.branch);
    let path = path.iter().map(|k| *k as usize).collect::<Vec<usize>>();
    let moved = sheets(found.set & told.book.runs[run].branches[step.branch].read);
    let others = moved.filter(|k| path.last() != Some(k));
    let others = others.filter_map(|k| path_to(told, run, step.branch, &found, k)).collect();
    let chain = |path: &Vec<usize>| chain(told, run, step, &found.shelf, path, would);
    [vec![path], others].concat().iter().filter_map(chain).collect()
}

/// The shortest path from a sheet that the job reads and the card lacks; of equally short ones the
/// one with the lowest sheets.
fn path_to(
    told: &Told,
    run: usize,
    branch: usize,
    found: &StepFound,
    last: usize,
) -> Option<Vec<usize>> {
    let (book, run) = (&told.book, &told.book.runs[run]);
    let (plan, card) = (run.plan(), &run.branches[branch].card);
    let leads = |c: usize, d: usize| c != d && leads(plan, card, &found.shelf, c, d);
    let mut far = vec![None; book.k];
    far[last] = Some(0);
    for left in 0..book.k {
        for c in sheets(found.set) {
            if far[c].is_none() && sheets(found.set).any(|d| far[d] == Some(left) && leads(c, d)) {
                far[c] = Some(left + 1);
            }
        }
    }
    let starts = sheets(found.off_card).filter_map(|k| far[k].map(|left| (left, k)));
    let (mut left, mut at) = starts.min()?;
    let mut path = vec![at];
    while left > 0 {
        left -= 1;
        at = sheets(found.set).find(|d| far[*d] == Some(left) && leads(at, *d))?;
        path.push(at);
    }
    Some(path)
}

fn chain(
    told: &Told,
    run: usize,
    step: Stepped,
    shelf: &[Saves],
    path: &[usize],
    would: bool,
) -> Option<Chain> {
    let card = &told.book.runs[run].branches[step.branch].card;
    let version = |k: usize, copy: &Saves| told.issues.version(k, copy);
    let mut links = Vec::new();
    for pair in path.windows(2) {
        let (c, d) = (pair[0], pair[1]);
        let save = needing(told, c, &shelf[c], d, &card[d])?;
        let from = Version { sheet: c, issues: vec![save] };
        let needs = told.issues.version_of(d, told.issues.row(save, d));
        links.push(Link { from, needs, shelf: version(d, &shelf[d]) });
    }
    let last = *path.last()?;
    let read = version(last, &card[last]);
    let had = &told.had[run][step.branch];
    let (read_at, brought) = (had.read_at(last).unwrap_or(0), had.brought(last));
    let link = links.last()?;
    let sentence = words::sentence(&format!(
        "{} needs {}; {} had read {}, {}.",
        words::version(&link.from),
        words::version(&link.needs),
        told.who(run, step.branch),
        against(told, &read, &link.needs),
        sources(&brought)
    ));
    let (office, other) = (step.office, None);
    Some(Chain { links, read, read_at, run, office, sentence, brought, other, would })
}

/// Why two lines can't be joined: the one has read the sheet in a version that the other's would
/// move.
pub fn parted(told: &Told, run: usize, sheet: usize) -> Option<Chain> {
    let branches = &told.book.runs[run].branches;
    let copy = |at: usize| &branches[at].card[sheet];
    let moves = |at: &usize| {
        let other = copy(1 - at);
        branches[*at].read >> sheet & 1 == 1 && !copy(*at).meets(sheet, other.row(sheet))
    };
    let at = (0..2).find(moves)?;
    let version = |at: usize| told.issues.version(sheet, copy(at));
    let (had, read) = (&told.had[run][at], version(at));
    let other = Other { version: version(1 - at), brought: told.had[run][1 - at].brought(sheet) };
    let (read_at, brought) = (had.read_at(sheet).unwrap_or(0), had.brought(sheet));
    let sentence = words::sentence(&format!(
        "{} has {}, {}; {} had read {}, {}.",
        told.who(run, 1 - at),
        words::version(&other.version),
        sources(&other.brought),
        told.who(run, at),
        against(told, &read, &other.version),
        sources(&brought)
    ));
    let (links, office, other, would) = (Vec::new(), 0, Some(other), false);
    Some(Chain { links, read, read_at, run, office, sentence, brought, other, would })
}

/// The issue of the first leading save of sheet c's copy that needs sheet d otherwise than the
/// card has it.
fn needing(told: &Told, c: usize, copy: &Saves, d: usize, card: &Saves) -> Option<u32> {
    let leading = told.issues.leading(c, copy.row(c));
    leading.into_iter().find(|save| !card.meets(d, told.issues.row(*save, d)))
}

/// A version that was read, and how it stands to another.
fn against(told: &Told, read: &Version, other: &Version) -> String {
    let had = words::version(read);
    match stands_behind(told, read, other) {
        true => format!("the older {had}"),
        false => format!("{had}, a rival of it"),
    }
}

/// The offices whose shelves brought a sheet onto a card.
fn sources(brought: &[Brought]) -> String {
    let from = |Brought { office, line, .. }: &Brought| {
        format!("the shelf of office {office} at line {line}")
    };
    format!("brought by {}", words::listed(&brought.iter().map(from).collect::<Vec<String>>()))
}

/// Whether each issue of the one version stands behind some issue of the other, or is one.
fn stands_behind(told: &Told, one: &Version, other: &Version) -> bool {
    one.issues.iter().all(|number| {
        let mut later = other.issues.iter();
        later.any(|later| later == number || told.issues.is_behind(*number, *later))
    })
}
