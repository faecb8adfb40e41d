//! Compare, covers and merge on two lent clocks of any lengths.

use crate::desk::version::{compare, covers, standing_number, take_larger};
use crate::library;
use crate::met::Met;
use crate::pair::{GUARD, MARK};
use crate::random::Random;

/// "Exceed 16": no desk has more writers.
const MOST: usize = 16;

fn clock(random: &mut Random, len: usize) -> Vec<u32> {
    let small = random.chance(70);
    (0..len).map(|_| if small { random.below(3) as u32 } else { random.word() }).collect()
}

/// A clock that is equal or older or newer: of two drawn apart most are rivals.
fn near(random: &mut Random, clock: &[u32]) -> Vec<u32> {
    let more = random.chance(50);
    let step = |random: &mut Random, count: u32| match (random.below(4), more) {
        (0, true) => count.saturating_add(1),
        (0, false) => count.saturating_sub(1),
        _ => count,
    };
    clock.iter().map(|count| step(random, *count)).collect()
}

pub fn on_two(random: &mut Random, met: &mut Met) -> Result<(), String> {
    for _ in 0..10 {
        let most = random.one_of(&[3, 18, 18, 40]);
        let len = random.below(most);
        let p = clock(random, len);
        let q = match random.below(10) {
            0 | 1 => {
                let other = random.below(most);
                clock(random, other)
            }
            2..=5 => near(random, &p),
            _ => clock(random, len),
        };
        compares(&p, &q, met)?;
        merge(&p, &q)?;
    }
    Ok(())
}

/// Compare and covers, p against q.
fn compares(p: &[u32], q: &[u32], met: &mut Met) -> Result<(), String> {
    let taken = p.len() == q.len() && p.len() <= MOST;
    let standing = if taken { standing_number(compare(p, q)) } else { 4 };
    let covered = if taken { u32::from(covers(p, q)) } else { 2 };
    met.compared[standing as usize] += 1;
    met.covers[covered as usize] += 1;
    for (name, given, due) in [
        ("compare", library::compare(p, q), standing),
        ("covers", library::covers(p, q), covered),
    ] {
        if given != due {
            return Err(format!("# {name} {p:?} {q:?}: library {given}, reference {due}"));
        }
    }
    Ok(())
}

fn merge(p: &[u32], q: &[u32]) -> Result<(), String> {
    let (mut mine, mut theirs) = (p.to_vec(), p.to_vec());
    let due = u32::from(p.len() == q.len() && p.len() <= MOST);
    if due == 1 {
        take_larger(&mut theirs, q);
    }
    mine.extend([MARK; GUARD]);
    theirs.extend([MARK; GUARD]);
    let given = library::merge(&mut mine[..p.len()], q);
    if given != due || mine != theirs {
        return Err(format!("# merge {p:?} {q:?}: library {given} {mine:?}, due {due}"));
    }
    Ok(())
}
