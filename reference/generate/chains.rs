//! Breaks with a path of several sheets: layers of sheets, each drawn against the next one, of
//! which the last was read too old.

use crate::desk::layout::has;
use crate::desk::reads::step_view;
use crate::desk::sets::leads;
use crate::desk::{in_form, FREE};
use crate::plots::{end_run, free_run, publish_by};
use crate::teller::Teller;

/// The sheets of a plot, each with a writer of its own: a writer's past ties its sheets together.
struct Chain {
    run: u32,
    other: usize,
    here: u32,
    there: u32,
    /// From the reads that will break to the sheets that are read first.
    layers: Vec<Vec<usize>>,
    /// In the order of their writers; the first one may be in no layer.
    sheets: Vec<usize>,
}

impl Chain {
    fn writer(&self, sheet: usize) -> usize {
        self.sheets.iter().position(|other| *other == sheet).unwrap_or(0)
    }

    /// The layers between the first and the last.
    fn middle(&self) -> Vec<usize> {
        self.layers[1..self.layers.len() - 1].concat()
    }

    fn first(&self) -> &[usize] {
        &self.layers[0]
    }

    fn last(&self) -> &[usize] {
        &self.layers[self.layers.len() - 1]
    }

    /// A new version that was drawn against nothing.
    fn bare(&self, t: &mut Teller, sheets: &[usize]) {
        for sheet in sheets {
            publish_by(t, self.other, self.writer(*sheet), 1 << sheet, 0);
        }
    }

    /// A new version that was drawn against what the master has of these sheets now.
    fn against(&self, t: &mut Teller, sheet: usize, reads: u32) {
        for k in (0..32).filter(|k| has(reads, *k)) {
            t.tell("fetch", &[self.here, k as u32]);
        }
        let (other, writer) = (self.other as u32, self.writer(sheet) as u32);
        t.tell("open", &[other, self.here, reads, 0]);
        t.tell("step", &[other, 0]);
        t.tell("issue", &[other, writer, 1 << sheet]);
    }
}

fn mask(sheets: &[usize]) -> u32 {
    sheets.iter().fold(0, |mask, k| mask | 1 << k)
}

/// Some of the sheets, at least one.
fn some_of(t: &mut Teller, sheets: &[usize]) -> u32 {
    let one = 1 << sheets[t.below(sheets.len())];
    sheets.iter().fold(one, |mask, k| mask | u32::from(t.chance(50)) << k)
}

/// A desk with three sheets and writers and two runs at least, mostly without a history.
fn suitable_desk(t: &mut Teller) -> bool {
    let suits = |t: &Teller| {
        let s = t.sizes();
        s.k.min(s.w) >= 3 && s.p >= 2
    };
    let s = t.sizes();
    if !suits(t) {
        let sizes = [4 + t.below(4), 4 + t.below(3), 2 + t.below(2), 2 + t.below(2)];
        t.tell("new", &sizes.map(|count| count as u32));
    } else if t.chance(85) {
        t.tell("new", &[s.k, s.w, s.n, s.p].map(|count| count as u32));
    }
    suits(t)
}

/// Sheets in any order, cut into layers; in half of the cases one is left over.
fn draw_chain(t: &mut Teller) -> Chain {
    let s = t.sizes();
    let mut sheets = (0..s.k).collect::<Vec<usize>>();
    for at in 0..s.k {
        let with = at + t.below(s.k - at);
        sheets.swap(at, with);
    }
    sheets.truncate(s.w.min(7));
    let spare = usize::from(sheets.len() > 3 && t.chance(50));
    let layers = cut(t, &sheets[spare..]);
    let run = free_run(t);
    let other = (run + 1) % s.p;
    if t.run_head(other)[0] != FREE {
        t.tell("drop", &[other as u32]);
    }
    let here = t.below(s.n);
    let there = (here + 1) % s.n;
    Chain { run: run as u32, other, here: here as u32, there: there as u32, layers, sheets }
}

/// Three layers or more, of one or two sheets each.
fn cut(t: &mut Teller, sheets: &[usize]) -> Vec<Vec<usize>> {
    let mut layers = Vec::new();
    let mut rest = sheets;
    while !rest.is_empty() {
        let single = 3usize.saturating_sub(layers.len()).max(1);
        let wide = 1 + usize::from(rest.len() > single && t.chance(60));
        layers.push(rest[..wide].to_vec());
        rest = &rest[wide..];
    }
    layers
}

/// "First a read of the job that the card lacks, each next one a plan's sheet .., the last
/// already read", in as many sheets as there are layers.
pub fn explain_a_break(t: &mut Teller) {
    if !suitable_desk(t) {
        return;
    }
    let chain = draw_chain(t);
    let Chain { run, here, there, .. } = chain;
    chain.bare(t, chain.last());
    let carrier = carrier(t, &chain);
    let mut middle = mask(&chain.middle());
    if t.chance(10) {
        middle &= t.next() as u32; // a chain through a sheet outside the plan doesn't count
    }
    let (first, last) = (mask(chain.first()), mask(chain.last()));
    let mut list = vec![run, here, last, 0, there, first, 0, there, middle, 0];
    list.extend(carrier.map_or(Vec::new(), |sheet| vec![here, 1 << sheet, 0]));
    t.tell("open", &list);
    t.tell("step", &[run, 0]);
    if carrier.is_some() {
        t.tell("step", &[run, 3]);
    }
    draw_layers(t, &chain);
    if t.chance(50) || here == there {
        for sheet in chain.middle() {
            t.tell("fetch", &[there, sheet as u32]);
        }
    }
    finish(t, run as usize);
}

/// A sheet outside the layers that was drawn against one of the middle: once it is read, the
/// card carries that one, which isn't read and soon too old.
fn carrier(t: &mut Teller, chain: &Chain) -> Option<usize> {
    let spare = *chain.sheets.iter().find(|k| !chain.layers.concat().contains(*k))?;
    let middle = chain.middle();
    let carried = middle[t.below(middle.len())];
    chain.bare(t, &[carried]);
    chain.against(t, spare, 1 << carried);
    Some(spare)
}

/// Each layer is drawn against versions of the next one that were drawn against nothing: so a
/// sheet needs the next layer alone. What is fetched at the end is newer.
fn draw_layers(t: &mut Teller, chain: &Chain) {
    chain.bare(t, &chain.middle());
    chain.bare(t, chain.last());
    for (layer, next) in chain.layers.iter().zip(&chain.layers[1..]) {
        let crossed = t.chance(40);
        for sheet in layer {
            let reads = if crossed { crossing(layer, next, *sheet) } else { some_of(t, next) };
            chain.against(t, *sheet, reads);
        }
    }
}

/// The layer's lowest sheet goes on to the highest of the next one, the other to the lowest: so of
/// equally short paths the smallest needn't end lowest.
fn crossing(layer: &[usize], next: &[usize], sheet: usize) -> u32 {
    let lowest = layer.iter().all(|other| sheet <= *other);
    let end = if lowest { next.iter().max() } else { next.iter().min() };
    end.map_or(0, |k| 1 << k)
}

/// Explains all jobs, then steps those that are left.
fn finish(t: &mut Teller, run: usize) {
    let jobs = t.run_head(run)[1];
    for job in 0..jobs {
        t.tell("explain", &[run as u32, job]);
    }
    for job in 1..jobs {
        if t.chance(85) {
            t.tell("step", &[run as u32, job]);
        }
    }
    end_run(t, run);
}

/// Of a path: is there another one as short, and does it pass a carried sheet that isn't read?
pub fn tied_and_carried(words: &[u32], step: [u32; 3], path: &[u32]) -> (bool, bool) {
    let Some(s) = in_form(words) else {
        return (false, false);
    };
    let [run, job, line] = step.map(|number| number as usize);
    let view = step_view(words, s, run, job, line);
    let read = words[s.read_at(run, line)];
    // In how many ways so many sheets lead to each sheet; 2 stands for more too.
    let mut ways = (0..s.k).map(|k| u32::from(has(view.off_card, k))).collect::<Vec<u32>>();
    for _ in 1..path.len() {
        let mut longer = vec![0; s.k];
        for (c, d) in (0..s.k).flat_map(|c| (0..s.k).map(move |d| (c, d))) {
            if ways[c] > 0 && leads(words, s, &view, c, d) {
                longer[d] = 2.min(longer[d] + ways[c]);
            }
        }
        ways = longer;
    }
    let ended = (0..s.k).filter(|k| has(read, *k)).map(|k| ways[k]).sum::<u32>();
    let carried = |k: usize| words[s.line_card_at(run, line, k)] != 0 && !has(read, k);
    (ended > 1, path.iter().any(|k| carried(*k as usize)))
}
