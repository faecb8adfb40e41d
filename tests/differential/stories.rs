//! One story and what follows it.

use crate::admitted;
use crate::arguments::{any_call, room, scratch, sizes};
use crate::audited;
use crate::book::Book;
use crate::built;
use crate::clocks;
use crate::damaged;
use crate::desk::{in_form, Answer, Sizes};
use crate::met::{Met, Source};
use crate::pair::{Pair, ANSWER, MARK};
use crate::random::Random;
use crate::teller::Teller;
use crate::text::{self, Call};
use crate::texts;
use crate::{everyday, odd, plots, rights, rounds, small};

/// Desks over so many words get shorter stories and fewer single calls.
const LARGE: usize = 20_000;

pub fn all_of_one(random: &mut Random, story: u64, met: &mut Met) -> Result<(), String> {
    // Some stories are of the largest desk.
    let counts = if story % 400 == 7 { [32, 16, 8, 8] } else { sizes(random) };
    let total = Sizes::of(counts[0], counts[1], counts[2], counts[3]).map_or(0, |s| s.total());
    let rounds = if total > LARGE { 2 } else { 8 };
    let pair = tell(random, counts, total, met)?;
    met.largest = met.largest.max(total);
    for _ in 0..rounds {
        single_calls(random, &mut pair.clone(), Source::Reached, met)?;
        let mut changed = pair.clone();
        damaged::damage(random, &mut changed);
        single_calls(random, &mut changed, Source::Damaged, met)?;
    }
    let mut short = pair.clone();
    let most = random.one_of(&[3, total]);
    short.shorten(total.saturating_sub(1 + random.below(most)));
    single_calls(random, &mut short, Source::Short, met)?;
    admitted::read_back(random, &pair, met)?;
    let spare = random.below(4);
    let Some(words) = built::desk(random, counts, spare) else {
        return Ok(());
    };
    let mut built = Pair::of(&words);
    for _ in 0..rounds {
        single_calls(random, &mut built.clone(), Source::Built, met)?;
    }
    merging_calls(random, &built, counts, met)?;
    single_calls(random, &mut built, Source::Built, met)?;
    let words = built::noise(random, counts);
    single_calls(random, &mut Pair::of(&words), Source::Noise, met)?;
    audited::drawn(random, story, met)?;
    clocks::on_two(random, met)?;
    texts::after(random, story, &pair, counts, met)
}

/// A story of calls that are steered like the generated scripts.
fn tell(
    random: &mut Random,
    counts: [u32; 4],
    total: usize,
    met: &mut Met,
) -> Result<Pair, String> {
    let lent = total + random.below(4);
    let mut pair = Pair::lend(lent);
    let mut teller = Teller::new(random.next());
    teller.words = vec![MARK; lent];
    if random.chance(10) {
        odd::before_new(&mut teller);
    }
    teller.tell("new", &counts);
    let lines = if total > LARGE { 30 } else { 20 + random.below(155) as u64 };
    for k in 0..counts[0] as usize {
        if random.chance(if total > LARGE { 20 } else { 60 }) {
            plots::publish(&mut teller, k, 0);
        }
    }
    let start = teller.counts.lines;
    while teller.counts.lines < start + lines {
        plot(&mut teller);
    }
    let mut book = None::<Book>;
    for line in teller.script.split(|byte| *byte == b'\n') {
        if let Some(call) = text::read_line(line) {
            let answer = pair.call(&call, ANSWER)?;
            met.enter(Source::Story, &call, &answer);
            let ok = matches!(answer, Some(Answer::Ok(_)));
            match (&call, &mut book) {
                (Call::New(sizes), _) if ok && total <= LARGE => book = Some(Book::new(*sizes)),
                (_, Some(book)) => _ = book.feed(&call, ok),
                _ => {}
            }
        }
    }
    if let Some(book) = book {
        audited::own(&book, met)?;
    }
    met.rivals += teller.counts.rivals;
    Ok(pair)
}

/// A few calls that belong together, as the generated scripts have them.
fn plot(teller: &mut Teller) {
    match teller.below(100) {
        number @ 0..=57 => plots::of_runs(teller, number),
        58..=64 => everyday::fetch_and_evict(teller),
        65..=68 => small::small_shelf(teller),
        69..=72 => rounds::dispatch(teller),
        73..=76 => rights::joint_project(teller),
        77..=85 => everyday::any_call(teller),
        _ => odd::refused(teller),
    }
}

/// Each run of a built desk forecast, joined, forecast again, prepared, and issued if it can be:
/// merges of versions that no list of calls leads to.
fn merging_calls(
    random: &mut Random,
    built: &Pair,
    [k, w, _, p]: [u32; 4],
    met: &mut Met,
) -> Result<(), String> {
    for run in 0..p {
        let mut pair = built.clone();
        let (writer, mask) = (random.below(w as usize) as u32, random.mask(k as usize, 60));
        let (forecast, prepare) = (Call::Forecast(run), Call::Prepare(run));
        let issue = Call::Issue(run, writer, mask);
        for call in [forecast.clone(), Call::Join(run), forecast, prepare, issue] {
            let answer = pair.call(&call, ANSWER)?;
            met.enter(Source::Built, &call, &answer);
        }
    }
    Ok(())
}

/// One to four calls of any kind on one desk.
fn single_calls(
    random: &mut Random,
    pair: &mut Pair,
    source: Source,
    met: &mut Met,
) -> Result<(), String> {
    if in_form(pair.words()).is_some() {
        met.in_form[source as usize] += 1;
    }
    for _ in 0..1 + random.below(4) {
        let call = any_call(random, pair.words());
        if matches!(call, Call::Forecast(_)) {
            pair.lend_scratch(scratch(random, pair.words()));
        }
        let answer = pair.call(&call, room(random))?;
        let asked = matches!(call, Call::Forecast(_)) && in_form(pair.words()).is_some();
        met.short_scratches += u64::from(asked && answer == Some(Answer::Refused(1)));
        met.enter(source, &call, &answer);
    }
    Ok(())
}
