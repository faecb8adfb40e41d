//! Audits of generated records: the rule on sets, the walk back and the ledger must agree, and a
//! careful history is accepted.

use crate::audited::all_ways;
use crate::desk::record::Record;
use crate::desk::Answer;
use crate::random::Random;
use crate::records::{history, shape};
use crate::spoiled::any_record;

/// How many records were accepted, named an issue, were unreadable; and the most issues of one.
#[derive(Default)]
pub struct Met {
    accepted: u64,
    named: u64,
    unreadable: u64,
    longest: usize,
}

impl Met {
    pub fn print(&self) -> String {
        let Met { accepted, named, unreadable, longest } = self;
        let told = format!("{accepted} accepted, {named} named, {unreadable} unreadable");
        format!("{told}, up to {longest} issues")
    }

    fn enter(&mut self, record: &[u32], answer: &Answer) {
        match answer {
            Answer::Ok(numbers) if numbers[0] == 0 => self.accepted += 1,
            Answer::Ok(_) => self.named += 1,
            _ => self.unreadable += 1,
        }
        if let Some(read) = Record::read(record) {
            self.longest = self.longest.max(read.issues.len());
        }
    }
}

/// Any records, some long ones; then careful histories.
pub fn compare(seed: u64, records: u64) -> Met {
    let (mut random, mut met) = (Random::new(seed), Met::default());
    for number in 0..records {
        let most = if number % 50 == 0 { 120 } else { 12 };
        let record = any_record(&mut random, most);
        let answer = all_ways(&record);
        met.enter(&record, &answer);
        cut_short(&mut random, &record, &answer);
    }
    for _ in 0..records / 10 {
        let drawn = shape(&mut random, 30, 0);
        let record = history(&mut random, drawn);
        let words = record.words().expect("it fits");
        assert_eq!(Record::read(&words), Some(record), "{words:?}");
        assert_eq!(all_ways(&words), Answer::Ok(vec![0]), "{words:?}");
        met.enter(&words, &Answer::Ok(vec![0]));
    }
    let Met { accepted, named, unreadable, .. } = met;
    assert!([accepted, named, unreadable].iter().all(|count| *count > records / 10));
    met
}

/// The first issues of a record are judged as in the whole one.
fn cut_short(random: &mut Random, record: &[u32], answer: &Answer) {
    let (Some(mut read), Answer::Ok(numbers)) = (Record::read(record), answer) else {
        return;
    };
    read.issues.truncate(random.below(read.issues.len() + 1));
    let kept = read.issues.len() as u32;
    let due = if numbers[0] <= kept { numbers[0] } else { 0 };
    assert_eq!(all_ways(&read.words().expect("it fits")), Answer::Ok(vec![due]), "{record:?}");
}
