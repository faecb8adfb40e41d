//! Audits of records, each with the answer worked out for it: by the rule on sets, by the walk
//! back and by the book's ledger.

use crate::book::recorded::check_audit;
use crate::book::Book;
use crate::desk::{audit, Answer};
use crate::lines::works;
use crate::text::{print, read_line, run, Call, LENT};
use crate::walked;

/// The words of a line.
pub fn words(line: &str) -> Vec<u32> {
    line.split_whitespace().map(|word| word.parse().expect("a number")).collect()
}

/// A record and its answer as it is printed, in all three ways; and with words behind it.
fn told(record: &str, due: &str) {
    let record = words(record);
    assert_eq!(print(&audit(&record)), due, "{record:?}");
    all_ways(&record);
    let total = record.get(6).map_or(0, |total| *total as usize);
    if due != "refused 15" && record.len() == total {
        let behind = [&record[..], &[99, 0, u32::MAX]].concat();
        assert_eq!(print(&audit(&behind)), due, "{record:?}");
        (0..total).for_each(|cut| assert_eq!(all_ways(&record[..cut]), Answer::Refused(15)));
    }
}

/// The answer, which the three ways must agree on.
pub fn all_ways(record: &[u32]) -> Answer {
    let answer = audit(record);
    assert_eq!(walked::audit(record), answer, "{record:?}");
    check_audit(record, &answer).unwrap_or_else(|claim| panic!("{record:?}: {claim}"));
    answer
}

/// The examples that came with the request's page, in its order.
pub fn examples() {
    told("2 2 2 1 7 15 18 0 3 0 0 1 2 0 1 0 1 0", "ok 0");
    told("2 2 2 1 7 15 18 0 3 1 0 1 2 0 1 0 1 0", "refused 15");
    told("1 1 0 0 7 7 7", "ok 0");
    told("1 1 0 0 7 7 7 99 99", "ok 0");
    told("", "refused 15");
    told("1 2 3 2 7 19 25 0 1 0 0 1 1 0 1 0 1 1 1 0 1 0 0 0 1", "ok 3");
    told("1 2 3 2 7 19 25 0 1 0 0 1 1 0 1 0 1 1 1 0 1 0 0 1 1", "ok 0");
    told("2 1 3 2 7 19 23 0 1 0 0 0 3 0 0 0 1 0 2 0 1 1 2", "ok 3");
    told("2 1 3 2 7 19 23 0 1 0 0 0 3 0 0 0 1 0 2 0 2 1 2", "ok 0");
    told("2 1 3 1 7 19 21 0 1 0 0 0 3 0 0 0 1 0 1 1 2", "ok 0");
    told("2 1 3 1 7 19 21 0 1 0 0 0 3 0 0 0 1 0 1 1 1", "refused 15");
    told("1 1 3 1 7 19 21 0 1 0 0 0 1 0 0 0 1 0 1 0 1", "ok 0");
    told("1 1 1 1 7 11 13 0 1 0 1 0 1", "refused 15");
    let chain = "3 3 5 4 7 27 43 0 1 0 0 0 1 0 0 1 2 0 1 2 4 1 1 0 1 2 2 0 2 0 0 1 0 1 0 2 0 0 1";
    told(&format!("{chain} 0 1 0 0"), "ok 5");
    told(&format!("{chain} 0 2 0 0"), "ok 0");
    told("1 1 3 2 7 19 23 0 1 0 0 0 1 0 0 0 1 0 2 0 1 0 1", "ok 0");
    told("1 1 3 2 7 19 23 0 1 0 0 0 1 0 0 0 1 0 2 0 1 0 2", "ok 3");
    told("1 1 1 2147483648 7 11 11 0 1 0 0", "refused 15");
    told("2 1 4 2 7 23 27 0 1 0 0 0 3 0 0 0 1 0 2 0 0 2 0 0 1 1 2", "refused 15");
    told("2 1 4 2 7 23 27 0 1 0 0 0 3 0 0 0 1 0 2 0 1 2 0 0 1 1 2", "ok 3");
}

/// It needs no desk, makes none and leaves one as it is; its word alone is a call, and any count
/// of numbers may follow.
pub fn lines() {
    works(&[
        "audit -> refused 15",
        "audit 1 1 0 0 7 7 7 -> ok 0",
        "fetch 0 0 -> refused 1",
        "new 2 1 1 1 -> ok 80",
        "audit 1 1 1 1 7 11 13 0 1 0 1 0 1 -> refused 15",
        "save 0 0 3 -> ok",
        "audit 1 1 0 0 7 7 7 99 99 -> ok 0",
        "audit 01 1 0 00 7 7 7 -> ok 0",
        "look 0 0 1 -> ok 1 1 1 0",
    ]);
    assert_eq!(read_line(b"audit"), Some(Call::Audit(Vec::new())));
    assert_eq!(read_line(b"audit 4294967295"), Some(Call::Audit(vec![u32::MAX])));
    for line in [&b"audit "[..], b"audit  1", b"audit 1 ", b"audit 4294967296", b"audits 1"] {
        assert_eq!(read_line(line), None);
    }
    let most = [&b"audit"[..], &b" 0".repeat(197)].concat();
    assert_eq!(read_line(&most), Some(Call::Audit(vec![0; 197])));
    assert_eq!(read_line(&[&most[..], b"0"].concat()), Some(Call::Audit(vec![0; 197])));
    assert_eq!(read_line(&[&most[..], b" 0"].concat()), None);
}

/// What makes a record unreadable, one thing each; beside it the same without it.
pub fn unreadable() {
    // K, W; offsets; the total; too few words, in the header too.
    for head in ["0 1 0 0 7 7 7", "33 1 0 0 7 7 7", "1 0 0 0 7 7 7", "1 17 0 0 7 7 7"] {
        told(head, "refused 15");
    }
    for head in ["1 1 0 0 8 7 7", "1 1 0 0 7 8 8 0", "1 1 0 0 7 7 8 0", "1 1 0 0 7 7 6"] {
        told(head, "refused 15");
    }
    told("32 16 0 0 7 7 7", "ok 0");
    told("1 1 1 0 7 11 11 0 1 0 0", "ok 0");
    // A writer, a saved mask, a first read, a number of reads.
    for issue in ["1 1 0 0", "0 0 0 0", "0 2 0 0", "0 1 1 0", "0 1 0 1", "0 3 0 0"] {
        told(&format!("1 1 1 0 7 11 11 {issue}"), "refused 15");
    }
    told("32 16 1 0 7 11 11 15 2147483648 0 0", "ok 0");
    told("31 16 1 0 7 11 11 15 2147483648 0 0", "refused 15");
    // Reads out of their order, in two issues, in none.
    let two = |issues: &str| format!("1 1 3 2 7 19 23 0 1 0 0 {issues} 0 1 0 1");
    told(&two("0 1 0 1 0 1 1 1"), "ok 0");
    for issues in ["0 1 1 1 0 1 0 1", "0 1 0 2 0 1 1 1", "0 1 0 1 0 1 0 1", "0 1 0 1 0 1 1 0"] {
        told(&two(issues), "refused 15");
    }
    told("1 1 0 1 7 7 9 0 1", "refused 15");
    // A sheet, zeros only, a count beyond, one of an issue that did not save the sheet.
    let read = |read: &str| format!("2 2 2 1 7 15 18 0 1 0 0 1 2 0 1 {read}");
    told(&read("0 1 0"), "ok 0");
    for bad in ["2 1 0", "0 0 0", "0 2 0", "0 1 1", "1 1 0", "0 4294967295 0"] {
        told(&read(bad), "refused 15");
    }
}

/// Sums that would fit if they wrapped at 2^32: of the issues' words, of the reads' words, and of
/// the numbers of reads.
pub fn no_wrap() {
    told("1 1 1073741824 0 7 7 7", "refused 15");
    told("1 3 0 1073741824 7 7 7", "refused 15");
    told("1 15 0 268435456 7 7 7", "refused 15");
    told("1 1 2 0 7 15 15 0 1 0 2147483648 0 1 2147483648 2147483648", "refused 15");
    told("1 1 2 0 7 15 15 0 1 0 4294967295 0 1 4294967295 1", "refused 15");
    told("1 1 1 2147483648 7 11 11 0 1 0 2147483648", "refused 15");
    told("1 1 4294967295 4294967295 7 3 1", "refused 15");
    let all = [u32::MAX; 64];
    (0..64).for_each(|len| assert_eq!(all_ways(&all[..len]), Answer::Refused(15)));
}

/// Which saves stand behind a read, one cause each.
pub fn causes() {
    // Writer 0's earlier issue, of another sheet, stands behind its later one.
    let own = "2 2 4 2 7 23 29 0 1 0 0 1 1 0 0 0 2 0 0 1 1 0 2 1 2 0 0";
    told(&format!("{own} 0 1"), "ok 4");
    told(&format!("{own} 1 1"), "ok 0");
    // An issue between, that has nothing to do with the reads, ends no chain.
    let between = "1 3 4 2 7 23 31 0 1 0 0 1 1 0 1 2 1 1 0 0 1 1 1 0 1 0 0 0";
    told(&format!("{between} 0 1 0"), "ok 4");
    told(&format!("{between} 1 1 0"), "ok 0");
    // Rivals: neither stands behind the other; one sheet read as both is no snapshot.
    told("1 2 3 2 7 19 25 0 1 0 0 1 1 0 0 0 1 0 2 0 1 0 0 0 1", "ok 3");
    told("1 2 3 1 7 19 22 0 1 0 0 1 1 0 0 0 1 0 1 0 1 0", "ok 0");
    told("1 2 3 2 7 19 25 0 1 0 0 1 1 0 0 0 1 0 2 0 1 1 0 1 1", "ok 0");
    // The issue that was read saved another sheet that is read too, but older.
    let other = "2 2 3 2 7 19 25 0 2 0 0 1 3 0 0 1 1 0 2 0 0 1";
    told(&format!("{other} 1 1 0"), "ok 3");
    told(&format!("{other} 1 1 1"), "ok 0");
    // Of two issues that are no snapshot the first is named.
    let both = "1 1 4 4 7 23 31 0 1 0 0 0 1 0 0 0 1 0 2 0 1 2 2";
    told(&format!("{both} 0 1 0 2 0 3 0 1"), "ok 3");
    told(&format!("{both} 0 2 0 2 0 3 0 1"), "ok 4");
    told(&format!("{both} 0 2 0 2 0 3 0 3"), "ok 0");
}

/// The record of a list of calls, worked out by hand.
pub fn own_records() {
    let case_a = ["new 2 2 2 1", "open 0 0 0 0", "step 0 0", "issue 0 0 3", "fetch 0 0"];
    let then = ["open 0 0 1 0", "step 0 0", "issue 0 1 2", "open 0 0 1 0 1 2 1", "step 0 0"];
    let due = "2 2 2 1 7 15 18 0 3 0 0 1 2 0 1 0 1 0";
    assert_eq!(own_record(&[case_a, then].concat()), words(due));
    // Sheets 0 and 1 are read at unlike rows; sheet 1 once at an older one than the master's, then
    // as it was fetched again. An issue of no sheet isn't entered.
    let save = |writer: u32, mask: u32| {
        vec!["open 0 0 0 0".into(), "step 0 0".into(), format!("issue 0 {writer} {mask}")]
    };
    let edit = |reads: u32, writer: u32, mask: u32| {
        vec![format!("open 0 0 {reads} 0"), "step 0 0".into(), format!("issue 0 {writer} {mask}")]
    };
    let lines = [
        vec!["new 2 2 1 1".into()], save(0, 1), save(1, 2), save(1, 2), edit(3, 0, 2),
        edit(3, 0, 0), edit(2, 1, 1), vec!["fetch 0 1".to_string()], edit(3, 0, 1),
    ];
    let lines = lines.concat();
    let due = "2 2 6 5 7 31 46 0 1 0 0 1 2 0 0 1 2 0 0 0 2 0 2 1 1 2 1 0 1 3 2 \
               0 1 0 1 0 2 1 0 2 0 1 0 1 2 2";
    assert_eq!(own_record(&lines.iter().map(String::as_str).collect::<Vec<_>>()), words(due));
    // A new begins another one.
    assert_eq!(own_record(&["new 2 2 2 1", "new 3 1 1 1"]), words("3 1 0 0 7 7 7"));
}

/// The record of the book behind some accepted calls, which audit accepts.
fn own_record(lines: &[&str]) -> Vec<u32> {
    let (mut desk, mut book) = (vec![0; LENT], Book::new([1; 4]));
    for line in lines {
        let call = read_line(line.as_bytes()).expect("a call");
        assert!(matches!(run(&mut desk, &call), Answer::Ok(_)), "{line}");
        book.feed(&call, true);
    }
    book.check_record().unwrap();
    let words = book.record().words().expect("it fits");
    assert_eq!(all_ways(&words), Answer::Ok(vec![0]));
    words
}
