//! Case A of the specification, an explained break with stale marks, rival saves, rights, two lines,
//! a forecast and a text of calls through the Rust wrapper; ends with 1 if an answer is not as
//! written.

mod sheetdesk;

use sheetdesk::{compare, covers, merge, words, LINE_ROOM};
use sheetdesk::{Answer, Desk, Job, Look, Place, Refusal, Standing};

fn job(office: u32, reads: u32, upstream: u32) -> Job {
    Job { office, reads, upstream }
}

/// The calls of case A and their answers, a line each.
fn case_a(desk: &mut Desk) -> Vec<(Answer, &'static str)> {
    vec![
        (desk.new(2, 2, 2, 1), "ok 119"),
        (desk.open(0, &[job(0, 0, 0)]), "ok 1"),
        (desk.step(0, 0), "ok 0 0 0"),
        (desk.issue(0, 0, 3), "ok 1"),
        (desk.fetch(0, 0), "ok 3"),
        (desk.open(0, &[job(0, 1, 0)]), "ok 1"),
        (desk.step(0, 0), "ok 0 1 0"),
        (desk.issue(0, 1, 2), "ok 2"),
        (desk.open(0, &[job(0, 1, 0), job(1, 2, 1)]), "ok 2"),
        (desk.step(0, 1), "refused 6"),
        (desk.step(0, 0), "ok 0 1 0"),
        (desk.step(0, 1), "ok 2 0 0"),
        (desk.look(Place::Card(0), 1), "ok 1 1 1 0 1"),
        (desk.fetch(1, 1), "ok 3"),
        (desk.evict(0, 1), "ok 3"),
        // Besides case A: the calls that it lacks.
        (desk.prepare(0), "refused 6"),
        (desk.drop(0), "ok 0"),
        (desk.look(Place::Master, 1), "ok 2 2 1 1 0"),
        (desk.look(Place::Shelf(0), 1), "refused 8"),
    ]
}

/// A run has read sheet 0, both sheets are saved together, and its next job reads sheet 1. Then
/// office 0 has an older sheet 0, and office 1 has none.
fn explained(desk: &mut Desk) -> Vec<(Answer, &'static str)> {
    vec![
        (desk.new(2, 2, 2, 2), "ok 173"),
        (desk.open(1, &[job(0, 0, 0)]), "ok 1"),
        (desk.step(1, 0), "ok 0 0 0"),
        (desk.issue(1, 0, 1), "ok 1"),
        (desk.open(0, &[job(0, 1, 0), job(1, 2, 0)]), "ok 2"),
        (desk.explain(0, 0), "clear"),
        (desk.step(0, 0), "ok 0 0 1"),
        (desk.open(1, &[job(0, 0, 0)]), "ok 1"),
        (desk.step(1, 0), "ok 0 0 0"),
        (desk.issue(1, 0, 3), "ok 2"),
        (desk.explain(0, 1), "path 1 0"),
        (desk.step(0, 1), "broken 1"),
        (desk.explain(0, 1), "refused 4"),
        (desk.stale(0), "ok 1"),
        (desk.stale(1), "ok 0"),
        (desk.stale(2), "refused 3"),
        (desk.pick(), "nothing"),
        (desk.open(1, &[job(0, 0, 0)]), "ok 1"),
        (desk.pick(), "ok 1 0"),
        (desk.allow(1, 1), "ok 0"),
        (desk.fetch(1, 1), "refused 12"),
        (desk.allow(1, 2), "ok 0"),
        (desk.fetch(1, 1), "ok 3"),
    ]
}

/// A writer saves a sheet without having read the other's: both lead, until one has read both.
fn rivals(desk: &mut Desk) -> Vec<(Answer, &'static str)> {
    vec![
        (desk.new(1, 2, 1, 1), "ok 68"),
        (desk.open(0, &[job(0, 0, 0)]), "ok 1"),
        (desk.step(0, 0), "ok 0 0 0"),
        (desk.issue(0, 0, 1), "ok 1"),
        (desk.look(Place::Master, 0), "ok 1 1 1 0 0"),
        (desk.open(0, &[job(0, 0, 0)]), "ok 1"),
        (desk.step(0, 0), "ok 0 0 0"),
        (desk.issue(0, 1, 1), "ok 2"),
        (desk.look(Place::Master, 0), "ok 2 3 1 1 0"),
        (desk.open(0, &[job(0, 1, 0)]), "ok 1"),
        (desk.step(0, 0), "ok 0 0 1"),
        (desk.issue(0, 0, 1), "ok 3"),
        (desk.look(Place::Master, 0), "ok 3 1 2 1 0"),
    ]
}

/// Sheets 0 and 1 are saved together, so each needs the other: office 0 loses both with the right to
/// hold sheet 0. Then the writer loses the right to save sheet 1.
fn rights(desk: &mut Desk) -> Vec<(Answer, &'static str)> {
    vec![
        (desk.new(2, 1, 1, 1), "ok 80"),
        (desk.open(0, &[job(0, 0, 0)]), "ok 1"),
        (desk.step(0, 0), "ok 0 0 0"),
        (desk.issue(0, 0, 3), "ok 1"),
        (desk.fetch(0, 1), "ok 3"),
        (desk.mayhold(0, 2), "ok 0"),
        (desk.look(Place::Shelf(0), 1), "refused 8"),
        (desk.fetch(0, 1), "refused 13"),
        (desk.mayhold(0, 3), "ok 0"),
        (desk.fetch(0, 1), "ok 3"),
        (desk.maysave(0, 1), "ok 0"),
        (desk.open(0, &[job(0, 0, 0)]), "ok 1"),
        (desk.step(0, 0), "ok 0 0 0"),
        (desk.issue(0, 0, 2), "refused 13"),
        (desk.issue(0, 0, 1), "ok 2"),
    ]
}

/// Offices 0 and 1 have two versions of sheet 0.
fn two_versions(desk: &mut Desk) -> Vec<(Answer, &'static str)> {
    vec![
        (desk.new(2, 1, 2, 2), "ok 137"),
        (desk.open(0, &[job(0, 0, 0)]), "ok 1"),
        (desk.step(0, 0), "ok 0 0 0"),
        (desk.issue(0, 0, 1), "ok 1"),
        (desk.fetch(0, 0), "ok 1"),
        (desk.open(0, &[job(0, 0, 0)]), "ok 1"),
        (desk.step(0, 0), "ok 0 0 0"),
        (desk.issue(0, 0, 1), "ok 2"),
        (desk.fetch(1, 0), "ok 1"),
    ]
}

/// A run reads one version on each line, so that they can't be joined. The next one reads on line 0
/// alone, and is joined.
fn lines(desk: &mut Desk) -> Vec<(Answer, &'static str)> {
    vec![
        (desk.open(0, &[job(0, 1, 0), job(1, 1, 0)]), "ok 2"),
        (desk.step_on(0, 1, 1), "refused 14"),
        (desk.fork(0), "ok 0"),
        (desk.step(0, 0), "ok 0 1 0"),
        (desk.explain_on(0, 1, 0), "clear"),
        (desk.explain_on(0, 1, 1), "clear"),
        (desk.step_on(0, 1, 1), "ok 0 1 0"),
        (desk.issue(0, 0, 2), "refused 14"),
        (desk.join(0), "broken 1"),
        (desk.drop(0), "ok 0"),
        (desk.open(0, &[job(0, 1, 0), job(0, 0, 0)]), "ok 2"),
        (desk.fork(0), "ok 0"),
        (desk.step_on(0, 0, 0), "ok 0 1 0"),
        (desk.step_on(0, 1, 1), "ok 0 0 0"),
        (desk.join(0), "ok 0"),
        (desk.fork(0), "refused 14"),
        (desk.issue(0, 0, 2), "ok 3"),
    ]
}

/// Office 0 has an older sheet 0 than the one that sheet 1 needs.
fn behind(desk: &mut Desk) -> Vec<(Answer, &'static str)> {
    vec![
        (desk.new(2, 1, 2, 1), "ok 91"),
        (desk.open(0, &[job(0, 0, 0)]), "ok 1"),
        (desk.step(0, 0), "ok 0 0 0"),
        (desk.issue(0, 0, 1), "ok 1"),
        (desk.fetch(0, 0), "ok 1"),
        (desk.open(0, &[job(0, 0, 0)]), "ok 1"),
        (desk.step(0, 0), "ok 0 0 0"),
        (desk.issue(0, 0, 3), "ok 2"),
    ]
}

/// So a run that reads both would break, or find no room; once office 0 has fetched again it goes
/// through.
fn foretold(desk: &mut Desk, scratch: &mut [u32]) -> Vec<(Answer, &'static str)> {
    vec![
        (desk.forecast(0, scratch), "refused 4"),
        (desk.open(0, &[job(0, 1, 0), job(1, 2, 0)]), "ok 2"),
        (desk.forecast(0, &mut scratch[1..]), "refused 1"),
        (desk.forecast(0, scratch), "breaks 1 1"),
        (desk.allow(1, 1), "ok 0"),
        (desk.forecast(0, scratch), "turned 1 12"),
        (desk.fetch(0, 0), "ok 3"),
        (desk.forecast(0, scratch), "through"),
        (desk.step(0, 0), "ok 0 1 0"),
        (desk.step(0, 1), "ok 2 0 0"),
    ]
}

/// Rows (2,0) and (1,3) are rivals, and their merge is (2,3), which is newer than (1,3).
fn clocks() -> bool {
    let mut target = [2, 0];
    compare(&target, &[1, 3]) == Some(Standing::Rival)
        && compare(&target, &[1]).is_none()
        && covers(&target, &[1, 3]) == Some(false)
        && covers(&target, &[1]).is_none()
        && !merge(&mut target, &[1])
        && merge(&mut target, &[1, 3])
        && target == [2, 3]
        && compare(&target, &[1, 3]) == Some(Standing::Newer)
        && covers(&target, &[1, 3]) == Some(true)
}

/// The first calls of case A as a text, with an `out` that has room for one answer or two at once.
/// The last line lacks its line feed, so it isn't taken.
fn text_of_calls(desk: &mut Desk, scratch: &mut [u32]) -> bool {
    let text = "new 2 2 2 1\nopen 0 0 0 0\nstep 0 0\nissue 0 0 3\nfetch 0 0\n\
                no call\nforecast 0\nstale 0";
    let due = "ok 119\nok 1\nok 0 0 0\nok 1\nok 3\nunread\nrefused 4\n";
    let (mut rest, mut answers) = (text.as_bytes(), Vec::new());
    let mut out = [0; LINE_ROOM + 8];
    loop {
        let ran = desk.run(rest, &mut out, scratch);
        if ran.taken == 0 {
            break;
        }
        answers.extend_from_slice(&out[..ran.put]);
        rest = &rest[ran.taken..];
    }
    print!("{}", String::from_utf8_lossy(&answers));
    rest == b"stale 0" && answers == due.as_bytes()
}

/// Whether each answer is as written behind it.
fn as_written(answers: Vec<(Answer, &'static str)>) -> bool {
    let mut good = true;
    for (answer, due) in answers {
        let given = answer.to_string();
        if given != due {
            println!("wrong: {given} for {due}");
            good = false;
        }
    }
    good
}

fn main() {
    let mut lent = [0; words(2, 2, 2, 1)];
    let mut desk = Desk::lend(&mut lent);
    let mut good = clocks();
    good &= desk.look(Place::Master, 0) == Answer::Refused(Refusal::NotInForm);
    good &= as_written(case_a(&mut desk));
    let seen = Look { issue: 2, leaders: 2, clock: &[1, 1], standing: Standing::Equal };
    good &= desk.look(Place::Master, 1).look() == Some(seen);
    good &= desk.look(Place::Shelf(0), 1).look().is_none();
    good &= desk.look(Place::Master, 1).standing() == Some(Standing::Equal);
    // Words that are saved and lent again; then with a last issue number (word 4) that is behind.
    let mut back = desk.words().to_vec();
    good &= Desk::lend(&mut back).admit().ok() == Some(&[0]);
    back[4] = 0;
    good &= Desk::lend(&mut back).admit() == Answer::Refused(Refusal::NotAdmitted);
    good &= as_written(explained(&mut Desk::lend(&mut [0; words(2, 2, 2, 2)])));
    good &= as_written(rivals(&mut Desk::lend(&mut [0; words(1, 2, 1, 1)])));
    good &= as_written(rights(&mut Desk::lend(&mut [0; words(2, 1, 1, 1)])));
    let mut third = [0; words(2, 1, 2, 2)];
    let mut forked = Desk::lend(&mut third);
    good &= as_written(two_versions(&mut forked)) && as_written(lines(&mut forked));
    let (mut fourth, mut scratch) = ([0; words(2, 1, 2, 1)], [0; words(2, 1, 2, 1)]);
    let mut stepped = Desk::lend(&mut fourth);
    good &= as_written(behind(&mut stepped)) && as_written(foretold(&mut stepped, &mut scratch));
    // The steps left what was foretold.
    good &= stepped.words() == scratch;
    let (mut fifth, mut aside) = ([0; words(2, 2, 2, 1)], [0; words(2, 2, 2, 1)]);
    good &= text_of_calls(&mut Desk::lend(&mut fifth), &mut aside);
    println!("example.rs: {}", if good { "case A answered as written" } else { "wrong answers" });
    std::process::exit(if good { 0 } else { 1 });
}
