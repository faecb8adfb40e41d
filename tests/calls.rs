//! A script's calls through the Rust wrapper, for `record.rs` and `wrapper.rs`.

use crate::sheetdesk::{audit, Answer, Desk, Job, Place};

/// Makes the call of a line; nothing for a line that the wrapper has no form for.
pub fn call(desk: &mut Desk, line: &str) -> Option<Answer> {
    let mut words = line.split(' ');
    let name = words.next()?;
    let number = |word: &str| word.parse().ok().filter(|_| !word.starts_with('+'));
    let numbers = words.map(number).collect::<Option<Vec<u32>>>()?;
    Some(match (name, numbers.as_slice()) {
        ("new", &[k, w, n, p]) => desk.new(k, w, n, p),
        ("open", [run, list @ ..]) if list.len() % 3 == 0 => {
            let job = |three: &[u32]| Job { office: three[0], reads: three[1], upstream: three[2] };
            desk.open(*run, &list.chunks(3).map(job).collect::<Vec<Job>>())
        }
        ("fetch", &[office, sheet]) => desk.fetch(office, sheet),
        ("evict", &[office, sheet]) => desk.evict(office, sheet),
        ("prepare", &[run]) => desk.prepare(run),
        ("step", &[run, job]) => desk.step(run, job),
        ("step", &[run, job, line]) => desk.step_on(run, job, line),
        ("explain", &[run, job]) => desk.explain(run, job),
        ("explain", &[run, job, line]) => desk.explain_on(run, job, line),
        ("issue", &[run, writer, mask]) => desk.issue(run, writer, mask),
        ("drop", &[run]) => desk.drop(run),
        ("stale", &[office]) => desk.stale(office),
        ("admit", &[]) => desk.admit(),
        ("pick", &[]) => desk.pick(),
        ("allow", &[office, number]) => desk.allow(office, number),
        ("mayhold", &[office, mask]) => desk.mayhold(office, mask),
        ("maysave", &[writer, mask]) => desk.maysave(writer, mask),
        ("fork", &[run]) => desk.fork(run),
        ("join", &[run]) => desk.join(run),
        ("forecast", &[run]) => {
            let mut scratch = vec![0; desk.words().len()];
            desk.forecast(run, &mut scratch)
        }
        ("audit", record) => audit(record),
        ("look", &[0, 0, sheet]) => desk.look(Place::Master, sheet),
        ("look", &[1, office, sheet]) => desk.look(Place::Shelf(office), sheet),
        ("look", &[2, run, sheet]) => desk.look(Place::Card(run), sheet),
        _ => return None,
    })
}
