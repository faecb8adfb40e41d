//! The sheet desk for Rust: a safe wrapper over the library's exports. Add this file to a crate
//! as a module and link with `-l sheetdesk_c`; README.md shows the line.
//!
//! A [`Desk`] borrows its words; every call takes any numbers and any content, and none panics
//! or allocates. `sheetdesk.h` says what each answer's numbers are, and what may be done with
//! the words.
#![allow(dead_code)]

use std::fmt::{self, Write};

/// The version of the calls: `SHEETDESK_VERSION` of the header.
pub const VERSION: u32 = 12;

/// The version of the desk's words: `SHEETDESK_LAYOUT` of the header. Save it with the words.
pub const LAYOUT: u32 = 7;

/// Words of a slice that holds any answer.
pub const ANSWER_WORDS: usize = 40;

/// Bytes of a line that holds any answer as text, with its line feed.
pub const LINE_ROOM: usize = 384;

/// The words of the largest desk (32 sheets, 16 writers, 8 offices, 8 runs).
pub const MOST_WORDS: usize = 419_699;

/// The words to lend for a desk of so many sheets, writers, offices and runs; 0 if new refuses
/// the counts.
pub const fn words(sheets: u32, writers: u32, offices: u32, runs: u32) -> usize {
    let (k, w, n, p) = (sheets as usize, writers as usize, offices as usize, runs as usize);
    if k < 1 || k > 32 || w < 1 || w > 16 || n < 1 || n > 8 || p < 1 || p > 8 {
        return 0;
    }
    let (version, writer) = (2 + k * w, 1 + k * w);
    10 + k * version * (1 + n + 2 * p) + 2 * n + w * writer + 30 * p + 1 + n + w
}

/// The exports as C has them: a slice is a pointer and a length in words.
pub mod exports {
    // Calls of a desk and numbers, a line each: how the desk is taken, and what the numbers are.
    macro_rules! calls {
        ($($name:ident($desk:ty $(, $number:ident)*);)+) => {
            extern "C" {
                $(pub fn $name(
                    desk: $desk, desk_len: usize, $($number: u32,)*
                    answer: *mut u32, answer_len: usize,
                ) -> u32;)+
            }
        };
    }

    calls! {
        sheetdesk_new(*mut u32, k, w, n, p);
        sheetdesk_fetch(*mut u32, office, sheet);
        sheetdesk_evict(*mut u32, office, sheet);
        sheetdesk_prepare(*mut u32, run);
        sheetdesk_step(*mut u32, run, job);
        sheetdesk_issue(*mut u32, run, writer, mask);
        sheetdesk_drop(*mut u32, run);
        sheetdesk_look(*const u32, place, number, sheet);
        sheetdesk_explain(*const u32, run, job);
        sheetdesk_stale(*const u32, office);
        sheetdesk_admit(*const u32);
        sheetdesk_allow(*mut u32, office, number);
        sheetdesk_pick(*mut u32);
        sheetdesk_mayhold(*mut u32, office, mask);
        sheetdesk_maysave(*mut u32, writer, mask);
        sheetdesk_fork(*mut u32, run);
        sheetdesk_join(*mut u32, run);
        sheetdesk_step_on(*mut u32, run, job, line);
        sheetdesk_explain_on(*const u32, run, job, line);
    }

    extern "C" {
        pub fn sheetdesk_open(
            desk: *mut u32, desk_len: usize, run: u32, jobs: *const u32, jobs_len: usize,
            answer: *mut u32, answer_len: usize,
        ) -> u32;
        pub fn sheetdesk_forecast(
            desk: *const u32, desk_len: usize, scratch: *mut u32, scratch_len: usize, run: u32,
            answer: *mut u32, answer_len: usize,
        ) -> u32;
        pub fn sheetdesk_script(
            desk: *mut u32, desk_len: usize, text: *const u8, text_len: usize,
            out: *mut u8, out_len: usize, scratch: *mut u32, scratch_len: usize,
            counts: *mut usize, counts_len: usize,
        ) -> u32;
        pub fn sheetdesk_audit(
            record: *const u32, record_len: usize, answer: *mut u32, answer_len: usize,
        ) -> u32;
        pub fn sheetdesk_compare(p: *const u32, p_len: usize, q: *const u32, q_len: usize) -> u32;
        pub fn sheetdesk_covers(p: *const u32, p_len: usize, q: *const u32, q_len: usize) -> u32;
        pub fn sheetdesk_merge(
            target: *mut u32, target_len: usize, source: *const u32, source_len: usize,
        ) -> u32;
        pub fn sheetdesk_version() -> u32;
        pub fn sheetdesk_layout() -> u32;
    }
}

use exports::*;

/// The numbers of an answer.
#[derive(Clone, Copy, PartialEq, Eq, Debug)]
pub struct Numbers {
    words: [u32; ANSWER_WORDS],
    count: usize,
}

impl Numbers {
    pub fn as_slice(&self) -> &[u32] {
        self.words.get(1..self.count).unwrap_or(&[])
    }
}

/// What a call gives back.
#[derive(Clone, Copy, PartialEq, Eq, Debug)]
pub enum Answer {
    /// The call was done; its numbers.
    Ok(Numbers),
    /// Step and join alone: the run is broken, with these sheets.
    Broken(u32),
    /// Nothing was changed; why.
    Refused(Refusal),
    /// Explain alone: the step would be ok.
    Clear,
    /// Explain alone: the step would break the run, by these sheets.
    Path(Numbers),
    /// Pick alone: no open run has a job that could be stepped.
    Nothing,
    /// Forecast alone: each step would be ok.
    Through,
    /// Forecast alone: this job would be the first to break the run, with these sheets.
    Breaks { job: u32, mask: u32 },
    /// Forecast alone: this job would be the first to be refused; why.
    Turned { job: u32, refusal: Refusal },
}

/// Why a call is refused, by the header's names.
#[derive(Clone, Copy, PartialEq, Eq, Debug)]
#[non_exhaustive]
pub enum Refusal {
    /// 1: the words or the scratch's are too few, or hold no desk in form.
    NotInForm,
    /// 2: a count of new is out of range.
    BadCount,
    /// 3: an office, sheet, writer, run, place, job or mask is out of range.
    OutOfRange,
    /// 4: the run is not in the state needed.
    WrongState,
    /// 5: open: no job, over 8, or a job that is not valid.
    BadJobs,
    /// 6: a job is done, or one that must be isn't.
    WrongTurn,
    /// 7: a sheet to be fetched isn't held by the master.
    NotOnMaster,
    /// 8: evict, look: the sheet isn't held there.
    NotHeld,
    /// 9: the last issue number is the largest.
    IssuesSpent,
    /// 10: the writer's count is the largest.
    WriterSpent,
    /// 11: admit: in form, but no desk that the calls can have left.
    NotAdmitted,
    /// 12: a shelf would hold more sheets than its allowance.
    OverAllowance,
    /// 13: the office may not hold a sheet, or the writer not save it.
    NoRight,
    /// 14: the run is forked, or isn't, or has no such line.
    WrongLine,
    /// 15: audit: the words are no record, or one that can't be.
    NotReadable,
    /// A number that this wrapper has no name for: the library is newer.
    Other(u32),
}

impl Refusal {
    const NAMED: [Refusal; 15] = [
        Refusal::NotInForm,
        Refusal::BadCount,
        Refusal::OutOfRange,
        Refusal::WrongState,
        Refusal::BadJobs,
        Refusal::WrongTurn,
        Refusal::NotOnMaster,
        Refusal::NotHeld,
        Refusal::IssuesSpent,
        Refusal::WriterSpent,
        Refusal::NotAdmitted,
        Refusal::OverAllowance,
        Refusal::NoRight,
        Refusal::WrongLine,
        Refusal::NotReadable,
    ];

    /// The refusal of a number.
    pub fn of(number: u32) -> Refusal {
        let place = (number as usize).wrapping_sub(1);
        Refusal::NAMED.get(place).copied().unwrap_or(Refusal::Other(number))
    }

    /// The number, as the program prints it.
    pub fn number(self) -> u32 {
        match self {
            Refusal::Other(number) => number,
            named => (1..).zip(Refusal::NAMED).find(|pair| pair.1 == named).map_or(0, |pair| pair.0),
        }
    }
}

/// What a look shows of a version.
#[derive(Clone, Copy, PartialEq, Eq, Debug)]
pub struct Look<'a> {
    /// The number of the last issue in it.
    pub issue: u32,
    /// The mask of leading writers: those whose last save in the version no other save in it
    /// knew of. Two or more are rivals.
    pub leaders: u32,
    /// The version's own clock, one count per writer.
    pub clock: &'a [u32],
    /// How that clock stands against the master's.
    pub standing: Standing,
}

impl Answer {
    /// Of a look: the version.
    pub fn look(&self) -> Option<Look<'_>> {
        match self.ok()? {
            [issue, leaders, clock @ .., standing] if !clock.is_empty() => {
                let standing = Standing::of(*standing)?;
                Some(Look { issue: *issue, leaders: *leaders, clock, standing })
            }
            _ => None,
        }
    }

    /// Of a look: how the version stands against the master's; nothing of any other answer.
    pub fn standing(&self) -> Option<Standing> {
        self.look().map(|look| look.standing)
    }

    /// The numbers of an answer that is ok.
    pub fn ok(&self) -> Option<&[u32]> {
        match self {
            Answer::Ok(numbers) => Some(numbers.as_slice()),
            _ => None,
        }
    }

    /// The sheets of a path, from the first on.
    pub fn path(&self) -> Option<&[u32]> {
        match self {
            Answer::Path(sheets) => Some(sheets.as_slice()),
            _ => None,
        }
    }
}

/// Each number behind a space.
impl fmt::Display for Numbers {
    fn fmt(&self, out: &mut fmt::Formatter) -> fmt::Result {
        self.as_slice().iter().try_for_each(|number| write!(out, " {number}"))
    }
}

/// The line that the program prints.
impl fmt::Display for Answer {
    fn fmt(&self, out: &mut fmt::Formatter) -> fmt::Result {
        match self {
            Answer::Ok(numbers) => write!(out, "ok{numbers}"),
            Answer::Broken(mask) => write!(out, "broken {mask}"),
            Answer::Refused(refusal) => write!(out, "refused {}", refusal.number()),
            Answer::Clear => out.write_str("clear"),
            Answer::Path(sheets) => write!(out, "path{sheets}"),
            Answer::Nothing => out.write_str("nothing"),
            Answer::Through => out.write_str("through"),
            Answer::Breaks { job, mask } => write!(out, "breaks {job} {mask}"),
            Answer::Turned { job, refusal } => write!(out, "turned {job} {}", refusal.number()),
        }
    }
}

/// A job of a run: its office, the sheets that it reads and the jobs that go before it.
#[repr(C)]
#[derive(Clone, Copy, PartialEq, Eq, Debug)]
pub struct Job {
    pub office: u32,
    pub reads: u32,
    pub upstream: u32,
}

/// Where a version is looked at.
#[derive(Clone, Copy, PartialEq, Eq, Debug)]
pub enum Place {
    Master,
    Shelf(u32),
    Card(u32),
}

/// How one clock stands against another.
#[derive(Clone, Copy, PartialEq, Eq, Debug)]
pub enum Standing {
    /// 0: all counts are equal.
    Equal,
    /// 1: some counts are smaller, and none is larger.
    Older,
    /// 2: some counts are larger, and none is smaller.
    Newer,
    /// 3: some counts are larger, and some are smaller.
    Rival,
}

impl Standing {
    /// The standing of a number, the last one of a look.
    pub fn of(number: u32) -> Option<Standing> {
        match number {
            0 => Some(Standing::Equal),
            1 => Some(Standing::Older),
            2 => Some(Standing::Newer),
            3 => Some(Standing::Rival),
            _ => None,
        }
    }
}

/// A desk over lent words.
pub struct Desk<'a> {
    words: &'a mut [u32],
    record: Option<Take<'a>>,
}

/// How many bytes of a text were taken, and how many of answers were put.
#[derive(Clone, Copy, PartialEq, Eq, Debug)]
pub struct Ran {
    pub taken: usize,
    pub put: usize,
}

/// Takes the text of a call and its answer.
pub type Take<'a> = &'a (dyn Fn(&str) + Sync);

/// A call with its answer, as the program's two lines; on the stack.
struct Lines {
    bytes: [u8; 1024],
    length: usize,
}

impl Lines {
    /// Hands them over, if they were written whole.
    fn hand(&self, written: fmt::Result, take: Take) {
        let text = std::str::from_utf8(&self.bytes[..self.length]);
        if let (Ok(()), Ok(text)) = (written, text) {
            take(text);
        }
    }
}

impl fmt::Write for Lines {
    fn write_str(&mut self, text: &str) -> fmt::Result {
        let end = self.length + text.len();
        let room = self.bytes.get_mut(self.length..end).ok_or(fmt::Error)?;
        room.copy_from_slice(text.as_bytes());
        self.length = end;
        Ok(())
    }
}

/// Hands an answer's slice to a call and reads what the call wrote there.
fn answer(call: impl FnOnce(*mut u32, usize) -> u32) -> Answer {
    let mut words = [0; ANSWER_WORDS];
    let count = call(words.as_mut_ptr(), words.len()) as usize;
    match words {
        [0, ..] => Answer::Ok(Numbers { words, count }),
        [1, mask, ..] => Answer::Broken(mask),
        [3, ..] => Answer::Clear,
        [4, ..] => Answer::Path(Numbers { words, count }),
        [5, ..] => Answer::Nothing,
        [6, ..] => Answer::Through,
        [7, job, mask, ..] => Answer::Breaks { job, mask },
        [8, job, number, ..] => Answer::Turned { job, refusal: Refusal::of(number) },
        [_, number, ..] => Answer::Refused(Refusal::of(number)),
    }
}

// Calls that write the desk, a line each: the method, what its numbers are, the export.
macro_rules! writes {
    ($($(#[$doc:meta])* $name:ident($($number:ident),*) = $export:ident;)+) => { $(
        $(#[$doc])*
        pub fn $name(&mut self, $($number: u32),*) -> Answer {
            let (desk, len) = (self.words.as_mut_ptr(), self.words.len());
            let made = answer(|a, n| unsafe { $export(desk, len, $($number,)* a, n) });
            self.hand(made, stringify!($name), &[$($number),*], &[])
        }
    )+ };
}

// The same for those that only answer.
macro_rules! tells {
    ($($(#[$doc:meta])* $name:ident($($number:ident),*) = $export:ident;)+) => { $(
        $(#[$doc])*
        pub fn $name(&self, $($number: u32),*) -> Answer {
            let (desk, len) = (self.words.as_ptr(), self.words.len());
            let made = answer(|a, n| unsafe { $export(desk, len, $($number,)* a, n) });
            self.hand(made, stringify!($name), &[$($number),*], &[])
        }
    )+ };
}

// In each call a pointer goes with the length of what it points to, and the slices don't
// overlap: that is all that the exports ask.
impl<'a> Desk<'a> {
    /// Takes words of any content; a call other than new is refused if they hold no desk.
    pub fn lend(words: &'a mut [u32]) -> Desk<'a> {
        Desk { words, record: None }
    }

    /// Hands each call from now on to `take`, with its answer, as the program's own two lines of
    /// text ("fetch 0 1\nok 3\n"), so that what is written down replays: `./sheetdesk --replay`.
    /// `None` ends it. One log is for one desk, from its new on: the words of a desk that was read
    /// back aren't in it. A forecast that is refused with 1 isn't handed over: a replay's scratch
    /// has room. Of [`Desk::run`] each line is handed over as it stands, once all calls are made,
    /// but for audits and lines that are no call.
    pub fn record(&mut self, take: Option<Take<'a>>) {
        self.record = take;
    }

    /// Hands a call over, if calls are recorded. An open of more than 9 jobs is recorded with 9:
    /// it is refused whatever the others are, for the same cause. A name's first word is the line's.
    fn hand(&self, answer: Answer, name: &str, numbers: &[u32], jobs: &[Job]) -> Answer {
        if let Some(take) = self.record {
            let mut lines = Lines { bytes: [0; 1024], length: 0 };
            let list = jobs.iter().take(9).flat_map(|job| [job.office, job.reads, job.upstream]);
            let mut all = numbers.iter().copied().chain(list);
            let written = lines
                .write_str(name.split('_').next().unwrap_or(name))
                .and_then(|_| all.try_for_each(|number| write!(lines, " {number}")))
                .and_then(|_| write!(lines, "\n{answer}\n"));
            lines.hand(written, take);
        }
        answer
    }

    /// Hands the lines of a text over with their answers, as they stand, if calls are recorded.
    fn hand_lines(&self, text: &[u8], answers: &[u8]) {
        let Some(take) = self.record else { return };
        let end = |byte: &u8| *byte == b'\n';
        for (line, answer) in text.split_inclusive(end).zip(answers.split_inclusive(end)) {
            let scratch = line.starts_with(b"forecast") && answer == b"refused 1\n";
            if scratch || answer == b"unread\n" || line.starts_with(b"audit") {
                continue;
            }
            let both = [line, answer].map(std::str::from_utf8);
            let mut lines = Lines { bytes: [0; 1024], length: 0 };
            if let [Ok(line), Ok(answer)] = both {
                let written = write!(lines, "{line}{answer}");
                lines.hand(written, take);
            }
        }
    }

    pub fn words(&self) -> &[u32] {
        self.words
    }

    writes! {
        /// A fresh desk of so many sheets, writers, offices and runs.
        new(sheets, writers, offices, runs) = sheetdesk_new;
        fetch(office, sheet) = sheetdesk_fetch;
        evict(office, sheet) = sheetdesk_evict;
        prepare(run) = sheetdesk_prepare;
        /// On line 0.
        step(run, job) = sheetdesk_step;
        issue(run, writer, mask) = sheetdesk_issue;
        /// Frees the run (not the desk, which only borrows its words).
        drop(run) = sheetdesk_drop;
        /// Sets how many sheets the office's shelf may hold.
        allow(office, number) = sheetdesk_allow;
        /// Which job to step next: run and job, or nothing.
        pick() = sheetdesk_pick;
        /// Sets which sheets the office may hold; what it holds of the others is evicted there.
        mayhold(office, mask) = sheetdesk_mayhold;
        /// Sets which sheets the writer may save.
        maysave(writer, mask) = sheetdesk_maysave;
        /// Gives the run a second line: its card and what was read are copied.
        fork(run) = sheetdesk_fork;
        /// Makes the run's two lines one, or breaks it, with the sheets that were read and would
        /// become another version.
        join(run) = sheetdesk_join;
        /// A step on line 0 or 1 of a forked run.
        step_on(run, job, line) = sheetdesk_step_on;
    }

    tells! {
        /// What a step of the job would come to: clear, or the path behind the break. On line 0.
        explain(run, job) = sheetdesk_explain;
        /// The same on line 0 or 1 of a forked run.
        explain_on(run, job, line) = sheetdesk_explain_on;
        /// The mask of the sheets on the office's shelf that are behind the master's.
        stale(office) = sheetdesk_stale;
        /// Takes the words back that were saved to a file; the header says what it asks of them.
        admit() = sheetdesk_admit;
    }

    pub fn open(&mut self, run: u32, jobs: &[Job]) -> Answer {
        let (desk, len) = (self.words.as_mut_ptr(), self.words.len());
        // A job is three words in C's layout.
        let (list, count) = (jobs.as_ptr().cast::<u32>(), 3 * jobs.len());
        let made = answer(|a, n| unsafe { sheetdesk_open(desk, len, run, list, count, a, n) });
        self.hand(made, "open", &[run], jobs)
    }

    /// What stepping the run's jobs that aren't done would come to, lowest first: through, or the
    /// first job that breaks the run or is refused. The scratch has at least the desk's total of
    /// words; its first ones become the desk as those steps would leave it, and can be lent in
    /// turn. Those past the total stay, and all of them if the forecast is refused.
    pub fn forecast(&self, run: u32, scratch: &mut [u32]) -> Answer {
        let (desk, len) = (self.words.as_ptr(), self.words.len());
        let (to, room) = (scratch.as_mut_ptr(), scratch.len());
        let made =
            answer(|a, n| unsafe { sheetdesk_forecast(desk, len, to, room, run, a, n) });
        match made {
            Answer::Refused(Refusal::NotInForm) => made,
            _ => self.hand(made, "forecast", &[run], &[]),
        }
    }

    /// Makes the calls of a text, a line each, and puts their answers, a line each, at the front of
    /// `out`: as the program prints them, `unread` for a line that is no call. The desk is tested
    /// for form once. A line is taken if its line feed is in the text and `out` has [`LINE_ROOM`]
    /// bytes left; what isn't taken is to be handed over again. The scratch is for forecasts: as
    /// many words as were lent for the desk always do, and a text without a forecast needs none.
    ///
    /// ```ignore
    /// let mut rest = text;
    /// loop {
    ///     let ran = desk.run(rest, &mut out, &mut scratch);
    ///     if ran.taken == 0 {
    ///         break; // what is left lacks its line feed, or `out` is too short
    ///     }
    ///     stdout().write_all(&out[..ran.put])?;
    ///     rest = &rest[ran.taken..];
    /// }
    /// ```
    pub fn run(&mut self, text: &[u8], out: &mut [u8], scratch: &mut [u32]) -> Ran {
        let (desk, len) = (self.words.as_mut_ptr(), self.words.len());
        let (from, length) = (text.as_ptr(), text.len());
        let (to, room) = (out.as_mut_ptr(), out.len());
        let (aside, count) = (scratch.as_mut_ptr(), scratch.len());
        let mut counts = [0; 2];
        let (laid, two) = (counts.as_mut_ptr(), counts.len());
        unsafe { sheetdesk_script(desk, len, from, length, to, room, aside, count, laid, two) };
        let [taken, put] = counts;
        self.hand_lines(&text[..taken], &out[..put]);
        Ran { taken, put }
    }

    /// The issue number, the leading writers, the own clock, and the standing against the
    /// master's: [`Answer::look`].
    pub fn look(&self, place: Place, sheet: u32) -> Answer {
        let (desk, len) = (self.words.as_ptr(), self.words.len());
        let (place, number) = match place {
            Place::Master => (0, 0),
            Place::Shelf(office) => (1, office),
            Place::Card(run) => (2, run),
        };
        let made = answer(|a, n| unsafe { sheetdesk_look(desk, len, place, number, sheet, a, n) });
        self.hand(made, "look", &[place, number, sheet], &[])
    }
}

/// Whether the library that is linked has this file's calls and layout.
pub fn is_linked_right() -> bool {
    unsafe { sheetdesk_version() == VERSION && sheetdesk_layout() == LAYOUT }
}

/// Audits a record of issues: ok 0 if each read a snapshot, otherwise the number of the first that
/// didn't, from 1; or refused with 15. It is no call on a desk, and isn't recorded.
pub fn audit(record: &[u32]) -> Answer {
    answer(|a, n| unsafe { sheetdesk_audit(record.as_ptr(), record.len(), a, n) })
}

/// How clock p stands against clock q; nothing if the lengths differ or exceed 16.
pub fn compare(p: &[u32], q: &[u32]) -> Option<Standing> {
    Standing::of(unsafe { sheetdesk_compare(p.as_ptr(), p.len(), q.as_ptr(), q.len()) })
}

/// Whether clock p covers clock q; nothing if the lengths differ or exceed 16.
pub fn covers(p: &[u32], q: &[u32]) -> Option<bool> {
    match unsafe { sheetdesk_covers(p.as_ptr(), p.len(), q.as_ptr(), q.len()) } {
        0 => Some(false),
        1 => Some(true),
        _ => None,
    }
}

/// Each count of the target becomes the larger of the two. False, and nothing is changed, if
/// the lengths differ or exceed 16.
pub fn merge(target: &mut [u32], source: &[u32]) -> bool {
    let (to, len) = (target.as_mut_ptr(), target.len());
    unsafe { sheetdesk_merge(to, len, source.as_ptr(), source.len()) == 1 }
}
