//! "The program": one line of text to one call, and an answer to one line.

use crate::desk::{self, formed, Answer, Sizes};

/// The words that the program lends.
pub const LENT: usize = 16_384;
/// The most bytes of a line.
pub const LONGEST: usize = 400;

/// One of the twenty calls with its numbers; a step or explain always has its line.
#[derive(Clone, PartialEq, Eq, Debug)]
pub enum Call {
    New([u32; 4]),
    Open(u32, Vec<u32>),
    Fetch(u32, u32),
    Evict(u32, u32),
    Prepare(u32),
    Step(u32, u32, u32),
    Issue(u32, u32, u32),
    Drop(u32),
    Look(u32, u32, u32),
    Explain(u32, u32, u32),
    Stale(u32),
    Admit,
    Allow(u32, u32),
    Pick,
    MayHold(u32, u32),
    MaySave(u32, u32),
    Fork(u32),
    Join(u32),
    Forecast(u32),
    /// The words of a record.
    Audit(Vec<u32>),
}

impl Call {
    /// Its word and all its numbers.
    fn parts(&self) -> (&'static str, Vec<u32>) {
        match self {
            Call::New(sizes) => ("new", sizes.to_vec()),
            Call::Open(run, list) => ("open", [&[*run][..], list].concat()),
            Call::Fetch(office, sheet) => ("fetch", vec![*office, *sheet]),
            Call::Evict(office, sheet) => ("evict", vec![*office, *sheet]),
            Call::Prepare(run) => ("prepare", vec![*run]),
            Call::Step(run, job, line) => ("step", vec![*run, *job, *line]),
            Call::Issue(run, writer, mask) => ("issue", vec![*run, *writer, *mask]),
            Call::Drop(run) => ("drop", vec![*run]),
            Call::Look(place, number, sheet) => ("look", vec![*place, *number, *sheet]),
            Call::Explain(run, job, line) => ("explain", vec![*run, *job, *line]),
            Call::Stale(office) => ("stale", vec![*office]),
            Call::Admit => ("admit", Vec::new()),
            Call::Allow(office, number) => ("allow", vec![*office, *number]),
            Call::Pick => ("pick", Vec::new()),
            Call::MayHold(office, mask) => ("mayhold", vec![*office, *mask]),
            Call::MaySave(writer, mask) => ("maysave", vec![*writer, *mask]),
            Call::Fork(run) => ("fork", vec![*run]),
            Call::Join(run) => ("join", vec![*run]),
            Call::Forecast(run) => ("forecast", vec![*run]),
            Call::Audit(record) => ("audit", record.clone()),
        }
    }

    pub fn name(&self) -> &'static str {
        self.parts().0
    }

    pub fn numbers(&self) -> Vec<u32> {
        self.parts().1
    }

    /// The line that it is read from; line 0 of a run is left out.
    pub fn line(&self) -> String {
        let (name, numbers) = self.parts();
        match (self, numbers.as_slice()) {
            (Call::Step(..) | Call::Explain(..), [front @ .., 0]) => listed(name, front),
            _ => listed(name, &numbers),
        }
    }

    /// Whether it only answers: it writes nothing, whatever the answer is.
    pub fn only_answers(&self) -> bool {
        let asked = matches!(self, Call::Look(..) | Call::Stale(_) | Call::Admit);
        asked || matches!(self, Call::Explain(..) | Call::Forecast(_) | Call::Audit(_))
    }

    /// The run that it is about, if it is about one.
    pub fn run(&self) -> Option<u32> {
        match self {
            Call::Open(run, _) | Call::Prepare(run) | Call::Step(run, ..) => Some(*run),
            Call::Issue(run, ..) | Call::Drop(run) | Call::Explain(run, ..) => Some(*run),
            Call::Fork(run) | Call::Join(run) | Call::Forecast(run) => Some(*run),
            _ => None,
        }
    }
}

/// The call that a line holds (without its line end), or nothing if it is unread.
pub fn read_line(line: &[u8]) -> Option<Call> {
    if line.len() > LONGEST {
        return None;
    }
    let mut words = line.split(|byte| *byte == b' ');
    let name = words.next()?;
    let numbers = words.map(read_number).collect::<Option<Vec<u32>>>()?;
    match (name, numbers.as_slice()) {
        (b"new", [k, w, n, p]) => Some(Call::New([*k, *w, *n, *p])),
        (b"open", [run, list @ ..]) => Some(Call::Open(*run, list.to_vec())),
        (b"fetch", [office, sheet]) => Some(Call::Fetch(*office, *sheet)),
        (b"evict", [office, sheet]) => Some(Call::Evict(*office, *sheet)),
        (b"prepare", [run]) => Some(Call::Prepare(*run)),
        // A line is "0 if left out".
        (b"step", [run, job]) => Some(Call::Step(*run, *job, 0)),
        (b"step", [run, job, line]) => Some(Call::Step(*run, *job, *line)),
        (b"issue", [run, writer, mask]) => Some(Call::Issue(*run, *writer, *mask)),
        (b"drop", [run]) => Some(Call::Drop(*run)),
        (b"look", [place, number, sheet]) => Some(Call::Look(*place, *number, *sheet)),
        (b"explain", [run, job]) => Some(Call::Explain(*run, *job, 0)),
        (b"explain", [run, job, line]) => Some(Call::Explain(*run, *job, *line)),
        (b"stale", [office]) => Some(Call::Stale(*office)),
        (b"admit", []) => Some(Call::Admit),
        (b"allow", [office, number]) => Some(Call::Allow(*office, *number)),
        (b"pick", []) => Some(Call::Pick),
        (b"mayhold", [office, mask]) => Some(Call::MayHold(*office, *mask)),
        (b"maysave", [writer, mask]) => Some(Call::MaySave(*writer, *mask)),
        (b"fork", [run]) => Some(Call::Fork(*run)),
        (b"join", [run]) => Some(Call::Join(*run)),
        (b"forecast", [run]) => Some(Call::Forecast(*run)),
        (b"audit", record) => Some(Call::Audit(record.to_vec())),
        _ => None,
    }
}

/// "A number is digits only, leading zeros allowed", up to 4,294,967,295.
fn read_number(word: &[u8]) -> Option<u32> {
    if word.is_empty() {
        return None;
    }
    let mut value: u32 = 0;
    for byte in word {
        if !byte.is_ascii_digit() {
            return None;
        }
        value = value.checked_mul(10)?.checked_add(u32::from(byte - b'0'))?;
    }
    Some(value)
}

/// Hands a call to the desk.
pub fn run(words: &mut [u32], call: &Call) -> Answer {
    // As many words again are lent as a scratch: in the program 16,384.
    let scratch = if matches!(call, Call::Forecast(_)) { words.len() } else { 0 };
    match call {
        Call::New([k, w, n, p]) => desk::new(words, *k, *w, *n, *p),
        Call::Audit(record) => desk::audit(record),
        _ => match desk::in_form(words) {
            None => Answer::Refused(desk::NOT_IN_FORM),
            Some(s) => run_formed(words, s, call, &mut vec![0; scratch]),
        },
    }
}

/// Hands a call to a desk that is in form, of these sizes; it isn't tested again.
pub fn run_formed(words: &mut [u32], s: Sizes, call: &Call, scratch: &mut [u32]) -> Answer {
    match call {
        Call::New([k, w, n, p]) => desk::new(words, *k, *w, *n, *p),
        Call::Open(run, list) => formed::open(words, s, *run, list),
        Call::Fetch(office, sheet) => formed::fetch(words, s, *office, *sheet),
        Call::Evict(office, sheet) => formed::evict(words, s, *office, *sheet),
        Call::Prepare(run) => formed::prepare(words, s, *run),
        Call::Step(run, job, line) => formed::step(words, s, *run, *job, *line),
        Call::Issue(run, writer, mask) => formed::issue(words, s, *run, *writer, *mask),
        Call::Drop(run) => formed::drop_run(words, s, *run),
        Call::Look(place, number, sheet) => formed::look(words, s, *place, *number, *sheet),
        Call::Explain(run, job, line) => formed::explain(words, s, *run, *job, *line),
        Call::Stale(office) => formed::stale(words, s, *office),
        Call::Admit => formed::admit(words, s),
        Call::Allow(office, number) => formed::allow(words, s, *office, *number),
        Call::Pick => formed::pick(words, s),
        Call::MayHold(office, mask) => formed::mayhold(words, s, *office, *mask),
        Call::MaySave(writer, mask) => formed::maysave(words, s, *writer, *mask),
        Call::Fork(run) => formed::fork(words, s, *run),
        Call::Join(run) => formed::join(words, s, *run),
        Call::Forecast(run) => formed::forecast(words, s, scratch, *run),
        Call::Audit(record) => desk::audit(record),
    }
}

/// What an answer begins with: a word in the program, its place in this list in the library.
pub const ANSWERS: [&str; 9] = [
    "ok", "broken", "refused", "clear", "path", "nothing", "through", "breaks", "turned",
];

impl Answer {
    /// The answer as the library writes it: what it begins with, then its numbers.
    pub fn words(&self) -> Vec<u32> {
        match self {
            Answer::Ok(numbers) => [&[0][..], numbers].concat(),
            Answer::Broken(mask) => vec![1, *mask],
            Answer::Refused(number) => vec![2, *number],
            Answer::Clear => vec![3],
            Answer::Path(sheets) => [&[4][..], sheets].concat(),
            Answer::Nothing => vec![5],
            Answer::Through => vec![6],
            Answer::Breaks(job, mask) => vec![7, *job, *mask],
            Answer::Turned(job, number) => vec![8, *job, *number],
        }
    }

    /// The answer that the library wrote; nothing if these are no answer's words.
    pub fn of(words: &[u32]) -> Option<Answer> {
        match words {
            [0, numbers @ ..] => Some(Answer::Ok(numbers.to_vec())),
            [1, mask] => Some(Answer::Broken(*mask)),
            [2, number] => Some(Answer::Refused(*number)),
            [3] => Some(Answer::Clear),
            [4, sheets @ ..] => Some(Answer::Path(sheets.to_vec())),
            [5] => Some(Answer::Nothing),
            [6] => Some(Answer::Through),
            [7, job, mask] => Some(Answer::Breaks(*job, *mask)),
            [8, job, number] => Some(Answer::Turned(*job, *number)),
            _ => None,
        }
    }
}

/// The line that is printed for an answer, without its line end.
pub fn print(answer: &Answer) -> String {
    let words = answer.words();
    listed(ANSWERS[words[0] as usize], &words[1..])
}

/// A word and numbers, one space apart.
fn listed(word: &str, numbers: &[u32]) -> String {
    let mut line = String::from(word);
    for number in numbers {
        line.push(' ');
        line.push_str(&number.to_string());
    }
    line
}

/// Takes the line end off, if there is one.
pub fn without_end(line: &[u8]) -> &[u8] {
    line.strip_suffix(b"\n").unwrap_or(line)
}
