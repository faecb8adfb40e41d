//! Many calls at once: the whole lines of a text, on one desk that is tested for form once.

use crate::desk::{self, in_form, Answer, Sizes};
use crate::text::{print, read_line, run_formed, Call};

/// A line is taken only if so many bytes are left, which no answer exceeds.
pub const LINE_ROOM: usize = 384;

/// What was taken and answered.
#[derive(Clone, PartialEq, Eq, Debug, Default)]
pub struct Done {
    /// The bytes of the text taken: "the lines taken, each with its line feed".
    pub taken: usize,
    /// "Their answers, a line each."
    pub answers: Vec<u8>,
}

/// "Makes the calls of a text, a line each, in order, on the desk", with so many bytes for the
/// answers. "Lines are taken one by one from the front until one isn't taken": the line feed is
/// missing, or the room. The scratch is lent to each forecast.
pub fn script(desk: &mut [u32], text: &[u8], room: usize, scratch: &mut [u32]) -> Done {
    let mut form = in_form(desk);
    let mut done = Done::default();
    while room >= done.answers.len() + LINE_ROOM {
        let rest = &text[done.taken..];
        let Some(length) = rest.iter().position(|byte| *byte == b'\n') else {
            break;
        };
        let answer = match read_line(&rest[..length]) {
            Some(call) => print(&make(desk, &mut form, &call, scratch)),
            None => String::from("unread"),
        };
        done.answers.extend_from_slice(answer.as_bytes());
        done.answers.push(b'\n');
        done.taken += length + 1;
    }
    done
}

/// Makes one call; the form is the desk's sizes, or nothing if it isn't in form. "A new that is
/// accepted makes it a desk", and every other call leaves the form as it is.
fn make(
    desk: &mut [u32],
    form: &mut Option<Sizes>,
    call: &Call,
    scratch: &mut [u32],
) -> Answer {
    match (call, *form) {
        (Call::New([k, w, n, p]), _) => {
            let answer = desk::new(desk, *k, *w, *n, *p);
            if matches!(answer, Answer::Ok(_)) {
                *form = Sizes::of(*k, *w, *n, *p);
            }
            answer
        }
        (Call::Audit(record), _) => desk::audit(record),
        (_, None) => Answer::Refused(desk::NOT_IN_FORM),
        (_, Some(s)) => run_formed(desk, s, call, scratch),
    }
}
