//! Document 01's sheet desk over lent words, written the plainest way.
//!
//! Every call takes a buffer of any length and content and any numbers; audit takes a record's
//! words alone. It answers `Ok` with the answer's numbers, `Broken` (step and join), `Clear` or
//! `Path` (explain alone), `Nothing` (pick alone), `Through`, `Breaks` or `Turned` (forecast
//! alone) or `Refused` with the table's number; a refused call leaves every word.

mod admit;
pub mod allowance;
mod audit;
mod calls;
mod evict;
pub mod explain;
mod forecast;
mod form;
pub mod layout;
mod lines;
mod pick;
pub mod reads;
pub mod record;
pub mod rights;
pub mod sets;
pub mod stale;
mod tested;
pub mod version;

pub use audit::audit;
pub use calls::new;
#[allow(unused_imports)]
pub use form::in_form;
#[allow(unused_imports)]
pub use layout::Sizes;
// Not every program that is built from this file calls all of them.
#[allow(unused_imports)]
pub use tested::*;

/// The calls on a desk that is in form, whose sizes are known: none tests the form, and each
/// leaves it.
pub mod formed {
    pub use super::admit::admit;
    pub use super::allowance::allow;
    pub use super::calls::{drop_run, issue, look, open};
    pub use super::evict::evict;
    pub use super::explain::explain;
    pub use super::forecast::forecast;
    pub use super::lines::{fork, join};
    pub use super::pick::pick;
    pub use super::reads::{fetch, prepare, step};
    pub use super::rights::{mayhold, maysave};
    pub use super::stale::stale;
}

/// What a call gives back.
#[derive(Clone, PartialEq, Eq, Debug)]
pub enum Answer {
    Ok(Vec<u32>),
    Broken(u32),
    Refused(u32),
    /// The step would be answered `Ok`.
    Clear,
    /// The step would be answered `Broken`; the sheets of the path.
    Path(Vec<u32>),
    /// "Nothing to do": no open run has a job to pick.
    Nothing,
    /// "Goes through": each job not done would be answered `Ok`.
    Through,
    /// The first job that would break its run, and the mask.
    Breaks(u32, u32),
    /// The first job that would be turned down, and the number.
    Turned(u32, u32),
}

// The numbers of the table "When a call is turned down".
pub const NOT_IN_FORM: u32 = 1;
pub const BAD_COUNT: u32 = 2;
pub const OUT_OF_RANGE: u32 = 3;
pub const WRONG_STATE: u32 = 4;
pub const BAD_JOBS: u32 = 5;
pub const WRONG_TURN: u32 = 6;
pub const NOT_ON_MASTER: u32 = 7;
pub const NOT_HELD: u32 = 8;
pub const ISSUES_SPENT: u32 = 9;
pub const WRITER_SPENT: u32 = 10;
pub const NOT_ADMITTED: u32 = 11;
pub const OVER_ALLOWANCE: u32 = 12;
pub const NO_RIGHT: u32 = 13;
pub const WRONG_LINE: u32 = 14;
pub const UNREADABLE: u32 = 15;

// A run's states.
pub const FREE: u32 = 0;
pub const OPEN: u32 = 1;
pub const BROKEN: u32 = 2;

/// A run has lines 0 and 1.
pub const LINES: usize = 2;

// A run's marks.
pub const NEVER_FORKED: u32 = 0;
pub const FORKED: u32 = 1;
pub const JOINED: u32 = 2;
