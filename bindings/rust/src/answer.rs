//! The numbers that a call returns.

use crate::Refusal;

/// Number 0 and counts, or a refusal's number and place with all counts 0.
///
/// ```
/// use mbelaguy::{Answer, Refusal, Table};
///
/// let answer = Answer { number: 8, place: 2, ..Answer::default() };
/// assert_eq!(answer.refusal(), Some(Refusal::Room(Table::Transfers)));
/// assert_eq!(Answer::refused(Refusal::Room(Table::Transfers)), answer);
/// assert_eq!(Answer::default().refusal(), None);
/// ```
#[repr(C)]
#[derive(Clone, Copy, Debug, Default, PartialEq, Eq)]
pub struct Answer {
    /// 0, or the refusal's number.
    pub number: u32,
    /// The section or table that a refusal is about, else 0.
    pub place: u32,
    /// Rows of tables 0 to 4.
    pub counts: [u32; 5],
    /// Passes over the plain transfers, the last one, which adds nothing, included.
    pub passes: u32,
    /// How often one invocation was tested for lying below another.
    pub tests: u32,
}

impl Answer {
    /// The answer of a refused call.
    pub fn refused(refusal: Refusal) -> Self {
        Answer { number: refusal.number(), place: refusal.place(), ..Answer::default() }
    }

    /// The refusal, if it is one.
    pub fn refusal(&self) -> Option<Refusal> {
        refusal(self.number, self.place)
    }
}

/// What a feed of transfers returns: number 0, or a refusal's number with rows and fed as they went in.
///
/// ```
/// use mbelaguy::{MonthAnswer, Refusal};
///
/// let answer = MonthAnswer { number: 9, rows: 2, fed: 3, ..MonthAnswer::default() };
/// assert_eq!(answer.refusal(), Some(Refusal::ReportRows));
/// assert_eq!(MonthAnswer::default().refusal(), None);
/// ```
#[repr(C)]
#[derive(Clone, Copy, Debug, Default, PartialEq, Eq)]
pub struct MonthAnswer {
    /// 0, or the refusal's number.
    pub number: u32,
    /// 0, refused or not.
    pub place: u32,
    /// Used rows of the report.
    pub rows: u64,
    /// Transfers fed into it, from the first on.
    pub fed: u32,
}

impl MonthAnswer {
    /// The refusal, if it is one.
    pub fn refusal(&self) -> Option<Refusal> {
        refusal(self.number, self.place)
    }
}

fn refusal(number: u32, place: u32) -> Option<Refusal> {
    (number != 0).then(|| Refusal::of(number, place))
}
