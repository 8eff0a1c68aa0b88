//! Month totals, a second time: the call worked out plainly from the words that ask for it, months
//! made for it by seed, and what they show.

pub mod broken;
pub mod chosen;
pub mod coverage;
pub mod damaged;
pub mod generate;
#[cfg(feature = "link")]
pub mod linked;
pub mod plain;
mod reports;
pub mod speed;
pub mod stored;
mod transfers;

pub use plain::{Answer, ROW, TRANSFER};

/// What goes into a call.
#[derive(Clone, Debug, PartialEq, Eq)]
pub struct Call {
    pub report: Vec<u8>,
    pub rows: usize,
    pub fed: u32,
    pub transfers: Vec<u8>,
}

/// What comes out of it: the answer, and every byte of the report.
#[derive(Clone, Debug, PartialEq, Eq)]
pub struct Reply {
    pub answer: Answer,
    pub report: Vec<u8>,
}

/// What a call has to get.
pub fn answered(call: &Call) -> Reply {
    let mut report = call.report.clone();
    let answer = plain::month(&mut report, call.rows, call.fed, &call.transfers);
    Reply { answer, report }
}
