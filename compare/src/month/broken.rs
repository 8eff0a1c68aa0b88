//! The month totals with deliberate breaks, each of which the comparison has to notice.

use super::{Call, Reply};
use original::switch::choose;

#[allow(warnings)]
mod copy {
    include!(concat!(env!("OUT_DIR"), "/broken_month.rs"));
}

pub use copy::BREAKS;

/// What a call gets with one of the breaks, or with none.
pub fn answered(broken: Option<usize>, call: &Call) -> Reply {
    choose(broken);
    let mut report = call.report.clone();
    let copy::Answer { number, place, rows, fed } =
        copy::month(&mut report, call.rows, call.fed, &call.transfers);
    Reply { answer: super::Answer { number, place, rows, fed }, report }
}
