//! The library's own call, in this process.

use super::generate::Month;
use super::plain::count;
use super::{Answer, Call, Reply};
use crate::checks::Outcome;
use mbelaguy::{month_into, MonthAnswer};

/// Bytes before and behind the buffer that the call must leave.
const AROUND: usize = 61;
const OTHER: u8 = 90;

/// What differs from the right answer, if something does.
pub fn difference(call: &Call, expected: &Reply) -> Option<String> {
    let mut held = vec![OTHER; AROUND + call.report.len() + AROUND];
    let inside = AROUND..AROUND + call.report.len();
    held[inside.clone()].copy_from_slice(&call.report);
    let MonthAnswer { number, place, rows, fed } =
        month_into(&mut held[inside.clone()], call.rows, call.fed, &call.transfers);
    let answer = Answer { number, place, rows, fed };
    if answer != expected.answer {
        return Some(format!("other numbers: {answer:?}, expected {:?}", expected.answer));
    }
    let report = &held[inside.clone()];
    if let Some(at) = (0..report.len()).find(|&at| report[at] != expected.report[at]) {
        return Some(format!("another report: byte {at}"));
    }
    let around = held[..inside.start].iter().chain(&held[inside.end..]);
    (!around.into_iter().all(|byte| *byte == OTHER)).then(|| "bytes outside the report".to_string())
}

/// A month from an empty report on, fed by the Rust crate: its bytes, and how many transfers.
pub fn whole(month: &Month) -> Option<Outcome> {
    let (tables, report) = month.whole.as_ref()?;
    let mut fed = mbelaguy::Month::new();
    for table in tables {
        if let Err(refusal) = fed.feed(table) {
            return Some(Err(format!("the crate's Month: {refusal:?}")));
        }
    }
    let right = fed.bytes() == report && fed.fed() as usize == count(&tables.concat());
    Some(right.then_some(()).ok_or("the crate's Month: another report".to_string()))
}
