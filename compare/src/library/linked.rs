//! Calls in this process.

use super::{Verdict, TOLD};
use crate::generate::Case;
use crate::oracle::Reply;
use mbelaguy::{room, route_into, WIDTHS};

/// What tables are filled with before a call.
const OTHER: u8 = 165;

pub struct Library(Verdict);

impl Library {
    pub fn start() -> Result<Self, String> {
        Ok(Library(Verdict::default()))
    }

    pub fn call(&mut self, case: &Case, reply: &Reply) -> Result<(), String> {
        if let Some(what) = difference(case, reply) {
            if self.0.different < TOLD {
                self.0.told.push((self.0.answers, what));
            }
            self.0.different += 1;
        }
        self.0.answers += 1;
        Ok(())
    }

    pub fn end(self) -> Result<Verdict, String> {
        Ok(self.0)
    }
}

fn difference(case: &Case, reply: &Reply) -> Option<String> {
    let mut tables = case.lengths.map(|length| vec![OTHER; length]);
    let answer = route_into(&case.names, &case.pack, tables.each_mut().map(Vec::as_mut_slice));
    if answer != reply.answer {
        return Some(format!("other numbers: {answer:?}, expected {:?}", reply.answer));
    }
    if let Some(other) = (0..5).find(|&t| tables[t] != reply.tables[t]) {
        return Some(format!("another table {other}"));
    }
    let lent: [usize; 5] = std::array::from_fn(|t| case.lengths[t] / WIDTHS[t]);
    let suffices = match (reply.answer.number, room(&case.pack)) {
        (0, Ok(rows)) => (0..5).all(|t| reply.answer.counts[t] as usize <= rows[t]),
        (2..=6 | 11, Err(refusal)) => Some(refusal) == reply.answer.refusal(),
        (8, Ok(rows)) => lent[reply.answer.place as usize] < rows[reply.answer.place as usize],
        // Whatever the names are: of other refusals nothing is said.
        (number, _) => number == 1 || number == 7,
    };
    (!suffices).then(|| format!("other room: {:?}", room(&case.pack)))
}
