//! Whether the comparison notices an answer that is not the right one.

use super::{hold, same, Outcome};
use crate::damaged::{answers, rows_in_all_tables};
use crate::library::{Library, TOLD};

/// Right answers pass; with one number or one byte of one table changed they do not.
pub fn noticed() -> Outcome {
    let (case, reply) = rows_in_all_tables();
    let mut library = Library::start()?;
    library.call(&case, &reply)?;
    let damaged = answers(&reply);
    for (damaged, _) in &damaged {
        library.call(&case, damaged)?;
    }
    library.call(&case, &reply)?;
    let verdict = library.end()?;
    same("answers", verdict.answers, damaged.len() + 2)?;
    same("damaged answers", verdict.different, damaged.len())?;
    same("damaged answers that are told of", verdict.told.len(), TOLD)?;
    for ((number, told), (expected, (_, what))) in verdict.told.iter().zip((1..).zip(&damaged)) {
        same("the number of a damaged answer", *number, expected)?;
        hold("what differs is told", told.starts_with(what))?;
    }
    Ok(())
}
