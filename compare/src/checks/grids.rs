//! The reasons that the grids meet.

use super::{invariants, same, Outcome};
use crate::grids::{is_token, RESOLVED, UNRESOLVED};
use crate::oracle::Examined;
use original::ids::TOKEN_2022;
use std::collections::BTreeSet;

/// Under which program, by its index, with which first byte of data, which reason.
pub type Met = BTreeSet<(u32, Option<u8>, u8)>;

/// Adds what a pack of the grids meets; its reasons hold to the second way.
pub fn meet(met: &mut Met, examined: &Examined) -> Outcome {
    let reasons = examined.pack.outer.iter().zip(&examined.reasons);
    met.extend(reasons.map(|(one, reason)| (one.program, one.data.first().copied(), *reason)));
    invariants::reasons(examined)
}

/// Every tag and no data under every program, each with every reason that it can have.
pub fn all_met(met: &Met) -> Outcome {
    let missing: Vec<_> = required().difference(met).copied().collect();
    same("program, tag and reason that are not met", missing, vec![])
}

fn required() -> Met {
    let mut required = Met::new();
    for program in RESOLVED.into_iter().chain(UNRESOLVED) {
        for tag in (0..=255).map(Some).chain([None]) {
            let reasons: &[u8] = match tag {
                _ if !is_token(program) => &[1],
                Some(3 | 12) => &[0, 3, 4, 5],
                Some(26) if program == TOKEN_2022 as u32 => &[0, 2, 3, 4, 5],
                _ => &[2],
            };
            required.extend(reasons.iter().map(|reason| (program, tag, *reason)));
        }
    }
    required
}
