//! What is checked about the oracle and the packs made for it, before anything is compared with them.

pub mod cases;
pub mod chosen;
pub mod coverage;
pub mod damaged;
pub mod grids;
pub mod ids;
pub mod inputs;
pub mod invariants;
pub mod months;
pub mod mutants;
pub mod order;
pub mod packs;
pub mod refusals;
pub mod rows;
pub mod sample;

use std::fmt::Debug;

/// An example by name.
pub type Example = (&'static str, fn() -> Outcome);

/// Nothing, or what is wrong.
pub type Outcome = Result<(), String>;

fn same<T: PartialEq + Debug>(what: &str, found: T, expected: T) -> Outcome {
    if found == expected {
        Ok(())
    } else {
        Err(format!("{what}: found {found:?}, expected {expected:?}"))
    }
}

fn hold(what: &str, holds: bool) -> Outcome {
    if holds {
        Ok(())
    } else {
        Err(format!("{what}: does not hold"))
    }
}
