//! The comparison: the original Rust as an oracle, packs made for it by seed, and the checks that
//! tie the two together. Needs the source folder of the original at build time.

pub mod calls;
pub mod checks;
pub mod chosen;
pub mod damaged;
pub mod generate;
pub mod grids;
pub mod inputs;
pub mod library;
pub mod listing;
pub mod month;
pub mod oracle;
pub mod sample;
pub mod shares;
pub mod speed;
pub mod stored;
pub mod tree;

use std::process::ExitCode;

/// Prints the closing line of a comparison, which `./test` adds up: a success only if nothing failed.
pub fn close(passed: usize, failed: usize) -> ExitCode {
    println!("{passed} passed, {failed} failed");
    if failed == 0 {
        ExitCode::SUCCESS
    } else {
        ExitCode::FAILURE
    }
}
