//! The library, called with what the oracle answered: in this process where it is linked (the feature
//! `link`), else by the program `replay`, which was proved and built from the same crates.

#[cfg(feature = "link")]
mod linked;
#[cfg(not(feature = "link"))]
mod program;

#[cfg(feature = "link")]
pub use linked::Library;
#[cfg(not(feature = "link"))]
pub use program::Library;

/// How many of the calls that differ are told of: the first ones.
pub const TOLD: usize = 10;

/// What came of the calls.
#[derive(Debug, Default, PartialEq, Eq)]
pub struct Verdict {
    pub answers: usize,
    pub different: usize,
    /// Numbers of calls, from 0 on, and what differs.
    pub told: Vec<(usize, String)>,
}
