//! The five lent names. The original compares data with constants such as `SWAP_BASE_IN[..]`; here
//! such a constant says where the name stands in the 88 bytes lent for the run.

use crate::real;
use std::cell::Cell;
use std::ops::{Index, RangeFull};

/// All five names: three of 8 bytes, two of 32.
pub type Names = [u8; 88];

/// A constant of the original whose value is lent.
pub struct Name {
    start: usize,
    end: usize,
}

pub const SWAP_BASE_IN: Name = Name { start: 0, end: 8 };
pub const SWAP_BASE_OUT: Name = Name { start: 8, end: 16 };
pub const BUY: Name = Name { start: 16, end: 24 };
pub const STONKFUN_STANDARD_PLATFORM_CONFIG: Name = Name { start: 24, end: 56 };
pub const STONKFUN_REWARD_PLATFORM_CONFIG: Name = Name { start: 56, end: 88 };

thread_local! {
    static LENT: Cell<&'static Names> = const { Cell::new(&[0; 88]) };
}

impl Index<RangeFull> for Name {
    type Output = [u8];

    fn index(&self, _whole: RangeFull) -> &[u8] {
        &LENT.get()[self.start..self.end]
    }
}

/// Lends names to the runs that follow on this thread. Other names than the last ones stay in memory
/// for good: 88 bytes for each change.
pub fn lend(names: &Names) {
    if LENT.get() != names {
        LENT.set(Box::leak(Box::new(*names)));
    }
}

/// The values that the source itself gives.
pub fn real() -> Names {
    let parts: [&[u8]; 5] = [
        &real::SWAP_BASE_IN,
        &real::SWAP_BASE_OUT,
        &real::BUY,
        &real::STONKFUN_STANDARD_PLATFORM_CONFIG.0,
        &real::STONKFUN_REWARD_PLATFORM_CONFIG.0,
    ];
    parts.concat().try_into().expect("three names of 8 bytes and two of 32")
}
