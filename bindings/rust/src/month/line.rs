//! The lines of a month.

use crate::bytes::Reader;
use crate::Key;
use std::slice::ChunksExact;

/// A row of the report: a mint's own line, or that of one of its accounts.
///
/// A transfer's amount is debited to its source's line; its fee, and the rest as credit, stand on its
/// destination's; all three on its mint's. A transfer whose fee is unknown or above its amount is counted
/// apart, on its mint's line alone.
#[derive(Clone, Copy, Debug, PartialEq, Eq)]
pub struct MonthLine {
    /// The mint; none for the transfers without one.
    pub mint: Option<Key>,
    /// The account; none on the mint's own line.
    pub account: Option<Key>,
    /// Amounts that were debited, in the mint's smallest unit.
    pub debits: u128,
    /// What was credited: amounts less fees.
    pub credits: u128,
    /// What was withheld as fees.
    pub fees: u128,
    /// How many transfers were counted apart, and not summed.
    pub apart: u32,
}

impl MonthLine {
    /// The line, if its flags are 0 or 1.
    fn read(row: &[u8]) -> Option<Self> {
        let mut reader = Reader(row);
        let mut optional = || Some((reader.flag()?, reader.key()?));
        let [(has_mint, mint), (has_account, account)] = [optional()?, optional()?];
        Some(MonthLine {
            mint: has_mint.then_some(mint),
            account: has_account.then_some(account),
            debits: reader.u128()?,
            credits: reader.u128()?,
            fees: reader.u128()?,
            apart: reader.u32()?,
        })
    }

    /// Whether sums and count are such as the library takes beside so many transfers fed.
    pub(super) fn is_within(&self, fed: u32) -> bool {
        [self.debits, self.credits, self.fees].iter().all(|sum| sum >> 96 == 0) && self.apart <= fed
    }
}

/// The lines in these rows.
pub(super) struct Lines<'a>(pub ChunksExact<'a, u8>);

impl Iterator for Lines<'_> {
    type Item = MonthLine;

    fn next(&mut self) -> Option<MonthLine> {
        MonthLine::read(self.0.next()?)
    }

    fn size_hint(&self) -> (usize, Option<usize>) {
        self.0.size_hint()
    }
}

impl ExactSizeIterator for Lines<'_> {}
