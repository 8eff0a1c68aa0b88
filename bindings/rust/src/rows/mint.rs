//! Table 0: which mint an account had; and the mint that stands beside an amount of another table.

use super::Row;
use crate::bytes::Reader;
use crate::{Key, Table, Tables};
use std::fmt;

/// A row of table 0.
#[derive(Clone, Copy, Debug, PartialEq, Eq)]
pub struct MintRow {
    /// The token account.
    pub account: Key,
    /// Its mint when all evidence was heard.
    pub mint: Key,
    /// How sure that is.
    pub mark: Mark,
}

/// How sure a mint of table 0 is; 0 to 2 in a row.
///
/// A chain runs along plain transfers, followed either way, from an account with one recorded mint
/// through accounts with nothing recorded.
///
/// Every tablet with the same evidence, in whatever order, shows the same accounts and marks, and the
/// same mints but for those in doubt: where no row is in doubt, the same table.
#[derive(Clone, Copy, Debug, PartialEq, Eq)]
pub enum Mark {
    /// A balance, a checked transfer or an initialisation names it.
    Recorded,
    /// A plain transfer carried it here from another account, and chains bring no other mint.
    FilledIn,
    /// Filled in, and chains from two different recorded mints reach the account: another tablet with
    /// the same evidence may show another of them.
    InDoubt,
}

impl Mark {
    /// The marks by their numbers.
    pub const ALL: [Self; 3] = [Self::Recorded, Self::FilledIn, Self::InDoubt];
}

impl fmt::Display for Mark {
    fn fmt(&self, f: &mut fmt::Formatter<'_>) -> fmt::Result {
        f.write_str(match self {
            Self::Recorded => "recorded",
            Self::FilledIn => "filled in",
            Self::InDoubt => "in doubt",
        })
    }
}

/// The mint of the account beside an amount, and how it is known. Its text is how it is known.
///
/// ```
/// use mbelaguy::rows::{Lack, Mark, Mint};
///
/// let sure = |mint: Mint| mint.mark() == Some(Mark::Recorded);
/// assert!(sure(Mint::Marked { key: [7; 32], mark: Mark::Recorded }));
/// assert!(!sure(Mint::Marked { key: [7; 32], mark: Mark::InDoubt }));
/// assert_eq!(Mint::Unknown(Lack::Contradictory).key(), None);
/// assert_eq!(Mint::Unknown(Lack::Contradictory).to_string(), "contradictory evidence");
/// ```
#[derive(Clone, Copy, Debug, PartialEq, Eq)]
pub enum Mint {
    /// Table 0 has it, with this mark.
    Marked {
        /// The mint.
        key: Key,
        /// How sure it is.
        mark: Mark,
    },
    /// Table 0 has no mint of the account, and the swap's own instruction names this one.
    Named {
        /// The mint that the instruction names.
        key: Key,
        /// Why table 0 has none.
        lack: Lack,
    },
    /// Nothing names one.
    Unknown(Lack),
}

/// Why table 0 has no mint of an account.
#[derive(Clone, Copy, Debug, PartialEq, Eq)]
pub enum Lack {
    /// Nothing was recorded of it, and no plain transfer carried a mint to it.
    NoEvidence,
    /// It was recorded with two mints, so that it has none.
    Contradictory,
}

impl Mint {
    /// The mint, if one is named.
    pub fn key(&self) -> Option<Key> {
        match self {
            Self::Marked { key, .. } | Self::Named { key, .. } => Some(*key),
            Self::Unknown(_) => None,
        }
    }

    /// Its mark in table 0, if it has one there.
    pub fn mark(&self) -> Option<Mark> {
        match self {
            Self::Marked { mark, .. } => Some(*mark),
            Self::Named { .. } | Self::Unknown(_) => None,
        }
    }

    /// A transfer's mint, if its row goes with table 0, which alone names it.
    pub(super) fn of_transfer(row: Option<Key>, tables: &Tables, source: &Key) -> Option<Self> {
        let mint = tables.mint(source);
        (row == mint.key()).then_some(mint)
    }

    /// The mint of one side of a leg, if its row goes with table 0, which comes first.
    pub(super) fn of_side(row: Option<Key>, tables: &Tables, account: &Key) -> Option<Self> {
        match (row, tables.mint(account)) {
            (Some(key), Self::Unknown(lack)) => Some(Self::Named { key, lack }),
            (row, mint) => (row == mint.key()).then_some(mint),
        }
    }
}

impl fmt::Display for Mint {
    fn fmt(&self, f: &mut fmt::Formatter<'_>) -> fmt::Result {
        match self {
            Self::Marked { mark, .. } => mark.fmt(f),
            Self::Named { lack, .. } => write!(f, "named by the swap, {lack}"),
            Self::Unknown(lack) => lack.fmt(f),
        }
    }
}

impl fmt::Display for Lack {
    fn fmt(&self, f: &mut fmt::Formatter<'_>) -> fmt::Result {
        f.write_str(match self {
            Self::NoEvidence => "no evidence",
            Self::Contradictory => "contradictory evidence",
        })
    }
}

impl Row for MintRow {
    const TABLE: Table = Table::Mints;

    fn read_fields(reader: &mut Reader<'_>, _: &Tables) -> Option<Self> {
        Some(MintRow {
            account: reader.key()?,
            mint: reader.key()?,
            mark: *Mark::ALL.get(usize::from(reader.byte()?))?,
        })
    }
}
