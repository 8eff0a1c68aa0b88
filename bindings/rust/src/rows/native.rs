//! Table 4: the actions on wrapped SOL accounts.

use super::{Mark, Mint, Row};
use crate::bytes::Reader;
use crate::{ids, Key, Table, Tables};

/// A row of table 4.
#[derive(Clone, Copy, Debug, PartialEq, Eq)]
pub struct Native {
    /// The invocation's number.
    pub invocation: u32,
    /// The wrapped SOL account.
    pub account: Key,
    /// How sure it is that its mint is wrapped SOL.
    pub mark: Mark,
    /// What happened to it.
    pub action: Action,
}

/// What happened to the account; kinds 1 to 3 in a row.
#[derive(Clone, Copy, Debug, PartialEq, Eq)]
pub enum Action {
    /// Lamports came in by a System transfer.
    Fund {
        /// Who paid.
        source: Key,
        /// How much.
        lamports: u64,
    },
    /// Its lamports were counted as tokens.
    Sync,
    /// It was closed, and its lamports went to the destination.
    Close {
        /// Who took what was left.
        destination: Key,
        /// Who closed it.
        authority: Key,
    },
}

impl Action {
    /// The kind in a row.
    pub fn kind(&self) -> u8 {
        match self {
            Self::Fund { .. } => 1,
            Self::Sync => 2,
            Self::Close { .. } => 3,
        }
    }
}

impl Row for Native {
    const TABLE: Table = Table::Natives;

    fn read_fields(reader: &mut Reader<'_>, tables: &Tables) -> Option<Self> {
        const NONE: Key = [0; 32];
        let invocation = reader.u32()?;
        let kind = reader.byte()?;
        let account = reader.key()?;
        let action = match (kind, reader.key()?, reader.key()?, reader.u64()?) {
            (1, source, NONE, lamports) => Action::Fund { source, lamports },
            (2, NONE, NONE, 0) => Action::Sync,
            (3, destination, authority, 0) => Action::Close { destination, authority },
            _ => return None,
        };
        match tables.mint(&account) {
            Mint::Marked { key: ids::WRAPPED_SOL, mark } => {
                Some(Native { invocation, account, mark, action })
            }
            _ => None,
        }
    }
}
