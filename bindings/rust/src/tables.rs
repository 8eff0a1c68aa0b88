//! The five tables: memory lent to the library, and its rows.

use crate::rows::{Invocation, Lack, Leg, Mint, MintRow, Native, Row, Rows, Transfer};
use crate::{pack, Answer, Key, Refusal, Table, MAX_INVOCATIONS, MAX_KEYS};
use std::collections::BTreeSet;
use std::error::Error;
use std::fmt;
use std::sync::OnceLock;

/// Bytes of a row in tables 0 to 4.
pub const WIDTHS: [usize; 5] = [65, 28, 150, 250, 109];

/// The most rows that tables 0 to 4 can need: a mint for each key, one of the others for each
/// invocation.
pub const MOST_ROWS: [usize; 5] =
    [MAX_KEYS, MAX_INVOCATIONS, MAX_INVOCATIONS, MAX_INVOCATIONS, MAX_INVOCATIONS];

/// Five tables, to be used for one call after the other.
///
/// ```
/// use mbelaguy::{Answer, Table, Tables, WIDTHS};
///
/// let tables = Tables::with_room([2, 1, 1, 0, 0]);
/// assert_eq!(tables.bytes(Table::Mints).len(), 2 * WIDTHS[0]);
/// assert_eq!(tables.mints().len(), 0);
///
/// // Tables that were kept: account, mint and mark of one row.
/// let mint = [&[1; 32][..], &[2; 32], &[0]].concat();
/// let answer = Answer { counts: [1, 0, 0, 0, 0], passes: 1, ..Answer::default() };
/// let pack = mbelaguy::pack::Pack::default().write()?;
/// let kept = Tables::read(&answer, [mint, vec![], vec![], vec![], vec![]], &pack)?;
/// assert_eq!(kept.mints().next().map(|row| row.mint), Some([2; 32]));
/// # Ok::<(), Box<dyn std::error::Error>>(())
/// ```
#[derive(Clone, Debug)]
pub struct Tables {
    pub(crate) bytes: [Vec<u8>; 5],
    /// Used rows.
    pub(crate) counts: [usize; 5],
    /// The pack that they were filled from, where there are transfers or legs: why an account of theirs
    /// has no mint is the one thing that the tables do not tell.
    pack: Vec<u8>,
    contradicted: OnceLock<BTreeSet<Key>>,
}

impl Tables {
    /// Room for whatever a pack needs, about 550 KiB.
    pub fn full() -> Self {
        Tables::with_room(MOST_ROWS)
    }

    /// Room for so many rows in tables 0 to 4, though never for more than a pack can need.
    pub fn with_room(rows: [usize; 5]) -> Self {
        let length = |t: usize| rows[t].min(MOST_ROWS[t]) * WIDTHS[t];
        Tables::empty(std::array::from_fn(|t| vec![0; length(t)]))
    }

    /// Tables that were kept from an earlier call, with its answer and its pack. They are checked
    /// whole.
    pub fn read(answer: &Answer, bytes: [Vec<u8>; 5], pack: &[u8]) -> Result<Self, BadTable> {
        pack::read(pack).map_err(BadTable::Pack)?;
        let mut tables = Tables::empty(bytes);
        tables.filled(answer, pack);
        tables.check::<MintRow>()?;
        tables.check_order()?;
        tables.check::<Invocation>()?;
        tables.check::<Transfer>()?;
        tables.check::<Leg>()?;
        tables.check::<Native>()?;
        Ok(tables)
    }

    fn empty(bytes: [Vec<u8>; 5]) -> Self {
        Tables { bytes, counts: [0; 5], pack: Vec::new(), contradicted: OnceLock::new() }
    }

    /// Notes what the bytes were filled from.
    pub(crate) fn filled(&mut self, answer: &Answer, pack: &[u8]) {
        self.counts = answer.counts.map(|count| count as usize);
        self.contradicted = OnceLock::new();
        self.pack.clear();
        if self.transfers().len() + self.legs().len() > 0 {
            self.pack.extend(pack);
        }
    }

    /// The accounts with a mint, ascending.
    pub fn mints(&self) -> Rows<'_, MintRow> {
        self.rows()
    }

    /// The invocations, in execution order.
    pub fn invocations(&self) -> Rows<'_, Invocation> {
        self.rows()
    }

    /// The token transfers, in execution order.
    pub fn transfers(&self) -> Rows<'_, Transfer> {
        self.rows()
    }

    /// The swap legs, in execution order.
    pub fn legs(&self) -> Rows<'_, Leg> {
        self.rows()
    }

    /// The actions on wrapped SOL, in execution order.
    pub fn natives(&self) -> Rows<'_, Native> {
        self.rows()
    }

    /// All bytes of a table.
    pub fn bytes(&self, table: Table) -> &[u8] {
        &self.bytes[table as usize]
    }

    /// The bytes of a table's used rows.
    pub fn used(&self, table: Table) -> &[u8] {
        let (bytes, t) = (self.bytes(table), table as usize);
        &bytes[..bytes.len().min(self.counts[t].saturating_mul(WIDTHS[t]))]
    }

    /// The mint that table 0 has of an account, or why it has none.
    pub(crate) fn mint(&self, account: &Key) -> Mint {
        let rows = self.used(Table::Mints);
        let width = WIDTHS[Table::Mints as usize];
        let (mut low, mut high) = (0, rows.len() / width);
        while low < high {
            let middle = low + (high - low) / 2;
            if rows[middle * width..][..32] < account[..] {
                low = middle + 1;
            } else {
                high = middle;
            }
        }
        match Rows::<MintRow>::new(&rows[low * width..], self).next() {
            Some(row) if row.account == *account => Mint::Marked { key: row.mint, mark: row.mark },
            _ if self.contradicted().contains(account) => Mint::Unknown(Lack::Contradictory),
            _ => Mint::Unknown(Lack::NoEvidence),
        }
    }

    /// The accounts that the pack's evidence contradicts itself about.
    fn contradicted(&self) -> &BTreeSet<Key> {
        let read = || pack::read(&self.pack).map_or(BTreeSet::new(), |pack| pack.contradicted());
        self.contradicted.get_or_init(read)
    }

    fn rows<R: Row>(&self) -> Rows<'_, R> {
        Rows::new(self.used(R::TABLE), self)
    }

    fn check<R: Row>(&self) -> Result<(), BadTable> {
        let count = self.counts[R::TABLE as usize];
        let rows = self.rows::<R>();
        if rows.len() < count {
            return Err(BadTable::Short { table: R::TABLE, rows: rows.len(), count });
        }
        match rows.count() {
            row if row < count => Err(BadTable::Row { table: R::TABLE, row }),
            _ => Ok(()),
        }
    }

    /// Table 0 ascends by accounts, so that they can be found by halving.
    fn check_order(&self) -> Result<(), BadTable> {
        let accounts: Vec<_> = self.mints().map(|row| row.account).collect();
        match accounts.windows(2).position(|pair| pair[0] >= pair[1]) {
            Some(row) => Err(BadTable::Row { table: Table::Mints, row: row + 1 }),
            None => Ok(()),
        }
    }
}

/// By what they were filled with; whether a row was asked about is no matter.
impl PartialEq for Tables {
    fn eq(&self, other: &Self) -> bool {
        self.bytes == other.bytes && self.counts == other.counts && self.pack == other.pack
    }
}

impl Eq for Tables {}

/// Why bytes are not the tables of an answer and its pack.
#[derive(Clone, Copy, Debug, PartialEq, Eq)]
pub enum BadTable {
    /// The pack would have been refused.
    Pack(Refusal),
    /// It has fewer whole rows than the answer counts.
    Short {
        /// The table.
        table: Table,
        /// Its whole rows.
        rows: usize,
        /// The rows that the answer counts.
        count: usize,
    },
    /// This row of it has no meaning, stands in the wrong place, or has a mint that table 0 has not.
    Row {
        /// The table.
        table: Table,
        /// The row's number, from 0.
        row: usize,
    },
}

impl fmt::Display for BadTable {
    fn fmt(&self, f: &mut fmt::Formatter<'_>) -> fmt::Result {
        match self {
            Self::Pack(refusal) => write!(f, "the pack beside the tables meets {refusal}"),
            Self::Short { table, rows, count } => {
                write!(
                    f,
                    "the table of {table} has {rows} whole rows, and the answer counts {count}"
                )
            }
            Self::Row { table, row } => {
                write!(f, "row {row} of the table of {table} has no meaning")
            }
        }
    }
}

impl Error for BadTable {}
