//! Rows of the five tables as typed values. Where a row has a mint beside an amount, it has its mark
//! of table 0 with it.
//!
//! ```
//! # #[cfg(feature = "link")] {
//! use mbelaguy::rows::{Action, Mark, Protocol};
//! use mbelaguy::{ids, route, Names, Tables};
//!
//! // The sample: one coin is sold for wrapped SOL on CPMM, and another bought with it on PumpSwap.
//! let sample = concat!(env!("CARGO_MANIFEST_DIR"), "/../../examples/aggregator_swap.bin");
//! let input = std::fs::read(sample).expect("the sample");
//! let (names, pack) = input.split_at(Names::BYTES);
//! let mut tables = Tables::full();
//! route(names, pack, &mut tables).expect("accepted");
//!
//! let leg = tables.legs().next().expect("two legs");
//! assert_eq!(leg.protocol, Protocol::Cpmm);
//! assert!(leg.exact_in && leg.graduated);
//! assert_eq!((leg.amount, leg.threshold), (900_000_000, 1_180_000_000));
//! assert_eq!(leg.output_mint.key(), Some(ids::WRAPPED_SOL));
//!
//! // What moved below the leg: invocations after its own, up to the end of its block.
//! let block = tables.invocations().nth(leg.invocation as usize).expect("its invocation");
//! let below = leg.invocation + 1..block.end;
//! let moved = tables.transfers().filter(|transfer| below.contains(&transfer.invocation));
//! assert_eq!(moved.map(|row| row.amount).collect::<Vec<_>>(), [900_000_000, 1_203_456_789]);
//!
//! // What the first transfer lies below, from parent to parent: its swap, and the aggregator.
//! let rows: Vec<_> = tables.invocations().collect();
//! let first = tables.transfers().next().expect("six transfers").invocation as usize;
//! let above = std::iter::successors(rows[first].parent(), |&row| rows[row].parent());
//! assert_eq!(above.collect::<Vec<_>>(), [9, 8]);
//!
//! assert!(tables.transfers().all(|transfer| transfer.mint.mark() == Some(Mark::Recorded)));
//! let close = |action| matches!(action, Action::Close { .. });
//! assert!(tables.natives().any(|native| close(native.action)));
//! # }
//! ```

mod invocation;
mod leg;
mod mint;
mod native;
mod reason;
mod transfer;

pub use invocation::Invocation;
pub use leg::{Leg, Mode, Protocol};
pub use mint::{Lack, Mark, Mint, MintRow};
pub use native::{Action, Native};
pub use reason::Reason;
pub use transfer::Transfer;

use crate::bytes::Reader;
use crate::{Table, Tables, WIDTHS};
use std::marker::PhantomData;
use std::slice::ChunksExact;

/// A row of one of the tables.
pub trait Row: Sized {
    /// The table whose row it is.
    const TABLE: Table;

    /// The row: `None` where a flag, mark, reason, protocol, kind or mode has no meaning, or a mint is
    /// not the one of table 0.
    #[doc(hidden)]
    fn read_fields(reader: &mut Reader<'_>, tables: &Tables) -> Option<Self>;
}

/// The used rows of a table, in order.
#[derive(Clone, Debug)]
pub struct Rows<'a, R> {
    rows: ChunksExact<'a, u8>,
    tables: &'a Tables,
    kind: PhantomData<R>,
}

impl<'a, R: Row> Rows<'a, R> {
    /// The rows in these bytes of a table.
    pub(crate) fn new(used: &'a [u8], tables: &'a Tables) -> Self {
        let width = WIDTHS[R::TABLE as usize];
        Rows { rows: used.chunks_exact(width), tables, kind: PhantomData }
    }
}

impl<R: Row> Iterator for Rows<'_, R> {
    type Item = R;

    fn next(&mut self) -> Option<R> {
        R::read_fields(&mut Reader(self.rows.next()?), self.tables)
    }

    fn size_hint(&self) -> (usize, Option<usize>) {
        self.rows.size_hint()
    }
}

impl<R: Row> ExactSizeIterator for Rows<'_, R> {}
