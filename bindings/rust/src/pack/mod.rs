//! The pack: plain values written as five sections and a trailer, and read back.
//!
//! A pack is at most [`MAX_BYTES`] long, its numbers little-endian. Five sections come first (keys,
//! balances, outer instructions, inner groups, graduated pools), then 24 bytes: where each section
//! starts, and the mark `RTP1`.
//!
//! ```
//! use mbelaguy::pack::{self, Balance, Instruction, KeyRow, Pack};
//! use mbelaguy::ids;
//!
//! // One account with a balance, and a plain transfer of 7 to another.
//! let key = |key| KeyRow { whole: true, key };
//! let pack = Pack {
//!     keys: vec![key([1; 32]), key([2; 32]), key(ids::SPL_TOKEN)],
//!     balances: vec![Balance { account: 0, mint: [9; 32] }],
//!     outer: vec![Instruction {
//!         program: 2,
//!         accounts: vec![0, 1, 0],
//!         data: [&[3][..], &7u64.to_le_bytes()].concat(),
//!     }],
//!     ..Pack::default()
//! };
//! let bytes = pack.write()?;
//! assert!(bytes.ends_with(&pack::MARK));
//! assert_eq!(pack::read(&bytes), Ok(pack));
//! # Ok::<(), pack::DoesNotFit>(())
//! ```

mod evidence;
mod order;
mod read;
mod write;

pub use crate::Key;
pub use order::Step;
pub use read::{read, sections};
pub use write::{join, DoesNotFit};

/// The most bytes that a pack may have.
pub const MAX_BYTES: usize = 61_440;

/// The most accounts or bytes of data of an instruction, and instructions of a group.
pub const MAX_COUNT: usize = u16::MAX as usize;

/// Five starts of four bytes and the mark.
pub const TRAILER: usize = 24;

/// The last four bytes of a pack.
pub const MARK: [u8; 4] = *b"RTP1";

/// Bytes of a row of keys: flag and key.
pub const KEY_ROW: usize = 33;

/// Bytes of a row of balances: account index and mint.
pub const BALANCE_ROW: usize = 36;

/// Bytes of a pool.
pub const POOL_ROW: usize = 32;

/// What a pack says.
#[derive(Clone, Debug, Default, PartialEq, Eq)]
pub struct Pack {
    /// Static keys, then loaded writable, then loaded readonly ones.
    pub keys: Vec<KeyRow>,
    /// Balances before the transaction, then those after it.
    pub balances: Vec<Balance>,
    /// The transaction's own instructions.
    pub outer: Vec<Instruction>,
    /// The instructions that those called.
    pub groups: Vec<Group>,
    /// Pools that the caller knows to have graduated.
    pub pools: Vec<Key>,
}

/// A key, and whether its source had exactly 32 bytes.
#[derive(Clone, Copy, Debug, PartialEq, Eq)]
pub struct KeyRow {
    /// Whether it had; only then can it be a program.
    pub whole: bool,
    /// The key, or what the host's reader gave in its place.
    pub key: Key,
}

/// The mint of the account at an index.
#[derive(Clone, Copy, Debug, PartialEq, Eq)]
pub struct Balance {
    /// Index into the keys, below their number: a call refuses any other, whatever the mint is.
    pub account: u32,
    /// The mint that the node reported.
    pub mint: Key,
}

/// An instruction: indexes into the keys, and data.
#[derive(Clone, Debug, Default, PartialEq, Eq)]
pub struct Instruction {
    /// Index of the program among the keys.
    pub program: u32,
    /// Indexes of the accounts among the keys.
    pub accounts: Vec<u8>,
    /// What the program is told.
    pub data: Vec<u8>,
}

/// Inner instructions of the outer instruction at an index.
#[derive(Clone, Debug, Default, PartialEq, Eq)]
pub struct Group {
    /// Index of the outer instruction.
    pub outer: u32,
    /// What it called, in execution order.
    pub instructions: Vec<Inner>,
}

/// An inner instruction with its stack height, where that is known.
#[derive(Clone, Debug, Default, PartialEq, Eq)]
pub struct Inner {
    /// The stack height: 2 for what an outer instruction called.
    pub height: Option<u32>,
    /// The instruction.
    pub instruction: Instruction,
}
