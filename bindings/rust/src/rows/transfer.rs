//! Table 2: the token transfers.

use super::{Mint, Row};
use crate::bytes::Reader;
use crate::{Key, Table, Tables};

/// A row of table 2.
#[derive(Clone, Copy, Debug, PartialEq, Eq)]
pub struct Transfer {
    /// The invocation's number.
    pub invocation: u32,
    /// SPL Token or Token-2022.
    pub program: Key,
    /// The account that is debited.
    pub source: Key,
    /// The account that is credited.
    pub destination: Key,
    /// The source's final mint, whatever mint the instruction names.
    pub mint: Mint,
    /// The amount that the instruction names. A fee of Token-2022 may reduce what arrives.
    pub amount: u64,
    /// 0 under SPL Token, the fee named by a transfer with fee, else unknown.
    pub fee: Option<u64>,
}

impl Row for Transfer {
    const TABLE: Table = Table::Transfers;

    fn read_fields(reader: &mut Reader<'_>, tables: &Tables) -> Option<Self> {
        let (invocation, program, source) = (reader.u32()?, reader.key()?, reader.key()?);
        Some(Transfer {
            invocation,
            program,
            source,
            destination: reader.key()?,
            mint: Mint::of_transfer(reader.optional()?, tables, &source)?,
            amount: reader.u64()?,
            fee: reader.optional()?.map(u64::from_le_bytes),
        })
    }
}
