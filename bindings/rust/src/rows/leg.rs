//! Table 3: the swap legs.

use super::{Mint, Row};
use crate::bytes::Reader;
use crate::{Key, Table, Tables};
use std::fmt;

/// A row of table 3.
#[derive(Clone, Copy, Debug, PartialEq, Eq)]
pub struct Leg {
    /// The invocation's number.
    pub invocation: u32,
    /// Whose swap it is.
    pub protocol: Protocol,
    /// The program that was called.
    pub program: Key,
    /// The pool, or the bonding curve.
    pub pool: Key,
    /// Who swaps.
    pub trader: Key,
    /// The account that pays; of a PumpFun swap for SOL the trader's own.
    pub input: Key,
    /// The account that is paid, likewise.
    pub output: Key,
    /// The mint of the input: table 0's, else the one that the instruction names.
    pub input_mint: Mint,
    /// The mint of the output, likewise.
    pub output_mint: Mint,
    /// The amount is the input and the threshold the least output; else the amount is the output and
    /// the threshold the greatest input.
    pub exact_in: bool,
    /// What the instruction asks for, not what was moved.
    pub amount: u64,
    /// The least output or the greatest input that the instruction allows.
    pub threshold: u64,
    /// The StonkFun platform of a LaunchLab swap.
    pub mode: Option<Mode>,
    /// A CPMM pool that the pack lists as graduated.
    pub graduated: bool,
}

/// Protocols, 1 to 8 in a row.
#[derive(Clone, Copy, Debug, PartialEq, Eq)]
pub enum Protocol {
    /// PumpSwap, the market of PumpFun.
    PumpSwap = 1,
    /// Raydium LaunchLab.
    LaunchLab,
    /// Raydium CPMM.
    Cpmm,
    /// Raydium AMM V4.
    AmmV4,
    /// Raydium CLMM.
    Clmm,
    /// Orca Whirlpool.
    Orca,
    /// Meteora DLMM.
    Dlmm,
    /// PumpFun's bonding curve.
    PumpFun,
}

impl Protocol {
    /// The protocols by their numbers, the first being 1.
    pub const ALL: [Self; 8] = [
        Self::PumpSwap,
        Self::LaunchLab,
        Self::Cpmm,
        Self::AmmV4,
        Self::Clmm,
        Self::Orca,
        Self::Dlmm,
        Self::PumpFun,
    ];
}

impl fmt::Display for Protocol {
    fn fmt(&self, f: &mut fmt::Formatter<'_>) -> fmt::Result {
        f.write_str(match self {
            Self::PumpSwap => "PumpSwap",
            Self::LaunchLab => "LaunchLab",
            Self::Cpmm => "CPMM",
            Self::AmmV4 => "AMM V4",
            Self::Clmm => "CLMM",
            Self::Orca => "Orca",
            Self::Dlmm => "DLMM",
            Self::PumpFun => "PumpFun",
        })
    }
}

/// StonkFun platforms, 1 and 2 in a row.
#[derive(Clone, Copy, Debug, PartialEq, Eq)]
pub enum Mode {
    /// The platform config that [`crate::Names::standard`] names.
    Standard = 1,
    /// The one that [`crate::Names::reward`] names.
    Reward,
}

impl fmt::Display for Mode {
    fn fmt(&self, f: &mut fmt::Formatter<'_>) -> fmt::Result {
        f.write_str(match self {
            Self::Standard => "standard",
            Self::Reward => "reward",
        })
    }
}

impl Row for Leg {
    const TABLE: Table = Table::Legs;

    fn read_fields(reader: &mut Reader<'_>, tables: &Tables) -> Option<Self> {
        let invocation = reader.u32()?;
        let protocol = *Protocol::ALL.get(usize::from(reader.byte()?).checked_sub(1)?)?;
        let (program, pool, trader) = (reader.key()?, reader.key()?, reader.key()?);
        let (input, output) = (reader.key()?, reader.key()?);
        Some(Leg {
            invocation,
            protocol,
            program,
            pool,
            trader,
            input,
            output,
            input_mint: Mint::of_side(reader.optional()?, tables, &input)?,
            output_mint: Mint::of_side(reader.optional()?, tables, &output)?,
            exact_in: reader.flag()?,
            amount: reader.u64()?,
            threshold: reader.u64()?,
            mode: match reader.byte()? {
                0 => None,
                1 => Some(Mode::Standard),
                2 => Some(Mode::Reward),
                _ => return None,
            },
            graduated: reader.flag()?,
        })
    }
}
