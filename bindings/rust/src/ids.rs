//! Programs and the mint that the library tells apart, with names for a reader.

use crate::base58::literal;
use crate::Key;

/// The SPL Token program.
pub const SPL_TOKEN: Key = literal("TokenkegQfeZyiNwAJbNbGKPFXCWuBvf9Ss623VQ5DA");
/// The Token-2022 program.
pub const TOKEN_2022: Key = literal("TokenzQdBNbLqP5VEhdkAS6EPFLC1PHnBqCXEpPxuEb");
/// The mint of wrapped SOL.
pub const WRAPPED_SOL: Key = literal("So11111111111111111111111111111111111111112");
/// The Compute Budget program.
pub const COMPUTE_BUDGET: Key = literal("ComputeBudget111111111111111111111111111111");
/// The Associated Token program.
pub const ASSOCIATED_TOKEN: Key = literal("ATokenGPvbdGVxr1b2hvZbsiqW5xWH25efTNsLJA8knL");
/// The Memo program.
pub const MEMO: Key = literal("MemoSq4gqABAXKb96qnH8TysNcWxMyWCqXgDLGmfcHr");
/// PumpFun.
pub const PUMP_FUN: Key = literal("6EF8rrecthR5Dkzon8Nwu78hRvfCKubJ14M5uBEwF6P");
/// Raydium LaunchLab.
pub const LAUNCH_LAB: Key = literal("LanMV9sAd7wArD4vJFi2qDdfnVhFxYSUg6eADduJ3uj");
/// PumpSwap.
pub const PUMP_SWAP: Key = literal("pAMMBay6oceH9fJKBRHGP5D4bD4sWpmSwMn52FMfXEA");
/// Raydium CLMM.
pub const CLMM: Key = literal("CAMMCzo5YL8w4VFF8KVHrK22GGUsp5VTaW7grrKgrWqK");
/// Raydium CPMM.
pub const CPMM: Key = literal("CPMMoo8L3F4NbTegBCKVNunggL7H1ZpdTHKxQB5qKP1C");
/// Raydium AMM V4.
pub const AMM_V4: Key = literal("675kPX9MHTjS2zt1qfr1NYHuzeLXfQM9H24wFSUt1Mp8");
/// Orca Whirlpool.
pub const ORCA: Key = literal("whirLbMiicVdio4qvUfM5KAg6Ct8VwpYzGff3uctyCc");
/// Meteora DLMM.
pub const DLMM: Key = literal("LBUZKhRxPF3XUpBCjp4YzTKgLccjZhTSDM9YuVaPwxo");

/// The System program, where a program is resolved; elsewhere 'no key'.
pub const SYSTEM: Key = [0; 32];

/// The fourteen ids in the order of the library's table, each with its name.
pub const NAMED: [(Key, &str); 14] = [
    (SPL_TOKEN, "SPL Token"),
    (TOKEN_2022, "Token-2022"),
    (WRAPPED_SOL, "wrapped SOL"),
    (COMPUTE_BUDGET, "Compute Budget"),
    (ASSOCIATED_TOKEN, "Associated Token"),
    (MEMO, "Memo"),
    (PUMP_FUN, "PumpFun"),
    (LAUNCH_LAB, "LaunchLab"),
    (PUMP_SWAP, "PumpSwap"),
    (CLMM, "Raydium CLMM"),
    (CPMM, "Raydium CPMM"),
    (AMM_V4, "Raydium AMM V4"),
    (ORCA, "Orca Whirlpool"),
    (DLMM, "Meteora DLMM"),
];

/// The name of one of the fourteen ids.
///
/// ```
/// use mbelaguy::ids;
///
/// assert_eq!(ids::name(&ids::CPMM), Some("Raydium CPMM"));
/// assert_eq!(ids::name(&[7; 32]), None);
/// ```
pub fn name(key: &Key) -> Option<&'static str> {
    NAMED.iter().find(|(id, _)| id == key).map(|(_, name)| *name)
}
