//! The fourteen ids and their rows: six of transaction_route.rs, then the eight of
//! instr/program_ids.rs that `swap` uses.

use crate::instr::program_ids::*;
use crate::transaction_route::route_ids;

pub const SPL_TOKEN: usize = 0;
pub const TOKEN_2022: usize = 1;
pub const WRAPPED_SOL: usize = 2;
pub const PUMPFUN: usize = 6;
pub const LAUNCHLAB: usize = 7;
pub const PUMPSWAP: usize = 8;
pub const CLMM: usize = 9;
pub const CPMM: usize = 10;
pub const AMM_V4: usize = 11;
pub const ORCA: usize = 12;
pub const DLMM: usize = 13;

/// All ids, out of the original's own constants.
pub fn ids() -> [[u8; 32]; 14] {
    let [spl_token, token_2022, wrapped_sol, compute_budget, associated_token, memo] = route_ids();
    [
        spl_token,
        token_2022,
        wrapped_sol,
        compute_budget,
        associated_token,
        memo,
        PUMPFUN_PROGRAM_ID,
        RAYDIUM_LAUNCHLAB_PROGRAM_ID,
        PUMPSWAP_PROGRAM_ID,
        RAYDIUM_CLMM_PROGRAM_ID,
        RAYDIUM_CPMM_PROGRAM_ID,
        RAYDIUM_AMM_V4_PROGRAM_ID,
        ORCA_WHIRLPOOL_PROGRAM_ID,
        METEORA_DLMM_PROGRAM_ID,
    ]
    .map(|id| id.0)
}
