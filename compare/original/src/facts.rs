//! What a copy of the original says about a transaction, in plain values that all copies share.

use std::collections::BTreeMap;

pub type Key = [u8; 32];

#[derive(Clone, Debug, PartialEq, Eq)]
pub struct Facts {
    /// `token_mints_from_invocations`.
    pub mints: BTreeMap<Key, Key>,
    pub invocations: Vec<Invocation>,
    /// In execution order.
    pub legs: Vec<Leg>,
}

/// One invocation of `transaction_invocations` with what was found about it.
#[derive(Clone, Debug, PartialEq, Eq)]
pub struct Invocation {
    pub outer: u32,
    pub inner: Option<u32>,
    pub height: Option<u32>,
    pub program: Key,
    pub resolved: bool,
    pub accounts: Vec<u8>,
    pub data: Vec<u8>,
    pub end: usize,
    pub transfers_inside: bool,
    pub swaps_inside: bool,
    pub skip_route: bool,
    pub transfer: Option<Transfer>,
    /// Its row among the legs.
    pub leg: Option<usize>,
    pub native: Option<Native>,
}

#[derive(Clone, Debug, PartialEq, Eq)]
pub struct Transfer {
    pub program: Key,
    pub source: Key,
    pub destination: Key,
    pub mint: Option<Key>,
    pub amount: u64,
    pub fee: Option<u64>,
}

#[derive(Clone, Debug, PartialEq, Eq)]
pub struct Leg {
    /// 1 to 8, in the order of `SwapProtocol`.
    pub protocol: u8,
    pub program: Key,
    pub pool: Key,
    pub trader: Key,
    pub input: Key,
    pub output: Key,
    pub input_mint: Option<Key>,
    pub output_mint: Option<Key>,
    pub exact_in: bool,
    pub amount: u64,
    pub threshold: u64,
    /// 0 none, 1 standard, 2 reward.
    pub mode: u8,
    pub graduated: bool,
}

#[derive(Clone, Debug, PartialEq, Eq)]
pub struct Native {
    pub account: Key,
    pub action: Action,
}

#[derive(Clone, Debug, PartialEq, Eq)]
pub enum Action {
    Fund { source: Key, lamports: u64 },
    Sync,
    Close { destination: Key, authority: Key },
}
