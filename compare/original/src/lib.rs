//! The original, compiled as it stands: `build/` assembles it out of its source folder, `harness.rs`
//! reaches its private functions, and the stand-ins here take the place of the crates that it uses.

extern crate self as solana_sdk;
extern crate self as solana_transaction_status;
extern crate self as yellowstone_grpc_proto;

pub mod facts;
pub mod ids;
pub mod names;
mod stand_ins;
pub mod switch;

pub use facts::Facts;
pub use ids::ids;
pub use stand_ins::{
    convert_rpc_to_grpc, logs, prelude, pubkey, signature,
    EncodedConfirmedTransactionWithStatusMeta, ParseError,
};
pub use transaction_route::{facts, work};

include!(concat!(env!("OUT_DIR"), "/assembled.rs"));

use prelude::{Transaction, TransactionStatusMeta};
use pubkey::Pubkey;

/// What the mutated copy says with one break switched on, or with none.
pub fn mutant_facts(
    mutant: Option<usize>,
    transaction: &Transaction,
    meta: &TransactionStatusMeta,
    graduated: &[Pubkey],
) -> Facts {
    switch::choose(mutant);
    mutated::transaction_route::facts(transaction, meta, graduated)
}
