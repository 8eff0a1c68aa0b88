//! A pack put into the types that the original reads.

use mbelaguy::pack::{Balance, Group, Instruction, KeyRow, Pack};
use original::prelude::{
    CompiledInstruction, InnerInstruction, InnerInstructions, Message, TokenBalance, Transaction,
    TransactionStatusMeta,
};
use original::pubkey::Pubkey;
use original::Facts;

/// A copy of the original: what it says about a transaction.
pub type FactsOf<'a> = dyn Fn(&Transaction, &TransactionStatusMeta, &[Pubkey]) -> Facts + 'a;

/// A pack as the original reads it: the transaction, its meta and the graduated pools.
pub type Fed = (Transaction, TransactionStatusMeta, Vec<Pubkey>);

/// What a copy of the original says about a pack.
pub fn facts_of(pack: &Pack, facts: &FactsOf<'_>) -> Facts {
    let (transaction, meta, graduated) = fed(pack);
    facts(&transaction, &meta, &graduated)
}

/// Which keys were static and which loaded, and which balances are older, a pack does not tell and no
/// answer depends on: each list is cut by its length, so that the original meets all of its lists.
pub fn fed(pack: &Pack) -> Fed {
    let (fixed, loaded) = pack.keys.split_at(pack.keys.len() / 2);
    let (writable, readonly) = loaded.split_at(loaded.len() / 2);
    let (pre, post) = pack.balances.split_at(pack.balances.len() / 2);
    let transaction = Transaction {
        message: Some(Message {
            account_keys: fixed.iter().map(source).collect(),
            instructions: pack.outer.iter().map(outer).collect(),
        }),
    };
    let meta = TransactionStatusMeta {
        inner_instructions: pack.groups.iter().map(group).collect(),
        pre_token_balances: pre.iter().map(balance).collect(),
        post_token_balances: post.iter().map(balance).collect(),
        loaded_writable_addresses: writable.iter().map(source).collect(),
        loaded_readonly_addresses: readonly.iter().map(source).collect(),
    };
    let graduated = pack.pools.iter().copied().map(Pubkey).collect();
    (transaction, meta, graduated)
}

/// A source that gives this key: 32 bytes, or one byte more where the flag says that it had not 32.
fn source(row: &KeyRow) -> Vec<u8> {
    let mut bytes = row.key.to_vec();
    if !row.whole {
        bytes.push(0);
    }
    bytes
}

fn balance(balance: &Balance) -> TokenBalance {
    TokenBalance { account_index: balance.account, mint: Pubkey(balance.mint).to_string() }
}

fn outer(instruction: &Instruction) -> CompiledInstruction {
    CompiledInstruction {
        program_id_index: instruction.program,
        accounts: instruction.accounts.clone(),
        data: instruction.data.clone(),
    }
}

fn group(group: &Group) -> InnerInstructions {
    let instructions = group.instructions.iter().map(|inner| InnerInstruction {
        program_id_index: inner.instruction.program,
        accounts: inner.instruction.accounts.clone(),
        data: inner.instruction.data.clone(),
        stack_height: inner.height,
    });
    InnerInstructions { index: group.outer, instructions: instructions.collect() }
}
