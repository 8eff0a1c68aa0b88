//! The used rows of the five tables, byte by byte.

use super::mints::Mints;
use original::facts::{Action, Facts, Invocation, Key, Leg, Native, Transfer};

pub fn tables(
    facts: &Facts,
    mints: &Mints,
    parents: &[Option<usize>],
    reasons: &[u8],
) -> [Vec<u8>; 5] {
    let mut tables: [Vec<u8>; 5] = Default::default();
    let [mint_rows, invocations, transfers, legs, natives] = &mut tables;
    for (account, mint) in &facts.mints {
        mint_rows.extend(account);
        mint_rows.extend(mint);
        mint_rows.push(mints.marks[account]);
    }
    let more = parents.iter().zip(reasons);
    for ((number, invocation), (parent, reason)) in (0u32..).zip(&facts.invocations).zip(more) {
        put_invocation(invocations, invocation, *parent, *reason);
        if let Some(transfer) = &invocation.transfer {
            put_transfer(transfers, number, transfer);
        }
        if let Some(leg) = invocation.leg {
            put_leg(legs, number, &facts.legs[leg]);
        }
        if let Some(native) = &invocation.native {
            put_native(natives, number, native);
        }
    }
    tables
}

fn put_invocation(table: &mut Vec<u8>, invocation: &Invocation, parent: Option<usize>, reason: u8) {
    table.extend(invocation.outer.to_le_bytes());
    put_optional(table, invocation.inner.map(u32::to_le_bytes));
    put_optional(table, invocation.height.map(u32::to_le_bytes));
    table.extend((invocation.end as u32).to_le_bytes());
    let bits = [
        (invocation.transfers_inside, 1),
        (invocation.swaps_inside, 2),
        (invocation.skip_route, 4),
        (invocation.resolved, 8),
        (invocation.leg.is_some(), 16),
        (invocation.transfer.is_some(), 32),
    ];
    table.push(bits.iter().filter(|bit| bit.0).map(|bit| bit.1).sum());
    put_row_number(table, invocation.leg);
    put_row_number(table, parent);
    table.push(reason);
}

fn put_transfer(table: &mut Vec<u8>, number: u32, transfer: &Transfer) {
    table.extend(number.to_le_bytes());
    table.extend(transfer.program);
    table.extend(transfer.source);
    table.extend(transfer.destination);
    put_optional(table, transfer.mint);
    table.extend(transfer.amount.to_le_bytes());
    put_optional(table, transfer.fee.map(u64::to_le_bytes));
}

fn put_leg(table: &mut Vec<u8>, number: u32, leg: &Leg) {
    table.extend(number.to_le_bytes());
    table.push(leg.protocol);
    for key in [leg.program, leg.pool, leg.trader, leg.input, leg.output] {
        table.extend(key);
    }
    put_optional(table, leg.input_mint);
    put_optional(table, leg.output_mint);
    table.push(u8::from(leg.exact_in));
    table.extend(leg.amount.to_le_bytes());
    table.extend(leg.threshold.to_le_bytes());
    table.push(leg.mode);
    table.push(u8::from(leg.graduated));
}

fn put_native(table: &mut Vec<u8>, number: u32, native: &Native) {
    const NONE: Key = [0; 32];
    let (kind, other, authority, lamports) = match native.action {
        Action::Fund { source, lamports } => (1, source, NONE, lamports),
        Action::Sync => (2, NONE, NONE, 0),
        Action::Close { destination, authority } => (3, destination, authority, 0),
    };
    table.extend(number.to_le_bytes());
    table.push(kind);
    table.extend(native.account);
    table.extend(other);
    table.extend(authority);
    table.extend(lamports.to_le_bytes());
}

/// 1 plus the number of a row, 0 where there is none.
fn put_row_number(table: &mut Vec<u8>, row: Option<usize>) {
    table.extend(row.map_or(0, |row| row as u32 + 1).to_le_bytes());
}

/// A flag, then the bytes, which are zero where there are none.
fn put_optional<const N: usize>(table: &mut Vec<u8>, value: Option<[u8; N]>) {
    table.push(u8::from(value.is_some()));
    table.extend(value.unwrap_or([0; N]));
}
