//! Transfer tables for the month totals: rows whose lines repeat, and damaged ones.

use super::TRANSFER;
use crate::generate::rng::Rng;
use mbelaguy::Key;

/// The mints and accounts of a month.
pub struct World {
    /// Flag and mint, as a row has them.
    pub mints: Vec<[u8; 33]>,
    pub accounts: Vec<Key>,
}

impl World {
    /// So many mints and accounts, at least one each.
    pub fn new(mints: usize, accounts: usize, rng: &mut Rng) -> Self {
        let accounts = keys(accounts, rng);
        let mut mints: Vec<[u8; 33]> =
            keys(mints, rng).into_iter().map(|key| flagged(1, key)).collect();
        if rng.chance(40) {
            mints.push([0; 33]);
        }
        if rng.chance(40) {
            mints.push(flagged(0, rng.array()));
        }
        if rng.chance(30) {
            mints.push(flagged(1, [0; 32]));
        }
        if rng.chance(20) {
            mints.push(flagged(1, rng.pick(&accounts)));
        }
        World { mints, accounts }
    }

    /// Few of each, so that lines repeat.
    pub fn small(rng: &mut Rng) -> Self {
        let (mints, accounts) = (rng.pick(&[1, 1, 2, 3, 8]), rng.pick(&[1, 2, 3, 5, 12, 40]));
        World::new(mints, accounts, rng)
    }

    /// A table of so many transfers.
    pub fn table(&self, count: usize, rng: &mut Rng) -> Vec<u8> {
        (0..count).flat_map(|_| self.transfer(rng)).collect()
    }

    fn transfer(&self, rng: &mut Rng) -> [u8; TRANSFER] {
        let mut row = [0; TRANSFER];
        // Invocation and program matter to nothing.
        row[..36].copy_from_slice(&rng.array::<36>());
        let source = rng.pick(&self.accounts);
        let destination = if rng.chance(10) { source } else { rng.pick(&self.accounts) };
        row[36..68].copy_from_slice(&source);
        row[68..100].copy_from_slice(&destination);
        row[100..133].copy_from_slice(&rng.pick(&self.mints));
        let amount = rng.amount();
        row[133..141].copy_from_slice(&amount.to_le_bytes());
        let (flag, fee) = fee(amount, rng);
        row[141] = flag;
        row[142..].copy_from_slice(&fee.to_le_bytes());
        row
    }
}

fn fee(amount: u64, rng: &mut Rng) -> (u8, u64) {
    match rng.below(20) {
        0 | 1 => (0, 0),
        2 | 3 => (0, rng.amount()),
        4 => (1, amount),
        5 => (1, amount.saturating_add(1)),
        6 => (1, amount.saturating_sub(1)),
        7 => (1, rng.amount()),
        8..=12 => (1, rng.next() % amount.max(1)),
        _ => (1, 0),
    }
}

pub fn flagged(flag: u8, key: Key) -> [u8; 33] {
    let mut bytes = [flag; 33];
    bytes[1..].copy_from_slice(&key);
    bytes
}

/// Keys that have nothing in common, or all bytes but one, where there are more of them two; some of
/// zeros, and the greatest.
pub fn keys(count: usize, rng: &mut Rng) -> Vec<Key> {
    let common: Key = rng.array();
    let alike = rng.chance(50);
    let width = if count <= 256 { 1 } else { 2 };
    let at = rng.pick(&[0, 0, 1, 7, 8, 15, 24, 30, 32 - width]);
    let mut keys: Vec<Key> = (0..count as u16)
        .map(|number| {
            let mut key = if alike { common } else { rng.array() };
            key[at..at + width].copy_from_slice(&number.to_be_bytes()[2 - width..]);
            key
        })
        .collect();
    if rng.chance(20) {
        keys[0] = [0; 32];
    }
    if rng.chance(10) {
        keys[count - 1] = [255; 32];
    }
    keys
}

/// The table with something wrong: refusal 19.
pub fn damaged(mut table: Vec<u8>, rng: &mut Rng) -> Vec<u8> {
    let rows = table.len() / TRANSFER;
    let some = rng.below(rows.max(1));
    let row = rng.pick(&[0, rows.saturating_sub(1), some]) * TRANSFER;
    let flag = rng.pick(&[2, 3, 128, 255]);
    match rng.below(if rows == 0 { 1 } else { 4 }) {
        0 => {
            let more = rng.pick(&[1, 100, 101, 142, TRANSFER - 1]);
            table.extend(rng.bytes(more));
        }
        1 => table[row + 100] = flag,
        2 => table[row + 141] = flag,
        _ => {
            let less = rng.pick(&[1, 9, 50, TRANSFER - 1]);
            table.truncate(table.len() - less);
        }
    }
    table
}
