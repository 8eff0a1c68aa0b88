//! The months that are timed: packs of ten transfers between the accounts of some mints.

use super::plain::{feed, write, Lines};
use super::{ROW, TRANSFER};
use crate::generate::rng::Rng;
use mbelaguy::Key;

/// Transfers of a pack.
pub const PACK: usize = 10;

/// Of so many lines one is a mint's own.
const LINES_A_MINT: usize = 100;

/// Rows of a month with so many transfers, which touch about so many lines: each account has one
/// mint, as on the chain. Of ten transfers one has no fee that is known, and one withholds some.
pub fn transfers(count: usize, lines: usize, seed: u64) -> Vec<u8> {
    let rng = &mut Rng::new(seed);
    let mints: Vec<Key> = (0..lines / LINES_A_MINT).map(|_| rng.array()).collect();
    let accounts: Vec<Key> = (0..lines - mints.len()).map(|_| rng.array()).collect();
    let mut all = Vec::with_capacity(count * TRANSFER);
    for _ in 0..count {
        let mint = rng.below(mints.len());
        let of_mint = accounts.len() / mints.len();
        let mut account = || accounts[rng.below(of_mint) * mints.len() + mint];
        let (source, destination) = (account(), account());
        let amount = rng.next() >> 20;
        let (flag, fee) = match rng.below(10) {
            0 => (0, 0),
            1 => (1, amount / 100),
            _ => (1, 0),
        };
        let mut row = [0; TRANSFER];
        row[36..68].copy_from_slice(&source);
        row[68..100].copy_from_slice(&destination);
        row[100] = 1;
        row[101..133].copy_from_slice(&mints[mint]);
        row[133..141].copy_from_slice(&amount.to_le_bytes());
        row[141] = flag;
        row[142..].copy_from_slice(&fee.to_le_bytes());
        all.extend(row);
    }
    all
}

/// Plain Rust that keeps its map from table to table, and writes the report once, at the end.
pub fn kept(report: &mut [u8], transfers: &[u8], table: usize) -> usize {
    let mut lines = Lines::new();
    for table in transfers.chunks(table * TRANSFER) {
        assert!(super::plain::is_table(table), "the tables are not refused");
        feed(&mut lines, table);
    }
    write(&lines, report);
    report[lines.len() * ROW..].fill(0);
    lines.len()
}
