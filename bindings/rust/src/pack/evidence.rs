//! What a pack says of mints before any plain transfer carries one on. The library's tables leave out
//! accounts with two mints; here they are found again, by the same rules, to tell them from accounts
//! of which nothing is said.

use super::{Instruction, Pack};
use crate::{ids, Key};
use std::collections::{BTreeMap, BTreeSet};

const ZERO: Key = [0; 32];

impl Pack {
    /// The accounts whose evidence names two mints, so that table 0 leaves them out.
    ///
    /// ```
    /// use mbelaguy::pack::{Balance, KeyRow, Pack};
    ///
    /// let mut pack = Pack {
    ///     keys: vec![KeyRow { whole: true, key: [1; 32] }],
    ///     balances: vec![Balance { account: 0, mint: [8; 32] }],
    ///     ..Pack::default()
    /// };
    /// assert!(pack.contradicted().is_empty());
    /// pack.balances.push(Balance { account: 0, mint: [9; 32] });
    /// assert!(pack.contradicted().contains(&[1; 32]));
    /// ```
    pub fn contradicted(&self) -> BTreeSet<Key> {
        let mut first = BTreeMap::new();
        let evidence = self.evidence().into_iter();
        let other = |&(account, mint): &(Key, Key)| *first.entry(account).or_insert(mint) != mint;
        evidence.filter(other).map(|(account, _)| account).collect()
    }

    /// The pieces of evidence, account and mint: balances, then instructions in execution order.
    /// Neither is the zero key.
    pub fn evidence(&self) -> Vec<(Key, Key)> {
        let balances = self.balances.iter().map(|row| (self.key(row.account), row.mint));
        let steps = self.steps();
        let recorded = steps.iter().flat_map(|step| self.recorded(step.instruction));
        let pieces = balances.chain(recorded);
        pieces.filter(|&(account, mint)| account != ZERO && mint != ZERO).collect()
    }

    /// What an instruction records: a checked transfer of both its ends, an initialisation of its
    /// account.
    fn recorded(&self, instruction: &Instruction) -> Vec<(Key, Key)> {
        let program = self.program(instruction);
        let token_2022 = program == Some(ids::TOKEN_2022);
        let account =
            |k: usize| instruction.accounts.get(k).map_or(ZERO, |&at| self.key(at.into()));
        let ends = || vec![(account(0), account(1)), (account(2), account(1))];
        if program != Some(ids::SPL_TOKEN) && !token_2022 {
            return vec![];
        }
        match (&instruction.data[..], instruction.data.len(), instruction.accounts.len()) {
            ([12, ..], 10.., 4..) => ends(),
            ([26, 1, ..], 19.., 4..) if token_2022 => ends(),
            ([1], _, 2..) | ([16 | 18, ..], 33, 2..) => vec![(account(0), account(1))],
            _ => vec![],
        }
    }

    /// The program of an instruction, if it is a key of 32 bytes.
    pub fn program(&self, instruction: &Instruction) -> Option<Key> {
        let row = self.keys.get(instruction.program as usize)?;
        row.whole.then_some(row.key)
    }

    /// The key at an index, zero where there is none.
    fn key(&self, index: u32) -> Key {
        self.keys.get(index as usize).map_or(ZERO, |row| row.key)
    }
}
