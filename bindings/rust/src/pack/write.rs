//! Writing a pack.

use super::{Instruction, Pack, MARK, MAX_BYTES, MAX_COUNT};
use std::error::Error;
use std::fmt;

/// What has no room in a pack, and how much of it there is; or a balance row that names no key.
///
/// ```
/// use mbelaguy::pack::{Balance, DoesNotFit, Instruction, Pack};
///
/// let long = Instruction { data: vec![0; 70_000], ..Instruction::default() };
/// let pack = Pack { outer: vec![long], ..Pack::default() };
/// assert_eq!(pack.write(), Err(DoesNotFit::Data(70_000)));
///
/// let balances = vec![Balance { account: 0, mint: [9; 32] }];
/// let pack = Pack { balances, ..Pack::default() };
/// assert_eq!(pack.write(), Err(DoesNotFit::Balance { account: 0, keys: 0 }));
/// ```
#[derive(Clone, Copy, Debug, PartialEq, Eq)]
pub enum DoesNotFit {
    /// Accounts of an instruction.
    Accounts(usize),
    /// Bytes of an instruction's data.
    Data(usize),
    /// Instructions of a group.
    Instructions(usize),
    /// Bytes of the pack, trailer included.
    Bytes(usize),
    /// A balance row's account index, at or above the number of keys.
    Balance {
        /// The index.
        account: u32,
        /// The number of keys.
        keys: usize,
    },
}

impl fmt::Display for DoesNotFit {
    fn fmt(&self, f: &mut fmt::Formatter<'_>) -> fmt::Result {
        match self {
            Self::Accounts(n) => write!(f, "an instruction has {n} accounts, over {MAX_COUNT}"),
            Self::Data(n) => write!(f, "an instruction has {n} bytes of data, over {MAX_COUNT}"),
            Self::Instructions(n) => write!(f, "a group has {n} instructions, over {MAX_COUNT}"),
            Self::Bytes(n) => write!(f, "the pack would have {n} bytes, over {MAX_BYTES}"),
            Self::Balance { account, keys } => {
                write!(f, "a balance row names account {account}, and there are {keys} keys")
            }
        }
    }
}

impl Error for DoesNotFit {}

impl Pack {
    /// The pack's bytes.
    pub fn write(&self) -> Result<Vec<u8>, DoesNotFit> {
        let bytes = join(&self.sections()?);
        match bytes.len() {
            ..=MAX_BYTES => Ok(bytes),
            length => Err(DoesNotFit::Bytes(length)),
        }
    }

    /// The five sections, each by itself, however long.
    pub fn sections(&self) -> Result<[Vec<u8>; 5], DoesNotFit> {
        let mut sections: [Vec<u8>; 5] = Default::default();
        let [keys, balances, outer, inner, pools] = &mut sections;
        for row in &self.keys {
            keys.push(u8::from(row.whole));
            keys.extend(row.key);
        }
        for balance in &self.balances {
            let (account, keys) = (balance.account, self.keys.len());
            if account as usize >= keys {
                return Err(DoesNotFit::Balance { account, keys });
            }
            balances.extend(account.to_le_bytes());
            balances.extend(balance.mint);
        }
        for instruction in &self.outer {
            put_instruction(outer, instruction)?;
        }
        for group in &self.groups {
            inner.extend(group.outer.to_le_bytes());
            inner.extend(count(group.instructions.len(), DoesNotFit::Instructions)?);
            for item in &group.instructions {
                inner.push(u8::from(item.height.is_some()));
                inner.extend(item.height.unwrap_or(0).to_le_bytes());
                put_instruction(inner, &item.instruction)?;
            }
        }
        pools.extend(self.pools.iter().flatten());
        Ok(sections)
    }
}

/// Sections one after the other, then the trailer. What is longer than a pack may be is joined too.
///
/// ```
/// use mbelaguy::pack::{join, sections, POOL_ROW};
///
/// let parts = [vec![], vec![], vec![], vec![], vec![7; POOL_ROW]];
/// let pack = join(&parts);
/// assert_eq!(sections(&pack), Ok(parts.each_ref().map(Vec::as_slice)));
/// ```
pub fn join(sections: &[Vec<u8>; 5]) -> Vec<u8> {
    let mut pack = Vec::new();
    let mut starts = Vec::new();
    for section in sections {
        starts.extend((pack.len() as u32).to_le_bytes());
        pack.extend(section);
    }
    pack.extend(starts);
    pack.extend(MARK);
    pack
}

fn put_instruction(section: &mut Vec<u8>, instruction: &Instruction) -> Result<(), DoesNotFit> {
    section.extend(instruction.program.to_le_bytes());
    section.extend(count(instruction.accounts.len(), DoesNotFit::Accounts)?);
    section.extend(count(instruction.data.len(), DoesNotFit::Data)?);
    section.extend(&instruction.accounts);
    section.extend(&instruction.data);
    Ok(())
}

fn count(n: usize, wrong: fn(usize) -> DoesNotFit) -> Result<[u8; 2], DoesNotFit> {
    u16::try_from(n).map(u16::to_le_bytes).map_err(|_| wrong(n))
}
