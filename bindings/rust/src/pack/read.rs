//! Reading a pack.

use super::{Balance, Group, Inner, Instruction, KeyRow, Pack, MARK, MAX_BYTES, TRAILER};
use crate::bytes::Reader;
use crate::{Refusal, Section};

/// What a pack says, or the refusal from 2 to 4 that it meets. One that a call refuses for what it says,
/// such as a balance row that names no key, is read all the same.
pub fn read(bytes: &[u8]) -> Result<Pack, Refusal> {
    let [keys, balances, outer, inner, pools] = sections(bytes)?;
    Ok(Pack {
        keys: all(keys, Section::Keys, Reader::key_row)?,
        balances: all(balances, Section::Balances, Reader::balance)?,
        outer: all(outer, Section::Outer, Reader::instruction)?,
        groups: all(inner, Section::Inner, Reader::group)?,
        pools: all(pools, Section::Pools, Reader::key)?,
    })
}

/// The five sections as parts of the pack.
pub fn sections(bytes: &[u8]) -> Result<[&[u8]; 5], Refusal> {
    if !(TRAILER..=MAX_BYTES).contains(&bytes.len()) || !bytes.ends_with(&MARK) {
        return Err(Refusal::Mark);
    }
    let (body, trailer) = bytes.split_at(bytes.len() - TRAILER);
    let mut starts = Reader(trailer);
    let mut bounds = [body.len(); 6];
    for start in &mut bounds[..5] {
        *start = starts.u32().ok_or(Refusal::Mark)? as usize;
    }
    if bounds[0] != 0 || !bounds.is_sorted() {
        return Err(Refusal::Starts);
    }
    Ok(std::array::from_fn(|k| &body[bounds[k]..bounds[k + 1]]))
}

/// Rows or items to the section's end.
fn all<'a, T>(
    bytes: &'a [u8],
    section: Section,
    item: fn(&mut Reader<'a>) -> Option<T>,
) -> Result<Vec<T>, Refusal> {
    let mut reader = Reader(bytes);
    let mut items = Vec::new();
    while !reader.0.is_empty() {
        items.push(item(&mut reader).ok_or(Refusal::Section(section))?);
    }
    Ok(items)
}

impl Reader<'_> {
    fn key_row(&mut self) -> Option<KeyRow> {
        Some(KeyRow { whole: self.flag()?, key: self.key()? })
    }

    fn balance(&mut self) -> Option<Balance> {
        Some(Balance { account: self.u32()?, mint: self.key()? })
    }

    fn instruction(&mut self) -> Option<Instruction> {
        let program = self.u32()?;
        let accounts = self.u16()?;
        let data = self.u16()?;
        Some(Instruction {
            program,
            accounts: self.take(usize::from(accounts))?.to_vec(),
            data: self.take(usize::from(data))?.to_vec(),
        })
    }

    fn inner(&mut self) -> Option<Inner> {
        let height = self.optional()?.map(u32::from_le_bytes);
        Some(Inner { height, instruction: self.instruction()? })
    }

    fn group(&mut self) -> Option<Group> {
        let outer = self.u32()?;
        let count = self.u16()?;
        let instructions = (0..count).map(|_| self.inner()).collect::<Option<_>>()?;
        Some(Group { outer, instructions })
    }
}
