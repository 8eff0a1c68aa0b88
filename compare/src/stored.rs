//! Calls stored with their answers, one record after the other. Numbers are u32, little-endian.
//!
//! | Part | Bytes |
//! |---|---|
//! | length of the rest of the record | 4 |
//! | lengths of names, pack and tables 0 to 4 | 28 |
//! | names, pack | as long as said |
//! | number, place, row counts of tables 0 to 4, passes, tests | 36 |
//! | used rows of tables 0 to 4, one table after the other | counts times 65, 28, 150, 250, 109 |
//!
//! All bytes of a table behind its used rows are 0 and are not stored.

use crate::generate::Case;
use crate::oracle::Reply;
use mbelaguy::{Answer, WIDTHS};

/// One record.
pub fn write(case: &Case, reply: &Reply) -> Vec<u8> {
    let Answer { number, place, counts, passes, tests } = reply.answer;
    let mut rest = Vec::new();
    let lengths = [case.names.len(), case.pack.len()].into_iter().chain(case.lengths);
    rest.extend(lengths.flat_map(|length| (length as u32).to_le_bytes()));
    rest.extend(&case.names);
    rest.extend(&case.pack);
    let numbers = [number, place].into_iter().chain(counts).chain([passes, tests]);
    rest.extend(numbers.flat_map(u32::to_le_bytes));
    for (t, table) in reply.tables.iter().enumerate() {
        rest.extend(&table[..counts[t] as usize * WIDTHS[t]]);
    }
    let mut record = (rest.len() as u32).to_le_bytes().to_vec();
    record.extend(rest);
    record
}

/// The first record, and what follows it.
pub fn read(bytes: &[u8]) -> Option<(Case, Reply, &[u8])> {
    let (length, bytes) = numbers::<1>(bytes)?;
    let (record, following) = bytes.split_at_checked(length[0] as usize)?;
    let ([names, pack, lengths @ ..], rest) = numbers::<7>(record)?;
    let lengths: [usize; 5] = lengths.map(|length| length as usize);
    let (names, rest) = rest.split_at_checked(names as usize)?;
    let (pack, rest) = rest.split_at_checked(pack as usize)?;
    let ([number, place, c0, c1, c2, c3, c4, passes, tests], mut rest) = numbers::<9>(rest)?;
    let counts = [c0, c1, c2, c3, c4];
    let mut tables = lengths.map(|length| vec![0; length]);
    for t in 0..5 {
        let (rows, more) = rest.split_at_checked(counts[t] as usize * WIDTHS[t])?;
        tables[t].get_mut(..rows.len())?.copy_from_slice(rows);
        rest = more;
    }
    let answer = Answer { number, place, counts, passes, tests };
    let case = Case { names: names.to_vec(), pack: pack.to_vec(), lengths };
    rest.is_empty().then_some((case, Reply { answer, tables }, following))
}

fn numbers<const N: usize>(bytes: &[u8]) -> Option<([u32; N], &[u8])> {
    let (front, rest) = bytes.split_at_checked(4 * N)?;
    let number = |k: usize| front[4 * k..4 * k + 4].try_into().expect("four bytes");
    Some((std::array::from_fn(|k| u32::from_le_bytes(number(k))), rest))
}
