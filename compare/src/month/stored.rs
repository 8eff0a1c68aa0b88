//! Calls stored with their answers, one record after the other. Numbers are little-endian.
//!
//! | Part | Bytes |
//! |---|---|
//! | length of the rest of the record | 4 |
//! | length of the report's buffer, length of the table | 4, 4 |
//! | rows, transfers fed | 8, 4 |
//! | the buffer, the table | as long as said |
//! | number, place, rows, transfers fed | 4, 4, 8, 4 |
//! | the buffer after the call | as long as before |

use super::{Answer, Call, Reply};

/// One record.
pub fn write(call: &Call, reply: &Reply) -> Vec<u8> {
    let mut rest = Vec::new();
    rest.extend((call.report.len() as u32).to_le_bytes());
    rest.extend((call.transfers.len() as u32).to_le_bytes());
    rest.extend((call.rows as u64).to_le_bytes());
    rest.extend(call.fed.to_le_bytes());
    rest.extend(&call.report);
    rest.extend(&call.transfers);
    let Answer { number, place, rows, fed } = reply.answer;
    rest.extend(number.to_le_bytes());
    rest.extend(place.to_le_bytes());
    rest.extend(rows.to_le_bytes());
    rest.extend(fed.to_le_bytes());
    rest.extend(&reply.report);
    let mut record = (rest.len() as u32).to_le_bytes().to_vec();
    record.extend(rest);
    record
}

/// The first record, and what follows it.
pub fn read(bytes: &[u8]) -> Option<(Call, Reply, &[u8])> {
    let (length, bytes) = number::<4>(bytes)?;
    let (record, following) = bytes.split_at_checked(length as usize)?;
    let (buffer, record) = number::<4>(record)?;
    let (table, record) = number::<4>(record)?;
    let (rows, record) = number::<8>(record)?;
    let (fed, record) = number::<4>(record)?;
    let (report, record) = record.split_at_checked(buffer as usize)?;
    let (transfers, record) = record.split_at_checked(table as usize)?;
    let call = Call {
        report: report.to_vec(),
        rows: rows as usize,
        fed: fed as u32,
        transfers: transfers.to_vec(),
    };
    let (refusal, record) = number::<4>(record)?;
    let (place, record) = number::<4>(record)?;
    let (rows, record) = number::<8>(record)?;
    let (fed, after) = number::<4>(record)?;
    let answer = Answer { number: refusal as u32, place: place as u32, rows, fed: fed as u32 };
    let reply = Reply { answer, report: after.to_vec() };
    (after.len() == report.len()).then_some((call, reply, following))
}

/// A number of N bytes, at most 8, and what follows it.
fn number<const N: usize>(bytes: &[u8]) -> Option<(u64, &[u8])> {
    let (front, rest) = bytes.split_at_checked(N)?;
    Some((front.iter().rev().fold(0, |number, byte| number << 8 | u64::from(*byte)), rest))
}
