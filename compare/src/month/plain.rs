//! One call of the month totals, worked out plainly from the words that ask for it: rows in, a map of
//! lines, rows out.

use std::collections::BTreeMap;

/// Bytes of a transfer's row, and of a report's.
pub const TRANSFER: usize = 150;
pub const ROW: usize = 118;

/// The first 66 bytes of a report's row: mint flag and mint, account flag and account.
pub type Line = [u8; 66];

/// Debits, credits, fees, and the transfers that are counted apart.
pub type Sums = (u128, u128, u128, u64);

pub type Lines = BTreeMap<Line, Sums>;

/// No sum of a report in order is as great.
pub const SUM_LIMIT: u128 = 1 << 96;

/// What a call answers.
#[derive(Clone, Copy, Debug, PartialEq, Eq)]
pub struct Answer {
    pub number: u32,
    pub place: u32,
    pub rows: u64,
    pub fed: u32,
}

/// Feeds a table into a report. A refusal leaves the report as it stood.
pub fn month(report: &mut [u8], rows: usize, fed: u32, transfers: &[u8]) -> Answer {
    match totals(report, rows, fed, transfers) {
        Ok(lines) => {
            let used = lines.len() * ROW;
            write(&lines, report);
            report[used..].fill(0);
            let fed = fed as usize + count(transfers);
            Answer { number: 0, place: 0, rows: lines.len() as u64, fed: fed as u32 }
        }
        Err(number) => Answer { number, place: 0, rows: rows as u64, fed },
    }
}

/// The lines after the feed, or the number of the first refusal that applies.
fn totals(report: &[u8], rows: usize, fed: u32, transfers: &[u8]) -> Result<Lines, u32> {
    if !is_table(transfers) {
        return Err(19);
    }
    let Some(mut lines) = read(report, rows, fed) else {
        return Err(20);
    };
    feed(&mut lines, transfers);
    if lines.len() > report.len() / ROW {
        return Err(9);
    }
    if passes_limit(fed, transfers) {
        return Err(10);
    }
    Ok(lines)
}

/// Whole rows, and every flag 0 or 1.
pub fn is_table(transfers: &[u8]) -> bool {
    transfers.len() % TRANSFER == 0
        && transfers.chunks_exact(TRANSFER).all(|row| row[100] <= 1 && row[141] <= 1)
}

pub fn count(transfers: &[u8]) -> usize {
    transfers.len() / TRANSFER
}

/// More than 4,294,967,295 transfers.
pub fn passes_limit(fed: u32, transfers: &[u8]) -> bool {
    fed as usize + count(transfers) > u32::MAX as usize
}

/// The lines of a report, if it is in order.
pub fn read(report: &[u8], rows: usize, fed: u32) -> Option<Lines> {
    if rows > report.len() / ROW {
        return None;
    }
    let mut lines = Lines::new();
    let mut last = None;
    for row in report.chunks_exact(ROW).take(rows) {
        let line: Line = part(row, 0);
        if line[0] > 1 || line[33] > 1 {
            return None;
        }
        if last.is_some_and(|last: Line| line <= last) {
            return None;
        }
        let sum = |at: usize| u128::from_le_bytes(part(row, at));
        let (debits, credits, fees) = (sum(66), sum(82), sum(98));
        if [debits, credits, fees].iter().any(|sum| *sum >= SUM_LIMIT) {
            return None;
        }
        let apart = u32::from_le_bytes(part(row, 114));
        if apart > fed {
            return None;
        }
        lines.insert(line, (debits, credits, fees, apart.into()));
        last = Some(line);
    }
    Some(lines)
}

/// Adds the transfers of a table to the lines that they touch.
pub fn feed(lines: &mut Lines, transfers: &[u8]) {
    for row in transfers.chunks_exact(TRANSFER) {
        let Transfer { mint, source, destination, amount, fee } = Transfer::of(row);
        let own = lines.entry(line(&mint, None)).or_default();
        let Some(fee) = fee.filter(|fee| *fee <= amount) else {
            own.3 += 1;
            continue;
        };
        let rest = amount - fee;
        own.0 = sum(own.0, amount);
        own.1 = sum(own.1, rest);
        own.2 = sum(own.2, fee);
        let payer = lines.entry(line(&mint, Some(&source))).or_default();
        payer.0 = sum(payer.0, amount);
        let taker = lines.entry(line(&mint, Some(&destination))).or_default();
        taker.1 = sum(taker.1, rest);
        taker.2 = sum(taker.2, fee);
    }
}

fn sum(sum: u128, number: u64) -> u128 {
    sum + u128::from(number)
}

/// What a row of the table says.
pub struct Transfer {
    /// With its flag; all zero where there is none.
    pub mint: [u8; 33],
    pub source: [u8; 32],
    pub destination: [u8; 32],
    pub amount: u64,
    pub fee: Option<u64>,
}

impl Transfer {
    pub fn of(row: &[u8]) -> Self {
        Transfer {
            mint: if row[100] == 1 { part(row, 100) } else { [0; 33] },
            source: part(row, 36),
            destination: part(row, 68),
            amount: u64::from_le_bytes(part(row, 133)),
            fee: (row[141] == 1).then(|| u64::from_le_bytes(part(row, 142))),
        }
    }
}

/// An account's line, or the mint's own.
pub fn line(mint: &[u8; 33], account: Option<&[u8; 32]>) -> Line {
    let mut line = [0; 66];
    line[..33].copy_from_slice(mint);
    if let Some(account) = account {
        line[33] = 1;
        line[34..].copy_from_slice(account);
    }
    line
}

/// The rows of a report, from the first on.
pub fn write(lines: &Lines, report: &mut [u8]) {
    for (row, (line, (debits, credits, fees, apart))) in report.chunks_exact_mut(ROW).zip(lines) {
        row[..66].copy_from_slice(line);
        row[66..82].copy_from_slice(&debits.to_le_bytes());
        row[82..98].copy_from_slice(&credits.to_le_bytes());
        row[98..114].copy_from_slice(&fees.to_le_bytes());
        row[114..].copy_from_slice(&(*apart as u32).to_le_bytes());
    }
}

/// So many bytes of a row.
fn part<const N: usize>(row: &[u8], at: usize) -> [u8; N] {
    row[at..at + N].try_into().expect("a row has all its fields")
}
