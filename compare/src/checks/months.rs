//! Month totals: examples worked by hand, what has to hold of every month, which breaks are noticed,
//! and whether the stored calls are those that the program chooses.

use super::{hold, same, Example, Outcome};
use crate::generate::rng::Rng;
use crate::month::generate::{fed_all, otherwise, Month};
use crate::month::plain::{line, read, Lines, Sums, Transfer};
use crate::month::{answered, broken, chosen, stored, Answer, Call, Reply, ROW, TRANSFER};
use std::{fs, iter};

pub const EXAMPLES: &[Example] = &[
    ("month: a transfer with a fee has three lines, byte for byte", three_lines),
    ("month: a fee that is absent or above the amount is counted apart", apart),
    ("month: source and destination the same have one line", one_line),
    ("month: an absent mint, and a mint of zeros, have lines of their own", mints),
    ("month: 19, before 20", table),
    ("month: 20: rows, flags, order, sums and counts", report),
    ("month: 9, before 10", room),
    ("month: 10 from 4,294,967,296 transfers on", limit),
    ("month: success alone clears what is behind the rows", tail),
];

/// A transfer's row: mint flag and mint, source, destination, amount, fee flag and fee.
fn row(mint: (u8, u8), source: u8, destination: u8, amount: u64, fee: (u8, u64)) -> Vec<u8> {
    let mut row = vec![7; 36];
    row.extend([source; 32]);
    row.extend([destination; 32]);
    row.push(mint.0);
    row.extend([mint.1; 32]);
    row.extend(amount.to_le_bytes());
    row.push(fee.0);
    row.extend(fee.1.to_le_bytes());
    row
}

/// A report's row: mint, account, debits, credits and fees as low and high half, count.
fn total(mint: (u8, u8), account: (u8, u8), sums: [[u64; 2]; 3], apart: u32) -> Vec<u8> {
    let mut row = vec![mint.0];
    row.extend([mint.1; 32]);
    row.push(account.0);
    row.extend([account.1; 32]);
    row.extend(sums.into_iter().flatten().flat_map(u64::to_le_bytes));
    row.extend(apart.to_le_bytes());
    row
}

/// The answer and the rows left by a table, from an empty report with room for some rows.
fn fed(room: usize, table: &[Vec<u8>]) -> (Answer, Vec<Vec<u8>>) {
    let call = Call { report: vec![165; room * ROW], rows: 0, fed: 0, transfers: table.concat() };
    let Reply { answer, report } = answered(&call);
    (answer, report.chunks(ROW).map(<[u8]>::to_vec).collect())
}

fn accepted(rows: u64, fed: u32) -> Answer {
    Answer { number: 0, place: 0, rows, fed }
}

const NONE: [u64; 2] = [0, 0];

fn three_lines() -> Outcome {
    let most = u64::MAX;
    let table = [row((1, 5), 9, 8, 100, (1, 30)), row((1, 5), 9, 8, most, (1, 0))];
    let (answer, rows) = fed(4, &table);
    same("answer", answer, accepted(3, 2))?;
    let expected = [
        total((1, 5), (0, 0), [[99, 1], [69, 1], [30, 0]], 0),
        total((1, 5), (1, 8), [NONE, [69, 1], [30, 0]], 0),
        total((1, 5), (1, 9), [[99, 1], NONE, NONE], 0),
        vec![0; ROW],
    ];
    same("rows", rows, expected.to_vec())
}

fn apart() -> Outcome {
    let table = [
        row((1, 5), 9, 8, 100, (0, 0)),
        row((1, 5), 9, 8, 100, (0, 30)),
        row((1, 5), 9, 8, 100, (1, 101)),
    ];
    let (answer, rows) = fed(1, &table);
    same("answer", answer, accepted(1, 3))?;
    same("rows", rows, vec![total((1, 5), (0, 0), [NONE; 3], 3)])?;
    let (answer, rows) = fed(3, &[row((1, 5), 9, 8, 100, (1, 100))]);
    same("answer", answer, accepted(3, 1))?;
    same("destination", rows[1].clone(), total((1, 5), (1, 8), [NONE, NONE, [100, 0]], 0))
}

fn one_line() -> Outcome {
    let (answer, rows) = fed(2, &[row((1, 5), 9, 9, 100, (1, 30))]);
    same("answer", answer, accepted(2, 1))?;
    let sums = [[100, 0], [70, 0], [30, 0]];
    same("rows", rows, vec![total((1, 5), (0, 0), sums, 0), total((1, 5), (1, 9), sums, 0)])
}

fn mints() -> Outcome {
    let table =
        [row((1, 0), 0, 0, 1, (0, 0)), row((0, 5), 0, 0, 2, (1, 0)), row((0, 0), 0, 0, 3, (1, 0))];
    let (answer, rows) = fed(3, &table);
    same("answer", answer, accepted(3, 3))?;
    let sums = [[5, 0], [5, 0], NONE];
    let expected = [
        total((0, 0), (0, 0), sums, 0),
        total((0, 0), (1, 0), sums, 0),
        total((1, 0), (0, 0), [NONE; 3], 1),
    ];
    same("rows", rows, expected.to_vec())
}

/// Refused so, with all as it was.
fn refused(report: &[u8], rows: usize, fed: u32, transfers: &[u8], number: u32) -> Outcome {
    let call = Call { report: report.to_vec(), rows, fed, transfers: transfers.to_vec() };
    let Reply { answer, report: after } = answered(&call);
    same("answer", answer, Answer { number, place: 0, rows: rows as u64, fed })?;
    same("report", &after[..], report)
}

fn table() -> Outcome {
    let good = row((1, 5), 9, 8, 100, (1, 30));
    for length in [1, 149, 151, 299] {
        refused(&[3; 999], 0, 0, &good.repeat(2)[..length], 19)?;
    }
    refused(&[], usize::MAX, u32::MAX, &[good.clone(), row((2, 5), 9, 8, 1, (1, 0))].concat(), 19)?;
    refused(&[3; 999], 0, 0, &[good, row((0, 5), 9, 8, 1, (255, 0))].concat(), 19)
}

fn report() -> Outcome {
    let (one, other) = (total((0, 0), (0, 0), [NONE; 3], 0), total((0, 0), (0, 1), [NONE; 3], 2));
    let both = [&one[..], &other].concat();
    let empty = Call { report: both.clone(), rows: 2, fed: 2, transfers: Vec::new() };
    same("in order", answered(&empty).answer, accepted(2, 2))?;
    for rows in [3, usize::MAX / ROW + 1, usize::MAX] {
        refused(&both, rows, 2, &[], 20)?;
    }
    refused(&[&other[..], &one].concat(), 2, 2, &[], 20)?;
    refused(&[&other[..], &other].concat(), 2, 2, &[], 20)?;
    refused(&both, 2, 1, &[], 20)?;
    for (at, flag) in [(0, 2), (33, 2), (ROW, 255), (ROW + 33, 255)] {
        let mut forged = both.clone();
        forged[at] = flag;
        refused(&forged, 2, 2, &[], 20)?;
    }
    for field in 0..3 {
        let mut sums = [NONE; 3];
        sums[field] = [0, 1 << 32];
        refused(&total((0, 0), (0, 0), sums, 0), 1, 0, &[], 20)?;
        sums[field] = [u64::MAX, (1 << 32) - 1];
        let report = total((0, 0), (0, 0), sums, 0);
        let call = Call { report, rows: 1, fed: 0, transfers: Vec::new() };
        same("just below", answered(&call).answer, accepted(1, 0))?;
    }
    Ok(())
}

fn room() -> Outcome {
    let transfer = row((1, 5), 9, 8, 100, (1, 30));
    refused(&vec![3; 3 * ROW - 1], 0, 0, &transfer, 9)?;
    refused(&vec![3; 2 * ROW], 0, u32::MAX, &transfer, 9)?;
    refused(&[], 1, u32::MAX, &transfer, 20)
}

fn limit() -> Outcome {
    let transfer = row((1, 5), 9, 8, 100, (1, 30));
    let report = vec![3; 3 * ROW];
    refused(&report, 0, u32::MAX, &transfer, 10)?;
    refused(&report, 0, u32::MAX - 1, &transfer.repeat(2), 10)?;
    let last = Call { report, rows: 0, fed: u32::MAX - 1, transfers: transfer };
    same("the last transfer", answered(&last).answer, accepted(3, u32::MAX))
}

fn tail() -> Outcome {
    let line = total((0, 0), (0, 0), [NONE; 3], 0);
    let report = [&line[..], &[3; 200]].concat();
    let call = Call { report, rows: 1, fed: 0, transfers: Vec::new() };
    let Reply { answer, report } = answered(&call);
    same("answer", answer, accepted(1, 0))?;
    same("report", report, [&line[..], &[0; 200]].concat())
}

/// What has to hold of a month that was fed from an empty report on: the same transfers in another
/// order and cut otherwise leave the same bytes, debits are credits plus fees, and each sum is the
/// sum over the list of all transfers.
pub fn holds(seed: u64, month: &Month) -> Option<Outcome> {
    let (tables, report) = month.whole.as_ref()?;
    let all = tables.concat();
    let otherwise = otherwise(tables, &mut Rng::new(!seed));
    Some(
        same("cut otherwise", fed_all(&otherwise, report.len()), Ok(report.clone()))
            .and_then(|()| sums_over_list(&all, report)),
    )
}

/// Longer lists would take too long: each line is summed over the whole list.
const LONGEST_LIST: usize = 300;

fn sums_over_list(transfers: &[u8], report: &[u8]) -> Outcome {
    let all: Vec<Transfer> = transfers.chunks(TRANSFER).map(Transfer::of).collect();
    let lines = read(report, report.len() / ROW, all.len() as u32).ok_or("not in order")?;
    let of = |mint: bool| {
        let chosen = lines.iter().filter(move |(line, _)| (line[33] == 0) == mint);
        chosen.fold(Sums::default(), |a, (_, b)| (a.0 + b.0, a.1 + b.1, a.2 + b.2, a.3 + b.3))
    };
    let (mints, accounts) = (of(true), of(false));
    same("debits are credits plus fees", mints.0, mints.1 + mints.2)?;
    same("accounts and mints", (accounts.0, accounts.1, accounts.2), (mints.0, mints.1, mints.2))?;
    same("counted apart on accounts' lines", accounts.3, 0)?;
    if all.len() > LONGEST_LIST {
        return Ok(());
    }
    same("lines", lines.clone(), lines_of(&all))
}

/// The lines that occur, each with its sums over the list.
fn lines_of(all: &[Transfer]) -> Lines {
    let summed = |one: &&Transfer| one.fee.is_some_and(|fee| fee <= one.amount);
    let sum = |of: &dyn Fn(&Transfer) -> bool, number: fn(&Transfer) -> u64| {
        let chosen = all.iter().filter(summed).filter(|one| of(one));
        chosen.map(|one| u128::from(number(one))).sum::<u128>()
    };
    let amount = |one: &Transfer| one.amount;
    let rest = |one: &Transfer| one.amount - one.fee.unwrap_or_default();
    let fee = |one: &Transfer| one.fee.unwrap_or_default();
    let mut lines = Lines::new();
    for one in all {
        let own = |other: &Transfer| other.mint == one.mint;
        let apart = all.iter().filter(|one| !summed(one)).filter(|other| own(other)).count();
        let sums = (sum(&own, amount), sum(&own, rest), sum(&own, fee), apart as u64);
        lines.insert(line(&one.mint, None), sums);
    }
    for one in all.iter().filter(summed) {
        for account in [one.source, one.destination] {
            let from = |other: &Transfer| other.mint == one.mint && other.source == account;
            let to = |other: &Transfer| other.mint == one.mint && other.destination == account;
            let sums = (sum(&from, amount), sum(&to, rest), sum(&to, fee), 0);
            lines.insert(line(&one.mint, Some(&account)), sums);
        }
    }
    lines
}

/// For each deliberate break, by name, whether one of the calls of some seeds notices it. The copy
/// with nothing switched on has to answer as the plain one does.
pub fn noticed(seeds: std::ops::Range<u64>) -> Result<Vec<(&'static str, bool)>, String> {
    let calls = seeds.flat_map(|seed| Month::of(seed).calls).map(|call| {
        let reply = answered(&call);
        (call, reply)
    });
    noticed_by(calls)
}

/// The same of the calls in crates/month_replay. A damaged answer is not the right one and does not
/// count.
pub fn noticed_by_stored() -> Result<Vec<(&'static str, bool)>, String> {
    let bytes = found("stdin")?;
    let mut rest = &bytes[..];
    let records = iter::from_fn(|| {
        let (call, reply, following) = stored::read(rest)?;
        rest = following;
        Some((call, reply))
    });
    noticed_by(records.filter(|(call, reply)| answered(call) == *reply))
}

fn noticed_by(
    calls: impl Iterator<Item = (Call, Reply)>,
) -> Result<Vec<(&'static str, bool)>, String> {
    let mut noticed: Vec<_> = broken::BREAKS.iter().map(|name| (*name, false)).collect();
    for (call, reply) in calls {
        same("copy, nothing switched on", broken::answered(None, &call), reply.clone())?;
        for (number, (_, seen)) in noticed.iter_mut().enumerate().filter(|one| !one.1 .1) {
            *seen = broken::answered(Some(number), &call) != reply;
        }
        if noticed.iter().all(|(_, seen)| *seen) {
            break;
        }
    }
    Ok(noticed)
}

/// Both files of crates/month_replay, byte for byte, and each record read back.
pub fn committed() -> Outcome {
    for (name, bytes) in chosen::files() {
        hold(name, found(name)? == bytes)?;
    }
    Ok(())
}

fn found(name: &str) -> Result<Vec<u8>, String> {
    let path = format!("{}/../crates/month_replay/{name}", env!("CARGO_MANIFEST_DIR"));
    fs::read(&path).map_err(|error| format!("{path}: {error}"))
}
