//! The month as comma-separated values, to be posted: a heading, then one line for each row of the
//! report, as RFC 4180 has it. Nothing here has a comma, a quote or a break in it, so nothing is
//! quoted.

use super::{Ledger, UNKNOWN};
use mbelaguy::rows::Mark;
use mbelaguy::{base58, MonthLine};

const HEADING: [&str; 10] = [
    "row",
    "mint",
    "account",
    "debits",
    "credits",
    "fees",
    "counted_apart",
    "transfers",
    "filled_in",
    "in_doubt",
];

/// The rows of the report, keys in full.
pub fn csv(ledger: &Ledger) -> String {
    let rows = ledger.month.lines().map(|line| fields(ledger, &line));
    let records = [HEADING.map(String::from)].into_iter().chain(rows);
    records.map(|fields| fields.join(",") + "\r\n").collect()
}

/// A mint's own row has no account. What it tells of the mint's transfers is empty in an account's.
fn fields(ledger: &Ledger, line: &MonthLine) -> [String; HEADING.len()] {
    let mint = line.mint.map_or(UNKNOWN.to_string(), |key| base58::encode(&key));
    let [debits, credits, fees] = [line.debits, line.credits, line.fees].map(|sum| sum.to_string());
    let apart = line.apart.to_string();
    let (row, account, [transfers, filled_in, in_doubt]) = match line.account {
        None => {
            let ways = ledger.ways(line.mint);
            let [filled_in, in_doubt] =
                [Mark::FilledIn, Mark::InDoubt].map(|mark| ways.0[mark as usize]);
            let told = [ways.transfers(), filled_in, in_doubt].map(|count| count.to_string());
            ("mint", String::new(), told)
        }
        Some(key) => ("account", base58::encode(&key), Default::default()),
    };
    let row = row.to_string();
    [row, mint, account, debits, credits, fees, apart, transfers, filled_in, in_doubt]
}
