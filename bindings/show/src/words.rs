//! Phrases for what is shown. A phrase is made of words and keys, so that each way of printing sets
//! keys as it likes.

use crate::report::{Deed, Node, Program, Report};
use mbelaguy::rows::{
    Action, Invocation, Lack, Leg, Mark, Mint, MintRow, Native, Reason, Transfer,
};
use mbelaguy::{ids, Key};

/// A part of a phrase.
#[derive(Clone, Debug, PartialEq, Eq)]
pub enum Part {
    Words(String),
    /// Words that tell at a glance what the phrase is about.
    Title(String),
    Key(Key),
    /// How the mint before it is known.
    Known(Mint),
}

pub type Phrase = Vec<Part>;

fn words(text: impl Into<String>) -> Part {
    Part::Words(text.into())
}

fn title(text: impl Into<String>) -> Part {
    Part::Title(text.into())
}

/// The pack in one line.
pub fn pack(report: &Report) -> String {
    let pack = &report.pack;
    format!(
        "pack of {} bytes: {}, {}, {}, {}, {}",
        grouped(report.bytes as u64),
        count(pack.keys.len(), "key"),
        count(pack.balances.len(), "balance"),
        count(pack.outer.len(), "outer instruction"),
        count(pack.groups.len(), "inner group"),
        count(pack.pools.len(), "graduated pool")
    )
}

/// The answer, one count after the other.
pub fn counts(report: &Report) -> Vec<String> {
    let names = ["mint", "invocation", "transfer", "swap leg", "native action"];
    let tables = names.into_iter().zip(report.answer.counts);
    let mut counts: Vec<_> = tables.map(|(name, n)| count(n as usize, name)).collect();
    let passes = report.answer.passes as usize;
    counts.push(if passes == 1 { "1 pass".to_string() } else { format!("{passes} passes") });
    counts.push(count(report.answer.tests as usize, "test"));
    counts
}

/// So many of a name.
pub fn count(n: usize, name: &str) -> String {
    format!("{} {name}{}", grouped(n as u64), if n == 1 { "" } else { "s" })
}

/// The rows of table 0, then the accounts that have none because they were seen with two mints: each
/// account, and its mint.
pub fn mints(report: &Report) -> Vec<(Key, Mint)> {
    let marked = |row: &MintRow| (row.account, Mint::Marked { key: row.mint, mark: row.mark });
    let none = |account: &Key| (*account, Mint::Unknown(Lack::Contradictory));
    let rows = report.mints.iter().map(marked);
    rows.chain(report.contradicted.iter().map(none)).collect()
}

/// What it means that mints are in doubt, where some are: without them every tablet that has this
/// evidence shows these mints.
pub fn doubt(report: &Report) -> Option<&'static str> {
    let some = report.mints.iter().any(|row| row.mark == Mark::InDoubt);
    some.then_some(
        "in doubt: transfers lead here from accounts with different recorded mints; \
         the same evidence in another order may show another of them",
    )
}

/// The program of an invocation.
pub fn program(node: &Node) -> Part {
    match node.program {
        Program::Key(ids::SYSTEM) => title("System"),
        Program::Key(key) => Part::Key(key),
        Program::Unresolved(index) => title(format!("unresolved program, key index {index}")),
    }
}

/// Where an invocation stands in the transaction.
pub fn position(invocation: &Invocation) -> String {
    match (invocation.inner, invocation.height) {
        (None, _) => format!("outer {}", invocation.outer),
        (Some(inner), Some(height)) => {
            format!("inner {}.{inner}, height {height}", invocation.outer)
        }
        (Some(inner), None) => format!("inner {}.{inner}, height unknown", invocation.outer),
    }
}

/// What the row of an invocation tells that its own transfer and leg do not. Why it gave no transfer is
/// told of token programs alone: of others nobody expects one.
pub fn notes(invocation: &Invocation) -> Vec<String> {
    let notes = [
        (invocation.swaps_inside, "swaps inside"),
        (invocation.transfers_inside, "transfers inside"),
        (invocation.skipped, "skipped for routes"),
    ];
    let notes = notes.into_iter().filter(|(holds, _)| *holds).map(|(_, note)| note.to_string());
    let reason = invocation.reason.filter(|reason| *reason != Reason::NotToken);
    notes.chain(reason.map(|reason| format!("no transfer: {reason}"))).collect()
}

/// What an invocation did, in one phrase or more.
pub fn deed(deed: &Deed) -> Vec<Phrase> {
    match deed {
        Deed::Leg(leg) => self::leg(leg),
        Deed::Transfer(transfer) => vec![self::transfer(transfer)],
        Deed::Native(native) => vec![self::native(native)],
    }
}

fn leg(leg: &Leg) -> Vec<Phrase> {
    let mut first = vec![
        title(format!("swap on {}", leg.protocol)),
        words("pool"),
        Part::Key(leg.pool),
        words("by"),
        Part::Key(leg.trader),
    ];
    if let Some(mode) = leg.mode {
        first.push(words(format!("(StonkFun {mode})")));
    }
    if leg.graduated {
        first.push(words("(graduated pool)"));
    }
    let (paid, got) = match leg.exact_in {
        true => (("exactly", leg.amount), ("at least", leg.threshold)),
        false => (("at most", leg.threshold), ("exactly", leg.amount)),
    };
    let mut input = vec![words(format!("in {}", paid.0))];
    input.extend(amount(paid.1, leg.input_mint));
    input.extend([words("from"), Part::Key(leg.input)]);
    let mut output = vec![words(format!("out {}", got.0))];
    output.extend(amount(got.1, leg.output_mint));
    output.extend([words("to"), Part::Key(leg.output)]);
    vec![first, input, output]
}

fn transfer(transfer: &Transfer) -> Phrase {
    let mut phrase = vec![title("transfer")];
    phrase.extend(amount(transfer.amount, transfer.mint));
    phrase.extend([words("from"), Part::Key(transfer.source)]);
    phrase.extend([words("to"), Part::Key(transfer.destination)]);
    match transfer.fee {
        Some(0) => {}
        Some(fee) => phrase.push(words(format!("with a fee of {}", units(fee, &transfer.mint)))),
        None => phrase.push(words("(fee unknown)")),
    }
    phrase
}

fn native(native: &Native) -> Phrase {
    let (done, more) = match native.action {
        Action::Fund { source, lamports } => {
            ("fund", vec![words(format!("with {} from", sol(lamports))), Part::Key(source)])
        }
        Action::Sync => ("sync", vec![]),
        Action::Close { destination, authority } => {
            ("close", vec![words("to"), Part::Key(destination), words("by"), Part::Key(authority)])
        }
    };
    let mint = Mint::Marked { key: ids::WRAPPED_SOL, mark: native.mark };
    let mut phrase = vec![title(done), words("wrapped SOL account"), Part::Key(native.account)];
    phrase.push(Part::Known(mint));
    phrase.extend(more);
    phrase
}

/// So much of a mint, and how that is known.
fn amount(value: u64, mint: Mint) -> Phrase {
    let units = units(value, &mint);
    let mut phrase = match mint.key() {
        Some(ids::WRAPPED_SOL) => vec![words(format!("{units} wrapped"))],
        Some(key) => vec![words(format!("{units} of")), Part::Key(key)],
        None => vec![words(format!("{units} of an unknown mint"))],
    };
    phrase.push(Part::Known(mint));
    phrase
}

/// Wrapped SOL has nine decimals; of other mints the pack tells none, so their units are counted.
fn units(value: u64, mint: &Mint) -> String {
    match mint.key() {
        Some(ids::WRAPPED_SOL) => sol(value),
        _ => grouped(value),
    }
}

fn sol(lamports: u64) -> String {
    let decimals = format!("{:09}", lamports % 1_000_000_000);
    let whole = grouped(lamports / 1_000_000_000);
    match decimals.trim_end_matches('0') {
        "" => format!("{whole} SOL"),
        decimals => format!("{whole}.{decimals} SOL"),
    }
}

/// A number with a comma before every three digits.
pub fn grouped(number: impl Into<u128>) -> String {
    let digits = number.into().to_string();
    let mut text = String::new();
    for (at, digit) in digits.chars().enumerate() {
        if at > 0 && (digits.len() - at).is_multiple_of(3) {
            text.push(',');
        }
        text.push(digit);
    }
    text
}
