//! What the transfers of many packs add up to, by mint and by account: `Count` gathers it, `Ledger` is
//! what is shown, as text, as a page and as comma-separated values.

mod csv;
mod page;
mod text;

pub use csv::csv;
pub use page::page;
pub use text::text;

use crate::keys::Texts;
use crate::words::{count, grouped};
use crate::Keys;
use mbelaguy::rows::{Lack, Mark, Mint};
use mbelaguy::{route, Key, Month, MonthLine, Refusal, Table, Tables, Totals, WIDTHS};
use std::collections::{BTreeMap, BTreeSet};

/// Bytes of transfers that are fed together: each feed reads the whole report once, so that one for
/// each pack would cost far more.
const TOGETHER: usize = 4_096 * WIDTHS[Table::Transfers as usize];

/// A month while its packs are counted.
#[derive(Default)]
pub struct Count {
    month: Month,
    /// Rows of table 2 that were not fed yet.
    waiting: Vec<u8>,
    packs: usize,
    transfers: u32,
    ways: BTreeMap<Option<Key>, Ways>,
}

/// A month whose packs are counted.
pub struct Ledger {
    pub month: Month,
    pub packs: usize,
    pub left_out: Vec<LeftOut>,
    ways: BTreeMap<Option<Key>, Ways>,
}

/// A file of which nothing is counted.
#[derive(Clone, Debug, PartialEq, Eq)]
pub struct LeftOut {
    pub file: String,
    pub why: String,
}

impl Count {
    /// Counts the transfers of a pack, or nothing of it where it is refused.
    pub fn add(&mut self, names: &[u8], pack: &[u8]) -> Result<(), Refusal> {
        let mut tables = Tables::for_pack(pack);
        let rows = route(names, pack, &mut tables)?.counts[Table::Transfers as usize];
        // Met here, the limit refuses the one pack that passes it, and not all that wait with it.
        let transfers = self.transfers.checked_add(rows).ok_or(Refusal::Limit)?;
        let used = tables.used(Table::Transfers);
        if self.waiting.len() + used.len() > TOGETHER {
            self.feed()?;
        }
        self.waiting.extend(used);
        self.transfers = transfers;
        self.packs += 1;
        for transfer in tables.transfers() {
            self.ways.entry(transfer.mint.key()).or_default().0[way(&transfer.mint)] += 1;
        }
        Ok(())
    }

    /// The month as it stands, and the files that were left out of it.
    pub fn close(mut self, left_out: Vec<LeftOut>) -> Result<Ledger, Refusal> {
        self.feed()?;
        Ok(Ledger { month: self.month, packs: self.packs, left_out, ways: self.ways })
    }

    fn feed(&mut self) -> Result<(), Refusal> {
        self.month.feed(&self.waiting)?;
        self.waiting.clear();
        Ok(())
    }
}

/// How many transfers came by their mint in each way, or lack one.
#[derive(Clone, Copy, Default)]
struct Ways([u32; WAYS.len()]);

/// The ways. Of a mint only how it is known is meant.
const WAYS: [Mint; 5] = [
    Mint::Marked { key: [0; 32], mark: Mark::Recorded },
    Mint::Marked { key: [0; 32], mark: Mark::FilledIn },
    Mint::Marked { key: [0; 32], mark: Mark::InDoubt },
    Mint::Unknown(Lack::NoEvidence),
    Mint::Unknown(Lack::Contradictory),
];

/// Which of the ways it is.
fn way(mint: &Mint) -> usize {
    match mint {
        Mint::Marked { mark, .. } => *mark as usize,
        Mint::Named { lack, .. } | Mint::Unknown(lack) => Mark::ALL.len() + *lack as usize,
    }
}

impl Ways {
    fn transfers(&self) -> u32 {
        self.0.iter().sum()
    }

    /// The ways that occur, each with its words.
    fn words(&self) -> impl Iterator<Item = (Mint, String)> {
        let each = WAYS.into_iter().zip(self.0).filter(|(_, transfers)| *transfers > 0);
        each.map(|(way, transfers)| (way, format!("{} {way}", grouped(transfers))))
    }
}

/// What is said beside the totals.
const NOTE: &str = "Amounts are in each mint's smallest unit. A transfer whose fee is unknown or \
                    above its amount is counted apart, and is in no sum.";

/// What stands for the mint where there is none.
const UNKNOWN: &str = "unknown";

/// One of the two tables that are shown of a month.
struct Columns {
    title: &'static str,
    headings: &'static [&'static str],
    rows: Vec<Vec<Cell>>,
    /// The totals over all rows.
    foot: Option<Vec<Cell>>,
}

/// What stands in a table, so that each way of printing sets it as it likes.
enum Cell {
    Mint(Option<Key>),
    Account(Key),
    Number(u128),
    Marks(Ways),
    Words(&'static str),
}

impl Ledger {
    fn columns(&self) -> [Columns; 2] {
        let of_mints = Columns {
            title: "Mints",
            headings: &["mint", "debits", "credits", "fees", "transfers", "counted apart", "marks"],
            rows: self.month.mints().map(|line| self.mint(&line)).collect(),
            foot: Some(self.all_mints()),
        };
        let of_accounts = Columns {
            title: "Accounts",
            headings: &["mint", "account", "debits", "credits", "fees"],
            rows: self.month.accounts().map(|line| account(&line)).collect(),
            foot: None,
        };
        [of_mints, of_accounts]
    }

    fn mint(&self, line: &MonthLine) -> Vec<Cell> {
        let sums = [line.debits, line.credits, line.fees];
        totals(Cell::Mint(line.mint), sums, self.ways(line.mint), line.apart.into())
    }

    fn all_mints(&self) -> Vec<Cell> {
        let mut all = Ways::default();
        for ways in self.ways.values() {
            all.0.iter_mut().zip(ways.0).for_each(|(sum, transfers)| *sum += transfers);
        }
        let Totals { debits, credits, fees, apart } = self.month.totals();
        totals(Cell::Words("all mints"), [debits, credits, fees], all, apart.into())
    }

    fn ways(&self, mint: Option<Key>) -> Ways {
        self.ways.get(&mint).copied().unwrap_or_default()
    }

    /// The sizes of the month, one after the other.
    fn counts(&self) -> [String; 4] {
        let accounts: BTreeSet<_> = self.month.accounts().map(|line| line.account).collect();
        [
            count(self.packs, "pack"),
            count(self.month.fed() as usize, "transfer"),
            count(self.month.mints().filter(|line| line.mint.is_some()).count(), "mint"),
            count(accounts.len(), "account"),
        ]
    }

    /// How many files are left out, if any are.
    fn missing(&self) -> Option<String> {
        let files = count(self.packs + self.left_out.len(), "file");
        match self.left_out.len() {
            0 => None,
            1 => Some(format!("1 of {files} is not counted")),
            n => Some(format!("{} of {files} are not counted", grouped(n as u64))),
        }
    }

    fn texts(&self, keys: Keys) -> Texts {
        let keys_of = |line: MonthLine| line.mint.into_iter().chain(line.account);
        Texts::of(self.month.lines().flat_map(keys_of), keys)
    }
}

fn totals(of: Cell, sums: [u128; 3], ways: Ways, apart: u128) -> Vec<Cell> {
    let [debits, credits, fees] = sums.map(Cell::Number);
    let transfers = Cell::Number(ways.transfers().into());
    vec![of, debits, credits, fees, transfers, Cell::Number(apart), Cell::Marks(ways)]
}

fn account(line: &MonthLine) -> Vec<Cell> {
    let [debits, credits, fees] = [line.debits, line.credits, line.fees].map(Cell::Number);
    let account = Cell::Account(line.account.unwrap_or_default());
    vec![Cell::Mint(line.mint), account, debits, credits, fees]
}
