//! A month: the transfers of many packs, summed by mint and by account.

mod line;

pub use line::MonthLine;

use crate::Refusal;
#[cfg(feature = "link")]
use crate::{month_into, Table, WIDTHS};
use line::Lines;

/// Bytes of a report's row.
pub const REPORT_ROW: usize = 118;

/// Transfers that are handed to the library at once, in bytes: so many that reading the report is
/// not most of the work, so few that the room for their rows is 1.4 MiB.
#[cfg(feature = "link")]
const PART: usize = 4_096 * WIDTHS[Table::Transfers as usize];

/// A report of totals, and how many transfers were fed into it.
///
/// ```
/// # #[cfg(feature = "link")] {
/// use mbelaguy::{ids, route, Month, Names, Refusal, Table, Tables};
///
/// // A month with one pack, the sample.
/// let sample = concat!(env!("CARGO_MANIFEST_DIR"), "/../../examples/aggregator_swap.bin");
/// let input = std::fs::read(sample).expect("the sample");
/// let (names, pack) = input.split_at(Names::BYTES);
/// let mut tables = Tables::for_pack(pack);
/// route(names, pack, &mut tables).expect("accepted");
/// let mut month = Month::new();
/// assert_eq!(month.feed(tables.used(Table::Transfers)), Ok(()));
///
/// assert_eq!((month.fed(), month.mints().count(), month.accounts().count()), (6, 3, 6));
/// let wrapped = month.mints().find(|line| line.mint == Some(ids::WRAPPED_SOL));
/// assert_eq!(wrapped.map(|line| line.debits), Some(2_857_581_789));
/// // The fees of two transfers are unknown.
/// let totals = month.totals();
/// assert_eq!((totals.debits, totals.apart), (3_757_581_789, 2));
/// assert_eq!(totals.debits, totals.credits + totals.fees);
///
/// assert_eq!(month.feed(b"no row"), Err(Refusal::TransferTable));
/// assert_eq!(month.fed(), 6);
/// # }
/// ```
#[derive(Clone, Debug, Default, PartialEq, Eq)]
pub struct Month {
    /// The used rows.
    report: Vec<u8>,
    fed: u32,
}

/// Sums over all mints' lines. They are sums over all transfers fed, so that debits are credits plus
/// fees.
#[derive(Clone, Copy, Debug, Default, PartialEq, Eq)]
pub struct Totals {
    /// What was debited.
    pub debits: u128,
    /// What was credited.
    pub credits: u128,
    /// What was withheld as fees.
    pub fees: u128,
    /// Transfers that were counted apart, and not summed.
    pub apart: u64,
}

impl Month {
    /// A month without transfers.
    pub fn new() -> Self {
        Month::default()
    }

    /// A month that was kept: its [`bytes`](Self::bytes), and how many transfers were
    /// [`fed`](Self::fed). What the library would not take either is [`Refusal::Report`].
    ///
    /// ```
    /// use mbelaguy::{Month, Refusal, REPORT_ROW};
    ///
    /// // One transfer, without a mint, counted apart.
    /// let mut row = vec![0; REPORT_ROW];
    /// row[114] = 1;
    /// let month = Month::read(row.clone(), 1)?;
    /// assert_eq!((month.totals().debits, month.totals().apart), (0, 1));
    /// assert_eq!(Month::read(row, 0), Err(Refusal::Report));
    /// # Ok::<(), Refusal>(())
    /// ```
    pub fn read(bytes: Vec<u8>, fed: u32) -> Result<Self, Refusal> {
        let rows = bytes.chunks_exact(REPORT_ROW);
        let whole = rows.remainder().is_empty();
        let ascending = rows.clone().zip(rows.skip(1)).all(|(row, next)| row[..66] < next[..66]);
        let month = Month { report: bytes, fed };
        // Lines end where a flag has no meaning.
        let lines = month.lines().filter(|line| line.is_within(fed)).count();
        match whole && ascending && lines == month.lines().len() {
            true => Ok(month),
            false => Err(Refusal::Report),
        }
    }

    /// How many transfers were fed.
    pub fn fed(&self) -> u32 {
        self.fed
    }

    /// The bytes of all lines, [`REPORT_ROW`] each.
    pub fn bytes(&self) -> &[u8] {
        &self.report
    }

    /// All lines, ascending: each mint's own, then those of its accounts.
    pub fn lines(&self) -> impl ExactSizeIterator<Item = MonthLine> + '_ {
        Lines(self.report.chunks_exact(REPORT_ROW))
    }

    /// The mints' own lines, ascending; the transfers without a mint come first.
    pub fn mints(&self) -> impl Iterator<Item = MonthLine> + '_ {
        self.lines().filter(|line| line.account.is_none())
    }

    /// The accounts' lines, ascending by mint and account.
    pub fn accounts(&self) -> impl Iterator<Item = MonthLine> + '_ {
        self.lines().filter(|line| line.account.is_some())
    }

    /// The sums over all mints' lines.
    pub fn totals(&self) -> Totals {
        self.mints().fold(Totals::default(), |sums, line| Totals {
            debits: sums.debits + line.debits,
            credits: sums.credits + line.credits,
            fees: sums.fees + line.fees,
            apart: sums.apart + u64::from(line.apart),
        })
    }
}

#[cfg(feature = "link")]
impl Month {
    /// Feeds transfers, all of them or none: used rows of table 2 ([`Tables::used`]), of one pack or of
    /// several behind one another. Rows behind the used ones would count as transfers.
    ///
    /// Many packs' rows at once take far less time than pack by pack, because each call of the library
    /// reads the whole report once.
    ///
    /// Memory grows as it is needed. An error leaves the month as it was: [`Refusal::TransferTable`];
    /// [`Refusal::Limit`], where there would be more than [`MAX_FED`] transfers; and of a month that was
    /// read, with sums that no transfers have, [`Refusal::Report`].
    ///
    /// [`MAX_FED`]: crate::MAX_FED
    /// [`Tables::used`]: crate::Tables::used
    pub fn feed(&mut self, transfers: &[u8]) -> Result<(), Refusal> {
        if transfers.len() <= PART {
            return self.feed_part(transfers);
        }
        // Of the refusals this one comes first, in whichever part it is.
        if !is_table(transfers) {
            return Err(Refusal::TransferTable);
        }
        let mut month = self.clone();
        transfers.chunks(PART).try_for_each(|part| month.feed_part(part))?;
        *self = month;
        Ok(())
    }

    /// A transfer has three lines at most. With room for them no call is refused for want of it, and
    /// none counts beforehand.
    fn feed_part(&mut self, transfers: &[u8]) -> Result<(), Refusal> {
        let rows = self.lines().len();
        let more = 3 * (transfers.len() / WIDTHS[Table::Transfers as usize]);
        self.report.resize((rows + more) * REPORT_ROW, 0);
        let answer = month_into(&mut self.report, rows, self.fed, transfers);
        // After a refusal both numbers are as they were.
        self.report.truncate(answer.rows as usize * REPORT_ROW);
        self.fed = answer.fed;
        answer.refusal().map_or(Ok(()), Err)
    }
}

/// Whether these are whole rows of table 2, with flags of 0 or 1 at mint and fee.
#[cfg(feature = "link")]
fn is_table(transfers: &[u8]) -> bool {
    let mut rows = transfers.chunks_exact(WIDTHS[Table::Transfers as usize]);
    rows.remainder().is_empty() && rows.all(|row| row[100] <= 1 && row[141] <= 1)
}
