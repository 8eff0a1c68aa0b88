//! The calls of the library.

use crate::{Answer, MonthAnswer, Refusal, Tables};

/// Rows that suffice, as the library answers them.
#[repr(C)]
struct Needed {
    number: u32,
    place: u32,
    rows: [u32; 5],
}

extern "C" {
    fn mbelaguy_route(
        names: *const u8,
        names_length: usize,
        pack: *const u8,
        pack_length: usize,
        mints: *mut u8,
        mints_length: usize,
        invocations: *mut u8,
        invocations_length: usize,
        transfers: *mut u8,
        transfers_length: usize,
        legs: *mut u8,
        legs_length: usize,
        natives: *mut u8,
        natives_length: usize,
    ) -> Answer;

    fn mbelaguy_room(pack: *const u8, pack_length: usize) -> Needed;

    fn mbelaguy_month(
        report: *mut u8,
        report_length: usize,
        rows: usize,
        fed: u32,
        transfers: *const u8,
        transfers_length: usize,
    ) -> MonthAnswer;
}

/// Fills the tables from a pack. After a refusal they are empty.
///
/// ```
/// use mbelaguy::pack::{Balance, Instruction, KeyRow, Pack};
/// use mbelaguy::rows::{Mark, Mint};
/// use mbelaguy::{ids, route, Names, Refusal, Tables};
///
/// // The first account has a mint by its balance; the second sends it 7 by a plain transfer.
/// let pack = Pack {
///     keys: [[1; 32], [2; 32], ids::SPL_TOKEN].map(|key| KeyRow { whole: true, key }).to_vec(),
///     balances: vec![Balance { account: 0, mint: [9; 32] }],
///     outer: vec![Instruction {
///         program: 2,
///         accounts: vec![1, 0, 1],
///         data: [&[3][..], &7u64.to_le_bytes()].concat(),
///     }],
///     ..Pack::default()
/// };
/// let pack = pack.write()?;
/// let mut tables = Tables::for_pack(&pack);
/// let answer = route(&Names::ORIGINAL.bytes(), &pack, &mut tables)?;
/// assert_eq!(answer.counts, [2, 1, 1, 0, 0]);
/// let transfer = tables.transfers().next().expect("one row");
/// assert_eq!(transfer.amount, 7);
/// assert_eq!(transfer.mint, Mint::Marked { key: [9; 32], mark: Mark::FilledIn });
///
/// assert_eq!(route(&[], &[], &mut tables), Err(Refusal::Names));
/// assert_eq!(tables.transfers().len(), 0);
/// # Ok::<(), Box<dyn std::error::Error>>(())
/// ```
pub fn route(names: &[u8], pack: &[u8], tables: &mut Tables) -> Result<Answer, Refusal> {
    let answer = route_into(names, pack, tables.bytes.each_mut().map(Vec::as_mut_slice));
    tables.filled(&answer, pack);
    match answer.refusal() {
        None => Ok(answer),
        Some(refusal) => Err(refusal),
    }
}

/// The call as the library has it: tables of any lengths, and the answer as it comes.
///
/// ```
/// let mut tables = [vec![0; 65], vec![0; 28], vec![], vec![], vec![]];
/// let answer = mbelaguy::route_into(&[0; 88], b"no pack", tables.each_mut().map(Vec::as_mut_slice));
/// assert_eq!((answer.number, answer.place), (2, 0));
/// assert_eq!(answer.refusal(), Some(mbelaguy::Refusal::Mark));
/// ```
pub fn route_into(names: &[u8], pack: &[u8], tables: [&mut [u8]; 5]) -> Answer {
    let [mints, invocations, transfers, legs, natives] = tables;
    // SAFETY: each pointer and length are those of one slice, of which none that is written overlaps
    // another. The library takes all values, and touches nothing else: both are proved of it.
    unsafe {
        mbelaguy_route(
            names.as_ptr(),
            names.len(),
            pack.as_ptr(),
            pack.len(),
            mints.as_mut_ptr(),
            mints.len(),
            invocations.as_mut_ptr(),
            invocations.len(),
            transfers.as_mut_ptr(),
            transfers.len(),
            legs.as_mut_ptr(),
            legs.len(),
            natives.as_mut_ptr(),
            natives.len(),
        )
    }
}

/// How many rows of tables 0 to 4 suffice for a pack, whatever the names are: with so much room
/// [`route`] never answers [`Refusal::Room`]. The pack is walked once; what is wrong with it is told
/// as `route` would, given good names.
///
/// ```
/// use mbelaguy::pack::{Instruction, Pack};
/// use mbelaguy::{room, Refusal};
///
/// let pack = Pack { outer: vec![Instruction::default(); 3], ..Pack::default() };
/// assert_eq!(room(&pack.write()?), Ok([0, 3, 3, 3, 3]));
/// assert_eq!(room(b"no pack"), Err(Refusal::Mark));
/// # Ok::<(), mbelaguy::pack::DoesNotFit>(())
/// ```
pub fn room(pack: &[u8]) -> Result<[usize; 5], Refusal> {
    // SAFETY: pointer and length are those of one slice, which is only read.
    let needed = unsafe { mbelaguy_room(pack.as_ptr(), pack.len()) };
    match needed.number {
        0 => Ok(needed.rows.map(|rows| rows as usize)),
        number => Err(Refusal::of(number, needed.place)),
    }
}

/// A feed as the library has it: a report of any length with its used rows and the transfers fed so
/// far, and the answer as it comes. After a refusal every byte of the report is as it was. A
/// [`Month`](crate::Month) sees to all that.
///
/// ```
/// use mbelaguy::{month_into, Refusal, REPORT_ROW};
///
/// // A transfer whose fee is unknown: one row is used, the rest is 0.
/// let mut report = vec![255; 3 * REPORT_ROW];
/// let answer = month_into(&mut report, 0, 0, &[0; 150]);
/// assert_eq!((answer.number, answer.rows, answer.fed), (0, 1, 1));
/// assert_eq!(report.iter().position(|byte| *byte != 0), Some(114));
///
/// let answer = month_into(&mut report, 1, 1, &[0; 149]);
/// assert_eq!(answer.refusal(), Some(Refusal::TransferTable));
/// assert_eq!((answer.rows, answer.fed), (1, 1));
/// ```
pub fn month_into(report: &mut [u8], rows: usize, fed: u32, transfers: &[u8]) -> MonthAnswer {
    // SAFETY: as in `route_into`: each pointer and length are those of one slice, and the one that is
    // written does not overlap the other.
    unsafe {
        mbelaguy_month(
            report.as_mut_ptr(),
            report.len(),
            rows,
            fed,
            transfers.as_ptr(),
            transfers.len(),
        )
    }
}

impl Tables {
    /// Room for whatever this pack needs, none for a pack that [`route`] refuses.
    ///
    /// ```
    /// use mbelaguy::pack::{Instruction, Pack};
    /// use mbelaguy::{Table, Tables};
    ///
    /// let pack = Pack { outer: vec![Instruction::default(); 3], ..Pack::default() };
    /// let tables = Tables::for_pack(&pack.write()?);
    /// assert_eq!(tables.bytes(Table::Invocations).len(), 3 * 28);
    /// # Ok::<(), mbelaguy::pack::DoesNotFit>(())
    /// ```
    pub fn for_pack(pack: &[u8]) -> Self {
        Tables::with_room(room(pack).unwrap_or_default())
    }
}
