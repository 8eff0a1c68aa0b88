//! Tables out of kept bytes: good ones are read, others are errors, and nothing panics. A mint beside
//! an amount has its mark with it.

use mbelaguy::pack::{Balance, Instruction, KeyRow, Pack};
use mbelaguy::rows::{Invocation, Lack, Mark, Mint, Reason};
use mbelaguy::{ids, Answer, BadTable, Key, Refusal, Table, Tables, MOST_ROWS, WIDTHS};
use std::iter::successors;

/// The row of an account whose bytes are all this one.
fn mint_row(account: u8, mark: u8) -> Vec<u8> {
    [&[account; 32][..], &[2; 32], &[mark]].concat()
}

fn read(count: u32, mints: Vec<u8>) -> Result<Tables, BadTable> {
    tables([count, 0, 0, 0, 0], [mints, vec![], vec![], vec![], vec![]], &Pack::default())
}

/// Table 0 and one row of another table.
fn beside(mints: Vec<u8>, table: Table, row: Vec<u8>, pack: &Pack) -> Result<Tables, BadTable> {
    let mut counts = [(mints.len() / WIDTHS[0]) as u32, 0, 0, 0, 0];
    let mut bytes = [mints, vec![], vec![], vec![], vec![]];
    counts[table as usize] = 1;
    bytes[table as usize] = row;
    tables(counts, bytes, pack)
}

fn tables(counts: [u32; 5], bytes: [Vec<u8>; 5], pack: &Pack) -> Result<Tables, BadTable> {
    let answer = Answer { counts, ..Answer::default() };
    Tables::read(&answer, bytes, &pack.write().unwrap())
}

/// An invocation with these bits, this parent and this reason.
fn invocation_row(bits: u8, parent: u32, reason: u8) -> Vec<u8> {
    [&[0; 18][..], &[bits], &[0; 4], &parent.to_le_bytes(), &[reason]].concat()
}

/// A transfer from account 1, with this mint.
fn transfer_row(mint: Option<Key>) -> Vec<u8> {
    [&[0; 4][..], &ids::SPL_TOKEN, &[1; 32], &[3; 32], &optional(mint), &[0; 17]].concat()
}

/// A leg from account 1 to account 3, with these mints.
fn leg_row(input: Option<Key>, output: Option<Key>) -> Vec<u8> {
    let accounts = [[9; 32], [9; 32], [9; 32], [1; 32], [3; 32]].concat();
    [&[0; 4][..], &[1], &accounts, &optional(input), &optional(output), &[0; 19]].concat()
}

fn optional(mint: Option<Key>) -> Vec<u8> {
    mint.map_or(vec![0; 33], |mint| [&[1][..], &mint].concat())
}

/// A pack in which account 1 is seen with two mints, by a balance and by an initialisation.
fn contradictory() -> Pack {
    let keys = [[1; 32], [4; 32], ids::SPL_TOKEN].map(|key| KeyRow { whole: true, key });
    Pack {
        keys: keys.to_vec(),
        balances: vec![Balance { account: 0, mint: [2; 32] }],
        outer: vec![Instruction { program: 2, accounts: vec![0, 1], data: vec![1] }],
        ..Pack::default()
    }
}

#[test]
fn a_transfer_has_its_sources_mark() {
    fn mint(mints: Vec<u8>, row: Option<Key>, pack: &Pack) -> Result<Mint, BadTable> {
        let tables = beside(mints, Table::Transfers, transfer_row(row), pack)?;
        Ok(tables.transfers().next().unwrap().mint)
    }
    let plain = &Pack::default();
    for (number, mark) in (0..).zip(Mark::ALL) {
        let rows = [mint_row(1, number), mint_row(3, 0)].concat();
        assert_eq!(mint(rows, Some([2; 32]), plain), Ok(Mint::Marked { key: [2; 32], mark }));
    }
    assert_eq!(mint(mint_row(3, 0), None, plain), Ok(Mint::Unknown(Lack::NoEvidence)));
    let contradictory = mint(vec![], None, &contradictory());
    assert_eq!(contradictory, Ok(Mint::Unknown(Lack::Contradictory)));
    let bad = Err(BadTable::Row { table: Table::Transfers, row: 0 });
    assert_eq!(mint(mint_row(1, 0), Some([4; 32]), plain), bad, "another mint than table 0's");
    assert_eq!(mint(mint_row(1, 0), None, plain), bad, "no mint, and table 0 has one");
    assert_eq!(mint(vec![], Some([2; 32]), plain), bad, "a mint that table 0 has not");
}

#[test]
fn a_leg_has_the_marks_of_its_accounts() {
    type Sides<T> = (T, T);
    fn mints(
        mints: Vec<u8>,
        (input, output): Sides<Option<Key>>,
        pack: &Pack,
    ) -> Result<Sides<Mint>, BadTable> {
        let tables = beside(mints, Table::Legs, leg_row(input, output), pack)?;
        let leg = tables.legs().next().unwrap();
        Ok((leg.input_mint, leg.output_mint))
    }
    let filled_in = Mint::Marked { key: [2; 32], mark: Mark::FilledIn };
    let (silent, clash) = (Lack::NoEvidence, Lack::Contradictory);
    assert_eq!(
        mints(mint_row(1, 1), (Some([2; 32]), Some([5; 32])), &Pack::default()),
        Ok((filled_in, Mint::Named { key: [5; 32], lack: silent }))
    );
    assert_eq!(
        mints(vec![], (Some([2; 32]), None), &contradictory()),
        Ok((Mint::Named { key: [2; 32], lack: clash }, Mint::Unknown(silent)))
    );
    let bad = Err(BadTable::Row { table: Table::Legs, row: 0 });
    assert_eq!(mints(mint_row(3, 0), (None, Some([5; 32])), &Pack::default()), bad);
}

#[test]
fn a_native_action_has_its_accounts_mark() {
    let sync = [&[0; 4][..], &[2], &[1; 32], &[0; 72]].concat();
    let of = |mint: Key, mark| {
        let mints = [&[1; 32][..], &mint, &[mark]].concat();
        let tables = beside(mints, Table::Natives, sync.clone(), &Pack::default())?;
        Ok(tables.natives().next().unwrap().mark)
    };
    assert_eq!(of(ids::WRAPPED_SOL, 2), Ok(Mark::InDoubt));
    assert_eq!(of([2; 32], 0), Err(BadTable::Row { table: Table::Natives, row: 0 }));
}

#[test]
fn a_pack_beside_its_tables_is_read() {
    let read = Tables::read(&Answer::default(), Default::default(), b"no pack");
    assert_eq!(read, Err(BadTable::Pack(Refusal::Mark)));
}

#[test]
fn used_rows_come_back() {
    let bytes = [mint_row(1, 0), mint_row(3, 2), vec![0; 70]].concat();
    let tables = read(2, bytes.clone()).unwrap();
    assert_eq!(tables.mints().len(), 2);
    let marks: Vec<_> = tables.mints().map(|row| row.mark).collect();
    assert_eq!(marks, [Mark::Recorded, Mark::InDoubt]);
    assert_eq!(tables.bytes(Table::Mints), bytes);
    assert_eq!(tables.used(Table::Mints), &bytes[..2 * WIDTHS[0]]);
    assert_eq!(tables.legs().next(), None);
}

#[test]
fn a_short_table_is_an_error() {
    let bytes = [mint_row(1, 0), mint_row(3, 1)].concat();
    let short = BadTable::Short { table: Table::Mints, rows: 1, count: 2 };
    assert_eq!(read(2, bytes[..129].to_vec()), Err(short));
    assert!(read(u32::MAX, bytes).is_err());
    assert_eq!(short.to_string(), "the table of mints has 1 whole rows, and the answer counts 2");
}

#[test]
fn a_row_without_meaning_is_an_error() {
    let bad = BadTable::Row { table: Table::Mints, row: 1 };
    assert_eq!(read(2, [mint_row(1, 0), mint_row(3, 3)].concat()), Err(bad));
    assert_eq!(read(2, [mint_row(1, 0), mint_row(1, 0)].concat()), Err(bad), "an account twice");
    assert_eq!(read(2, [mint_row(3, 0), mint_row(1, 0)].concat()), Err(bad), "not ascending");
    assert_eq!(bad.to_string(), "row 1 of the table of mints has no meaning");
}

#[test]
fn rows_have_one_length() {
    for (t, table) in Table::ALL.into_iter().enumerate() {
        let zeroes = |length| beside(vec![], table, vec![0; length], &Pack::default());
        let short = BadTable::Short { table, rows: 0, count: 1 };
        assert_eq!(zeroes(WIDTHS[t] - 1), Err(short));
        // Protocol 0 and kind 0 have no meaning, nor has reason 0 where there is no transfer.
        let row = BadTable::Row { table, row: 0 };
        let bad = matches!(table, Table::Invocations | Table::Legs | Table::Natives);
        assert_eq!(zeroes(WIDTHS[t]).err(), bad.then_some(row));
    }
}

#[test]
fn every_byte_of_a_row_may_be_anything() {
    for byte in 0..=255 {
        for (t, table) in Table::ALL.into_iter().enumerate() {
            let _ = beside(vec![], table, vec![byte; WIDTHS[t]], &Pack::default());
        }
    }
    let invocation = |bits: u8| {
        let row = invocation_row(bits, 0, 1);
        beside(vec![], Table::Invocations, row, &Pack::default()).is_ok()
    };
    assert!(invocation(Invocation::RESOLVED));
    assert!(!invocation(64));
    assert!(!invocation(Invocation::OWN_LEG), "a leg's bit without its number");
}

#[test]
fn a_reason_stands_where_there_is_no_transfer() {
    let read = |bits, reason| {
        let row = invocation_row(bits, 0, reason);
        let tables = beside(vec![], Table::Invocations, row, &Pack::default())?;
        Ok(tables.invocations().next().unwrap().reason)
    };
    let bad = Err(BadTable::Row { table: Table::Invocations, row: 0 });
    for number in 0..=u8::MAX {
        let told = Reason::of(number).map_or(bad, |reason| Ok(Some(reason)));
        assert_eq!(read(0, number), told, "{number} without a transfer");
        let none = if number == 0 { Ok(None) } else { bad };
        assert_eq!(read(Invocation::OWN_TRANSFER, number), none, "{number} beside a transfer");
    }
}

#[test]
fn a_parent_is_an_index_into_the_rows() {
    let row = |parent: u32| invocation_row(0, parent, 1);
    let bytes = [0, 1, 2, 1].map(row).concat();
    let bytes = [vec![], bytes, vec![], vec![], vec![]];
    let tables = tables([0, 4, 0, 0, 0], bytes, &Pack::default()).unwrap();
    let rows: Vec<_> = tables.invocations().collect();
    assert!(rows.iter().map(|row| row.parent).eq([None, Some(0), Some(1), Some(0)]));
    let above = |row: usize| successors(rows[row].parent(), |&parent| rows[parent].parent());
    assert!(above(2).eq([1, 0]));
    assert!(above(3).eq([0]));
    let last = beside(vec![], Table::Invocations, row(u32::MAX), &Pack::default()).unwrap();
    assert_eq!(last.invocations().next().unwrap().parent, Some(u32::MAX - 1));
}

#[test]
fn room_is_never_more_than_a_pack_needs() {
    assert_eq!(Tables::with_room([usize::MAX; 5]), Tables::full());
    for (t, table) in Table::ALL.into_iter().enumerate() {
        assert_eq!(Tables::full().bytes(table).len(), MOST_ROWS[t] * WIDTHS[t]);
    }
}
