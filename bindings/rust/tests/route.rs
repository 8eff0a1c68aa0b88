//! The call through the library: answers, refusals, reasons, tables of any size.

use mbelaguy::pack::{
    join, sections, Balance, Group, Inner, Instruction, KeyRow, Pack, BALANCE_ROW, KEY_ROW,
    MAX_BYTES,
};
use mbelaguy::rows::{Lack, Mark, Mint, Reason};
use mbelaguy::{
    ids, room, route, route_into, Answer, Key, Names, Refusal, Section, Table, Tables, MOST_ROWS,
    WIDTHS,
};
use std::fs;
use std::iter::successors;

const SAMPLE: &str = concat!(env!("CARGO_MANIFEST_DIR"), "/../../examples/aggregator_swap.bin");

/// A records a mint; a plain transfer carries it to B.
fn transfer() -> Pack {
    let keys = [[1; 32], [2; 32], ids::SPL_TOKEN].map(|key| KeyRow { whole: true, key });
    Pack {
        keys: keys.to_vec(),
        balances: vec![Balance { account: 0, mint: [9; 32] }],
        outer: vec![plain(2, 0, 1)],
        ..Pack::default()
    }
}

fn plain(program: u32, from: u8, to: u8) -> Instruction {
    let data = [&[3], &7u64.to_le_bytes()[..]].concat();
    Instruction { program, accounts: vec![from, to, 0], data }
}

fn names() -> [u8; 88] {
    Names::ORIGINAL.bytes()
}

#[test]
fn a_plain_transfer_fills_in_a_mint() {
    let mut tables = Tables::full();
    let answer = route(&names(), &transfer().write().unwrap(), &mut tables).unwrap();
    let expected = Answer { counts: [2, 1, 1, 0, 0], passes: 2, tests: 0, ..Answer::default() };
    assert_eq!(answer, expected);
    let mints: Vec<_> = tables.mints().map(|row| (row.account, row.mint, row.mark)).collect();
    assert_eq!(mints, [([1; 32], [9; 32], Mark::Recorded), ([2; 32], [9; 32], Mark::FilledIn)]);
    let transfer = tables.transfers().next().unwrap();
    let mint = Mint::Marked { key: [9; 32], mark: Mark::Recorded };
    assert_eq!((transfer.amount, transfer.fee, transfer.mint), (7, Some(0), mint));
}

/// The rows of the mint table where each of these accounts has a balance of its mint.
fn recorded(balances: &[(Key, Key)]) -> Vec<(Key, Key)> {
    let balance = |(account, &(_, mint))| Balance { account: account as u32, mint };
    let pack = Pack {
        keys: balances.iter().map(|&(key, _)| KeyRow { whole: true, key }).collect(),
        balances: balances.iter().enumerate().map(balance).collect(),
        ..Pack::default()
    };
    let mut tables = Tables::full();
    route(&names(), &pack.write().unwrap(), &mut tables).unwrap();
    tables.mints().map(|row| (row.account, row.mint)).collect()
}

/// A key of sevens but for some bytes.
fn sevens_but(bytes: &[(usize, u8)]) -> Key {
    let mut key = [7; 32];
    bytes.iter().for_each(|&(place, byte)| key[place] = byte);
    key
}

/// Two accounts have two rows, one account with two mints has none.
#[test]
fn any_one_byte_tells_two_keys_apart() {
    for place in 0..32 {
        let [low, high] = [1, 2].map(|byte| sevens_but(&[(place, byte)]));
        assert_eq!(recorded(&[(high, low), (low, high)]), [(low, high), (high, low)], "{place}");
        assert_eq!(recorded(&[(low, low), (low, high)]), [], "{place}");
    }
}

#[test]
fn accounts_ascend_from_the_first_byte_on() {
    let mint = [9; 32];
    for place in 1..32 {
        let low = sevens_but(&[(0, 1), (place, 2)]);
        let high = sevens_but(&[(0, 2), (place, 1)]);
        assert_eq!(recorded(&[(high, mint), (low, mint)]), [(low, mint), (high, mint)], "{place}");
    }
}

/// A and B record two mints; plain transfers lead from A over C and D to B.
#[test]
fn doubt_travels_the_whole_chain() {
    let keys = [[1; 32], [2; 32], [3; 32], [4; 32], ids::SPL_TOKEN];
    let mut pack = Pack {
        keys: keys.map(|key| KeyRow { whole: true, key }).to_vec(),
        balances: vec![
            Balance { account: 0, mint: [8; 32] },
            Balance { account: 1, mint: [9; 32] },
        ],
        outer: vec![plain(4, 0, 2), plain(4, 2, 3), plain(4, 3, 1)],
        ..Pack::default()
    };
    for carried in [8, 9] {
        let mut tables = Tables::full();
        route(&names(), &pack.write().unwrap(), &mut tables).unwrap();
        let mints: Vec<_> = tables.mints().map(|row| (row.mint, row.mark)).collect();
        let recorded = [8, 9].map(|mint| ([mint; 32], Mark::Recorded));
        let filled = [carried; 2].map(|mint| ([mint; 32], Mark::InDoubt));
        assert_eq!(mints, [recorded, filled].concat());
        pack.outer.reverse();
    }
}

#[test]
fn contradictory_evidence_is_told_from_none() {
    let mut tables = Tables::full();
    let mut mint = |balances: &[(u32, u8)]| {
        let balance = |&(account, mint)| Balance { account, mint: [mint; 32] };
        let pack = Pack { balances: balances.iter().map(balance).collect(), ..transfer() };
        route(&names(), &pack.write().unwrap(), &mut tables).unwrap();
        tables.transfers().next().unwrap().mint
    };
    assert_eq!(mint(&[]), Mint::Unknown(Lack::NoEvidence));
    assert_eq!(mint(&[(0, 9), (0, 8), (1, 9)]), Mint::Unknown(Lack::Contradictory));
    assert_eq!(mint(&[(1, 9)]), Mint::Marked { key: [9; 32], mark: Mark::FilledIn });
    assert_eq!(mint(&[(1, 9), (1, 8)]), Mint::Unknown(Lack::NoEvidence));
}

#[test]
fn the_listing_of_the_scope() {
    let inner = |height| Inner { height: Some(height), instruction: Instruction::default() };
    let pack = Pack {
        outer: vec![Instruction::default()],
        groups: vec![Group { outer: 0, instructions: vec![inner(2), inner(3)] }],
        ..Pack::default()
    };
    let mut tables = Tables::full();
    let answer = route(&[0; 88], &pack.write().unwrap(), &mut tables).unwrap();
    assert_eq!((answer.counts, answer.passes, answer.tests), ([0, 3, 0, 0, 0], 0, 2));
    assert!(tables.invocations().all(|row| row.end == 3));
    assert!(tables.invocations().map(|row| row.parent).eq([None, Some(0), Some(1)]));
    assert!(tables.invocations().all(|row| row.reason == Some(Reason::NotToken)));
}

/// From parent to parent: the invocations whose blocks hold one, the nearest first.
#[test]
fn parents_lead_through_the_blocks() {
    let input = fs::read(SAMPLE).unwrap();
    let (names, pack) = input.split_at(Names::BYTES);
    let mut tables = Tables::for_pack(pack);
    route(names, pack, &mut tables).unwrap();
    let rows: Vec<_> = tables.invocations().collect();
    for (number, row) in rows.iter().enumerate() {
        assert!(row.parent() < Some(number), "row {number}: none, or an earlier one");
        let met = successors(row.parent(), |&parent| rows[parent].parent());
        let holds = |earlier: &usize| number < rows[*earlier].end as usize;
        assert!(met.eq((0..number).rev().filter(holds)), "row {number}");
    }
    // The aggregator with its two swaps, as the rows have the parents: 0, or 1 plus a row.
    let parents = rows[8..19].iter().map(|row| row.parent.map_or(0, |parent| parent + 1));
    assert!(parents.eq([0, 9, 10, 10, 9, 13, 13, 13, 13, 9, 0]));
}

/// Why the one instruction of a pack gave no transfer: there is a transfer where there is no reason.
fn reason(pack: &Pack) -> Option<Reason> {
    let pack = pack.write().unwrap();
    let mut tables = Tables::for_pack(&pack);
    route(&names(), &pack, &mut tables).unwrap();
    let reason = tables.invocations().next().unwrap().reason;
    assert_eq!(reason.is_none(), tables.transfers().len() == 1);
    reason
}

/// Indexes into the keys of `gives`: an account, the zero key, the program, and one that names none.
const ACCOUNT: u8 = 0;
const ZERO: u8 = 1;
const PROGRAM: u8 = 2;
const MISSING: u8 = 3;

/// An instruction gives a transfer, or none for this reason.
#[track_caller]
fn gives(expected: Option<Reason>, program: Key, accounts: &[u8], data: &[u8]) {
    let keys = [[1; 32], [0; 32], program].map(|key| KeyRow { whole: true, key });
    let outer =
        Instruction { program: PROGRAM.into(), accounts: accounts.to_vec(), data: data.to_vec() };
    let pack = Pack { keys: keys.to_vec(), outer: vec![outer], ..Pack::default() };
    assert_eq!(reason(&pack), expected, "accounts {accounts:?}, data {data:?}");
}

/// The kinds of transfer: the program, how the data begins, and how many bytes and accounts there have
/// to be. The last of these accounts may have any key.
const KINDS: [(Key, &[u8], usize, usize); 5] = [
    (ids::SPL_TOKEN, &[3], 9, 3),
    (ids::SPL_TOKEN, &[12], 10, 4),
    (ids::TOKEN_2022, &[3], 9, 3),
    (ids::TOKEN_2022, &[12], 10, 4),
    (ids::TOKEN_2022, &[26, 1], 19, 4),
];

/// From nothing to a transfer, by one byte, account or key at a time. On the way the tests behind the one
/// that is the reason would fail too.
#[test]
fn a_reason_ends_where_its_test_is_passed() {
    for (program, begin, bytes, count) in KINDS {
        let (mut accounts, mut data) = (Vec::new(), Vec::new());
        gives(Some(Reason::NotToken), ids::MEMO, &accounts, &data);
        for byte in begin {
            gives(Some(Reason::UnsupportedTag), program, &accounts, &data);
            data.push(*byte);
        }
        while accounts.len() < count {
            gives(Some(Reason::TooFewAccounts), program, &accounts, &data);
            accounts.push(MISSING);
        }
        while data.len() < bytes {
            gives(Some(Reason::DataTooShort), program, &accounts, &data);
            data.push(7);
        }
        for place in 0..count - 1 {
            gives(Some(Reason::ZeroKey), program, &accounts, &data);
            accounts[place] = ACCOUNT;
        }
        gives(None, program, &accounts, &data);
        gives(Some(Reason::NotToken), ids::MEMO, &accounts, &data);
    }
}

#[test]
fn one_zero_key_is_enough() {
    for (program, begin, bytes, count) in KINDS {
        let data = [begin, &vec![7; bytes - begin.len()]].concat();
        for place in 0..count {
            for key in [ZERO, MISSING] {
                let mut accounts = vec![ACCOUNT; count];
                accounts[place] = key;
                let expected = (place < count - 1).then_some(Reason::ZeroKey);
                gives(expected, program, &accounts, &data);
            }
        }
    }
}

/// Everything else that data may begin with.
#[test]
fn other_tags_are_unsupported() {
    let begins = |transfer: bool, program, begin: [u8; 2]| {
        let expected = if transfer { None } else { Some(Reason::UnsupportedTag) };
        gives(expected, program, &[ACCOUNT; 4], &[&begin[..], &[7; 17]].concat());
    };
    for byte in 0..=u8::MAX {
        begins([3, 12].contains(&byte), ids::SPL_TOKEN, [byte, 1]);
        begins([3, 12, 26].contains(&byte), ids::TOKEN_2022, [byte, 1]);
        begins(byte == 1, ids::TOKEN_2022, [26, byte]);
    }
}

#[test]
fn an_unresolved_program_is_no_token_program() {
    assert_eq!(reason(&transfer()), None);
    let mut cut = transfer();
    cut.keys[2].whole = false;
    assert_eq!(reason(&cut), Some(Reason::NotToken));
    let mut beyond = transfer();
    beyond.outer[0].program = 3;
    assert_eq!(reason(&beyond), Some(Reason::NotToken));
}

#[test]
fn bad_use_is_an_error_value() {
    let pack = transfer().write().unwrap();
    let full = || Tables::full();
    assert_eq!(route(&[0; 87], &pack, &mut full()), Err(Refusal::Names));
    assert_eq!(route(&[], &[], &mut full()), Err(Refusal::Names));
    assert_eq!(route(&names(), &[], &mut full()), Err(Refusal::Mark));
    assert_eq!(route(&names(), &[0; MAX_BYTES + 1], &mut full()), Err(Refusal::Mark));
    let room = |table: Table| {
        let mut rows = [2, 1, 1, 0, 0];
        rows[table as usize] -= 1;
        route(&names(), &pack, &mut Tables::with_room(rows))
    };
    for table in [Table::Mints, Table::Invocations, Table::Transfers] {
        assert_eq!(room(table), Err(Refusal::Room(table)));
    }
    let mut flags = pack.clone();
    flags[0] = 2;
    assert_eq!(route(&names(), &flags, &mut full()), Err(Refusal::Section(Section::Keys)));
}

/// A pack's bytes with another account index in a balance row, also one that no pack is written with.
fn with_account(pack: &Pack, row: usize, account: u32) -> Vec<u8> {
    let mut bytes = pack.write().unwrap();
    let at = pack.keys.len() * KEY_ROW + row * BALANCE_ROW;
    bytes[at..at + 4].copy_from_slice(&account.to_le_bytes());
    bytes
}

/// The call refuses a pack so, and `room` says the same.
#[track_caller]
fn refuses(expected: Refusal, pack: &[u8]) {
    let mut tables = WIDTHS.map(|width| vec![255; width]);
    let answer = route_into(&names(), pack, tables.each_mut().map(Vec::as_mut_slice));
    assert_eq!(answer, Answer::refused(expected));
    assert!(tables.concat().iter().all(|byte| *byte == 0));
    assert_eq!(room(pack), Err(expected));
}

/// By the index alone: the mint may be zero.
#[test]
fn a_balance_that_names_no_key_is_refused() {
    for mint in [[0; 32], [9; 32]] {
        let pack = Pack { balances: vec![Balance { account: 0, mint }; 3], ..transfer() };
        for row in 0..3 {
            let last = with_account(&pack, row, 2);
            assert!(route(&names(), &last, &mut Tables::full()).is_ok());
            assert_eq!(room(&last), Ok([3, 1, 1, 1, 1]));
            for account in [3, 4, 255, 256, 1 << 16, 1 << 24, 1 << 31, u32::MAX] {
                refuses(Refusal::Balances, &with_account(&pack, row, account));
            }
        }
    }
    let no_keys = [vec![], vec![0; BALANCE_ROW], vec![], vec![], vec![]];
    refuses(Refusal::Balances, &join(&no_keys));
}

/// So many keys and invocations, and a balance row.
fn crowd(keys: usize, invocations: usize) -> Pack {
    Pack {
        keys: vec![KeyRow { whole: true, key: [1; 32] }; keys],
        balances: vec![Balance { account: 0, mint: [9; 32] }],
        outer: vec![Instruction::default(); invocations],
        ..Pack::default()
    }
}

#[test]
fn balances_are_refused_after_what_cannot_be_read() {
    let pack = with_account(&transfer(), 0, 3);
    assert_eq!(route(&[0; 87], &pack, &mut Tables::full()), Err(Refusal::Names));
    assert_eq!(room(&pack), Err(Refusal::Balances));
    refuses(Refusal::Mark, &pack[..pack.len() - 1]);
    refuses(Refusal::Starts, &pack[1..]);
    for (damaged, section) in Section::ALL.into_iter().enumerate() {
        let mut sections = sections(&pack).unwrap().map(<[u8]>::to_vec);
        sections[damaged].push(0);
        refuses(Refusal::Section(section), &join(&sections));
    }
}

#[test]
fn balances_are_refused_between_keys_and_invocations() {
    for invocations in [1, 1_025] {
        refuses(Refusal::Keys, &with_account(&crowd(257, invocations), 0, 256));
        refuses(Refusal::Keys, &with_account(&crowd(257, invocations), 0, 257));
        refuses(Refusal::Balances, &with_account(&crowd(256, invocations), 0, 256));
    }
    refuses(Refusal::Invocations, &with_account(&crowd(256, 1_025), 0, 255));
    assert_eq!(room(&with_account(&crowd(256, 1_024), 0, 255)), Ok(MOST_ROWS));
}

#[test]
fn balances_are_refused_before_a_lack_of_room() {
    let pack = transfer().write().unwrap();
    let none = || Tables::with_room([0; 5]);
    assert_eq!(route(&names(), &pack, &mut none()), Err(Refusal::Room(Table::Mints)));
    let pack = with_account(&transfer(), 0, 3);
    assert_eq!(route(&names(), &pack, &mut none()), Err(Refusal::Balances));
}

#[test]
fn a_refusal_empties_the_tables() {
    let mut tables = Tables::full();
    route(&names(), &transfer().write().unwrap(), &mut tables).unwrap();
    assert_eq!(route(&names(), &[], &mut tables), Err(Refusal::Mark));
    assert_eq!(tables, Tables::full());
}

#[test]
fn tables_of_any_length() {
    let pack = transfer().write().unwrap();
    let mut tables = [131, 29, 151, 1, 0].map(|length| vec![255; length]);
    let lent = tables.each_mut().map(Vec::as_mut_slice);
    let answer = route_into(&names(), &pack, lent);
    assert_eq!(answer.refusal(), None);
    for (table, used) in tables.iter().zip([130, 28, 150, 0, 0]) {
        assert!(table[used..].iter().all(|byte| *byte == 0));
    }
    let kept = Tables::read(&answer, tables, &pack).unwrap();
    assert_eq!(kept.mints().len(), 2);
}
