//! Cases a to k, the listing of a small pack, and examples that settle how the format is read.

use super::{hold, same, Example, Outcome};
use crate::listing::{listing, ROOM};
use crate::oracle::{self, Reply};
use mbelaguy::pack::{Balance, Group, Inner, Instruction, Key, KeyRow, Pack};
use mbelaguy::{Answer, Refusal, Table, WIDTHS};
use original::ids;
use original::instr::meteora_dlmm::discriminators::SWAP2;
use original::instr::pump_amm::discriminators::SELL;

pub const CASES: &[Example] = &[
    ("a: AMM V4 tag 9 with 17 accounts", a),
    ("b: AMM V4 tag 9 with 18 accounts", b),
    ("c: PumpSwap with 16, 17, 18, 20, 21 accounts", c),
    ("d: heights 2 then 3", d),
    ("e: second height absent", e),
    ("f: two mints meet in one account", f),
    ("g: groups 1, 0, 1", g),
    ("h: with-fee data of 18 and 19 bytes", h),
    ("i: SWAP2 of 24 and 28 bytes", i),
    ("j: SWAP2 with a slice", j),
    ("k: initialise data [1] and [1, 0]", k),
    ("the printed listing", printed_listing),
    ("listing of refused input", refused_listing),
    ("room counts ambiguous accounts", ambiguous_room),
    ("a pass sees what it has just added", passes_in_order),
    ("256 passes", most_passes),
    ("doubt travels the whole chain", doubt_travels),
    ("doubt does not pass a recorded account", doubt_stops_at_recorded),
    ("doubt does not pass an ambiguous account", doubt_stops_at_ambiguous),
    ("a checked transfer without a row records", checked_without_row),
    ("a zero program is System only when resolved", zero_program),
    ("why no transfer: the first test that fails", first_test),
];

/// Where the fourteen ids stand in the keys of `pack`, after 64 other keys.
const IDS: u32 = 64;
const SPL_TOKEN: u32 = IDS + ids::SPL_TOKEN as u32;
const TOKEN_2022: u32 = IDS + ids::TOKEN_2022 as u32;
const PUMPSWAP: u32 = IDS + ids::PUMPSWAP as u32;
const AMM_V4: u32 = IDS + ids::AMM_V4 as u32;
const DLMM: u32 = IDS + ids::DLMM as u32;

/// Key number k of those that are no ids.
fn key(k: u8) -> Key {
    [k + 1; 32]
}

fn pack(outer: Vec<Instruction>) -> Pack {
    let ids = original::ids();
    let keys = (0..IDS as u8).map(key).chain(ids).map(|key| KeyRow { whole: true, key }).collect();
    Pack { keys, outer, ..Pack::default() }
}

fn instruction(program: u32, accounts: usize, data: Vec<u8>) -> Instruction {
    Instruction { program, accounts: (0..accounts as u8).collect(), data }
}

fn transfer(from: u8, to: u8, amount: u64) -> Instruction {
    let data = [&[3][..], &amount.to_le_bytes()].concat();
    Instruction { program: SPL_TOKEN, accounts: vec![from, to, 0], data }
}

/// Balances of accounts by number, with the key of that number as mint; then plain transfers.
fn evidence(balances: &[(u8, u8)], transfers: &[(u8, u8)]) -> Pack {
    let balance = |&(account, mint)| Balance { account: u32::from(account), mint: key(mint) };
    Pack {
        balances: balances.iter().map(balance).collect(),
        ..pack(transfers.iter().map(|&(from, to)| transfer(from, to, 1)).collect())
    }
}

/// The answer with the source's own names and the room of `routes`.
fn reply(pack: &Pack) -> Result<Reply, String> {
    let bytes = pack.write().map_err(|error| format!("{error:?}"))?;
    let lengths = std::array::from_fn(|t| ROOM[t] * WIDTHS[t]);
    Ok(oracle::reply(&original::names::real(), &bytes, &lengths))
}

fn count(pack: &Pack, table: usize) -> Result<u32, String> {
    Ok(reply(pack)?.answer.counts[table])
}

/// The reason of each invocation.
fn reasons(reply: &Reply) -> Vec<u8> {
    let rows = reply.tables[1].chunks_exact(WIDTHS[1]).take(reply.answer.counts[1] as usize);
    rows.map(|row| row[27]).collect()
}

fn amm_keys(accounts: usize, trader: u8, input: u8, output: u8) -> Outcome {
    let reply = reply(&pack(vec![instruction(AMM_V4, accounts, vec![9; 17])]))?;
    same("legs", reply.answer.counts[3], 1)?;
    let row = &reply.tables[3];
    same("trader", &row[69..101], &key(trader)[..])?;
    same("input", &row[101..133], &key(input)[..])?;
    same("output", &row[133..165], &key(output)[..])
}

fn a() -> Outcome {
    amm_keys(17, 16, 14, 15)
}

fn b() -> Outcome {
    amm_keys(18, 17, 15, 16)
}

fn c() -> Outcome {
    for (accounts, legs) in [(16, 0), (17, 1), (18, 0), (20, 0), (21, 1)] {
        let data = [&SELL[..], &[0; 16]].concat();
        same("legs", count(&pack(vec![instruction(PUMPSWAP, accounts, data)]), 3)?, legs)?;
    }
    Ok(())
}

fn with_heights(heights: [Option<u32>; 2]) -> Pack {
    let inner = |height| Inner { height, instruction: Instruction::default() };
    Pack {
        outer: vec![Instruction::default()],
        groups: vec![Group { outer: 0, instructions: heights.map(inner).to_vec() }],
        ..Pack::default()
    }
}

fn blocks(heights: [Option<u32>; 2], ends: [u8; 3], parents: [u8; 3], tests: u32) -> Outcome {
    let reply = reply(&with_heights(heights))?;
    let field = |at: usize| [0, 1, 2].map(|i| reply.tables[1][i * WIDTHS[1] + at]);
    same("ends", field(14), ends)?;
    same("parents", field(23), parents)?;
    same("reasons", reasons(&reply), vec![1; 3])?;
    same("tests", reply.answer.tests, tests)
}

fn d() -> Outcome {
    blocks([Some(2), Some(3)], [3, 3, 3], [0, 1, 2], 2)
}

fn e() -> Outcome {
    blocks([Some(2), None], [3, 2, 3], [0, 1, 1], 3)
}

fn f() -> Outcome {
    for (transfers, mint) in [([(0, 2), (1, 2)], key(50)), ([(1, 2), (0, 2)], key(51))] {
        let reply = reply(&evidence(&[(0, 50), (1, 51)], &transfers))?;
        same("mints", reply.answer.counts[0], 3)?;
        let row = &reply.tables[0][2 * WIDTHS[0]..3 * WIDTHS[0]];
        same("row of C", row, &[&key(2)[..], &mint, &[2]].concat()[..])?;
        same("passes", reply.answer.passes, 2)?;
    }
    Ok(())
}

fn g() -> Outcome {
    let group = |outer, amount| {
        let inner = Inner { height: Some(2), instruction: transfer(0, 1, amount) };
        Group { outer, instructions: vec![inner] }
    };
    let groups = vec![group(1, 1), group(0, 2), group(1, 3)];
    let outer = vec![transfer(0, 1, 10), transfer(0, 1, 11)];
    let reply = reply(&Pack { groups, ..pack(outer) })?;
    let amounts = reply.tables[2].chunks_exact(WIDTHS[2]).take(5).map(|row| row[133]).collect();
    same("amounts in execution order", amounts, vec![10, 2, 11, 1, 3])?;
    same("reasons", reasons(&reply), vec![0; 5])
}

fn h() -> Outcome {
    for (length, transfers, reason) in [(18, 0, 4), (19, 1, 0)] {
        let mut data = vec![26, 1];
        data.resize(length, 0);
        let reply = reply(&pack(vec![instruction(TOKEN_2022, 4, data)]))?;
        same("transfers", reply.answer.counts[2], transfers)?;
        same("reasons", reasons(&reply), vec![reason])?;
    }
    Ok(())
}

fn swap2_legs(accounts: usize, tail: &[u8], legs: u32) -> Outcome {
    let data = [&SWAP2[..], &[0; 16], tail].concat();
    same("legs", count(&pack(vec![instruction(DLMM, accounts, data)]), 3)?, legs)
}

fn i() -> Outcome {
    swap2_legs(16, &[], 0)?;
    swap2_legs(16, &[0; 4], 1)
}

fn j() -> Outcome {
    let slice = [1, 0, 0, 0, 3, 0, 2];
    swap2_legs(17, &slice, 0)?;
    swap2_legs(18, &slice, 1)
}

fn k() -> Outcome {
    for (data, mints) in [(vec![1], 1), (vec![1, 0], 0)] {
        let reply = reply(&pack(vec![instruction(SPL_TOKEN, 2, data)]))?;
        same("mints", reply.answer.counts[0], mints)?;
        same("reasons", reasons(&reply), vec![2])?;
    }
    Ok(())
}

fn printed_listing() -> Outcome {
    let bytes = with_heights([Some(2), Some(3)]).write().map_err(|error| format!("{error:?}"))?;
    let starts: Vec<_> = bytes[40..60].chunks(4).map(|start| start[0]).collect();
    same("starts", starts, vec![0, 0, 0, 8, 40])?;
    let lines = "ok 0 3 0 0 0 passes 0 tests 2\n0 - 1 3 0 0 1\n0 0 2 3 0 1 1\n0 1 3 3 0 2 1\n";
    same("listing", listing(&[&[0; 88][..], &bytes].concat()), lines.to_string())
}

fn refused_listing() -> Outcome {
    same("87 bytes", listing(&[0; 87]), "refused 1 0\n".to_string())?;
    same("names alone", listing(&[0; 88]), "refused 2 0\n".to_string())?;
    same("too long", listing(&[0; 88 + 61_441]), "refused 2 0\n".to_string())
}

fn ambiguous_room() -> Outcome {
    let balances = [key(50), key(51)].map(|mint| Balance { account: 0, mint }).to_vec();
    let bytes = Pack { balances, ..pack(vec![]) }.write().map_err(|error| format!("{error:?}"))?;
    let names = original::names::real();
    let refused = Answer::refused(Refusal::Room(Table::Mints));
    same("64 bytes", oracle::reply(&names, &bytes, &[64, 0, 0, 0, 0]).answer, refused)?;
    let accepted = oracle::reply(&names, &bytes, &[65, 0, 0, 0, 0]);
    same("65 bytes", accepted.answer, Answer { passes: 1, ..Answer::default() })?;
    hold("no row", accepted.tables[0].iter().all(|byte| *byte == 0))
}

fn passes_in_order() -> Outcome {
    for (transfers, passes) in [([(0, 1), (1, 2)], 2), ([(1, 2), (0, 1)], 3)] {
        let reply = reply(&evidence(&[(0, 50)], &transfers))?;
        same("passes", reply.answer.passes, passes)?;
    }
    Ok(())
}

fn most_passes() -> Outcome {
    let key = |k: u16| std::array::from_fn(|at| k.to_le_bytes()[at % 2].wrapping_add(3));
    let mut keys: Vec<Key> = (0..256).map(key).collect();
    keys[SPL_TOKEN as usize] = original::ids()[ids::SPL_TOKEN];
    let reply = reply(&Pack {
        keys: keys.into_iter().map(|key| KeyRow { whole: true, key }).collect(),
        balances: vec![Balance { account: 0, mint: original::ids()[ids::WRAPPED_SOL] }],
        outer: (0..255).rev().map(|from| transfer(from, from + 1, 1)).collect(),
        ..Pack::default()
    })?;
    same("passes", reply.answer.passes, 256)?;
    same("rows", reply.answer.counts, [256, 255, 255, 0, 0])
}

/// The marks of the accounts with a mint, by their numbers, in whatever order the transfers come.
fn marks(balances: &[(u8, u8)], transfers: &[(u8, u8)], expected: &[u8]) -> Outcome {
    let reversed: Vec<_> = transfers.iter().rev().copied().collect();
    for transfers in [transfers, &reversed] {
        let reply = reply(&evidence(balances, transfers))?;
        let rows = reply.tables[0].chunks_exact(WIDTHS[0]).take(reply.answer.counts[0] as usize);
        same("marks", rows.map(|row| row[64]).collect(), expected.to_vec())?;
    }
    Ok(())
}

fn doubt_travels() -> Outcome {
    marks(&[(0, 50), (1, 51)], &[(0, 2), (2, 3), (3, 1)], &[0, 0, 2, 2])
}

/// Account 3 is joined to a recorded account alone, and that to another mint, or to an account in doubt.
fn doubt_stops_at_recorded() -> Outcome {
    let recorded = &[(0, 50), (1, 51)];
    marks(recorded, &[(3, 0), (0, 1)], &[0, 0, 1])?;
    marks(recorded, &[(3, 0), (0, 2), (2, 1)], &[0, 0, 2, 1])
}

/// Account 4 is ambiguous: it lies between account 3 and another mint, or an account in doubt.
fn doubt_stops_at_ambiguous() -> Outcome {
    let recorded = &[(0, 50), (1, 51), (4, 50), (4, 51)];
    marks(recorded, &[(0, 3), (3, 4), (4, 1)], &[0, 0, 1])?;
    marks(recorded, &[(0, 3), (3, 4), (4, 2), (0, 2), (2, 1)], &[0, 0, 2, 1])
}

fn checked_without_row() -> Outcome {
    let accounts = vec![255, 1, 2, 0];
    let checked = Instruction { program: SPL_TOKEN, accounts, data: vec![12; 10] };
    let reply = reply(&pack(vec![checked]))?;
    same("rows", reply.answer.counts, [1, 1, 0, 0, 0])?;
    same("reasons", reasons(&reply), vec![5])?;
    same("account 2 has mint 1", &reply.tables[0][..65], &[&key(2)[..], &key(1), &[0]].concat()[..])
}

fn zero_program() -> Outcome {
    let outer = (0..3).map(|program| instruction(program, 0, vec![])).collect();
    let keys = [true, false].map(|whole| KeyRow { whole, key: [0; 32] }).to_vec();
    let reply = reply(&Pack { keys, outer, ..Pack::default() })?;
    same("bits", [0, 1, 2].map(|i| reply.tables[1][i * WIDTHS[1] + 18]), [12, 0, 0])?;
    same("reasons", reasons(&reply), vec![1; 3])
}

/// Initialise, sync and close are no transfers; a short instruction with too few accounts has too few
/// accounts.
fn first_test() -> Outcome {
    let short = |program, accounts, data: &[u8]| instruction(program, accounts, data.to_vec());
    let tests = [
        (short(AMM_V4, 2, &[3]), 1),
        (short(SPL_TOKEN, 2, &[]), 2),
        (short(SPL_TOKEN, 2, &[1]), 2),
        (short(SPL_TOKEN, 1, &[17]), 2),
        (short(SPL_TOKEN, 3, &[9]), 2),
        (short(SPL_TOKEN, 4, &[26, 1]), 2),
        (short(TOKEN_2022, 4, &[26]), 2),
        (short(TOKEN_2022, 3, &[26, 1]), 3),
        (short(SPL_TOKEN, 2, &[3]), 3),
        (short(SPL_TOKEN, 3, &[3]), 4),
        (transfer(0, 255, 1), 5),
        (transfer(0, 1, 1), 0),
    ];
    let (instructions, expected): (Vec<_>, Vec<u8>) = tests.into_iter().unzip();
    same("reasons", reasons(&reply(&pack(instructions))?), expected)
}
