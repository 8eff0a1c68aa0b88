//! Builds a pack from plain values, routes it and prints each table: a trader wraps 2 SOL, swaps 1.5
//! of it for a coin, and closes the account. Then prints a month in which that happens twice.
//! c/example.c does the same in C and prints the same.

use mbelaguy::pack::{Balance, Group, Inner, Instruction, KeyRow, Pack};
use mbelaguy::rows::{Action, Invocation, Leg, Mint, MintRow, Native, Reason, Transfer};
use mbelaguy::{base58, ids, route, Key, Month, MonthLine, Names, Table, Tables};
use std::error::Error;
use std::iter::successors;

/// Indexes into the keys.
const TRADER: u8 = 0;
const WRAPPED: u8 = 1;
const COINS: u8 = 2;
const POOL: u8 = 3;
const POOL_WRAPPED: u8 = 4;
const POOL_COINS: u8 = 5;
const COIN: u8 = 6;
const SPL_TOKEN: u8 = 7;
const WRAPPED_SOL: u8 = 8;
const SYSTEM: u8 = 9;
const AMM_V4: u8 = 10;

fn main() -> Result<(), Box<dyn Error>> {
    let pack = pack().write()?;
    println!("pack: {} bytes", pack.len());

    let mut tables = Tables::for_pack(&pack);
    let answer = route(&Names::ORIGINAL.bytes(), &pack, &mut tables)?;
    println!("passes {}, tests {}", answer.passes, answer.tests);

    tables.mints().for_each(print_mint);
    let rows: Vec<_> = tables.invocations().collect();
    rows.iter().for_each(|row| print_invocation(row, depth(row, &rows)));
    tables.transfers().for_each(print_transfer);
    tables.legs().for_each(print_leg);
    tables.natives().for_each(print_native);

    // Two packs' transfers, here twice the same, one behind the other and fed at once.
    let mut month = Month::new();
    month.feed(&tables.used(Table::Transfers).repeat(2))?;
    println!("transfers fed {}", month.fed());
    month.lines().for_each(print_month_line);
    Ok(())
}

fn pack() -> Pack {
    let mut keys: Vec<Key> = (1..=7).map(|k| [k; 32]).collect();
    keys.extend([ids::SPL_TOKEN, ids::WRAPPED_SOL, ids::SYSTEM, ids::AMM_V4]);
    let mint = |index: u8| keys[usize::from(index)];
    let balances = vec![
        Balance { account: POOL_WRAPPED.into(), mint: mint(WRAPPED_SOL) },
        Balance { account: POOL_COINS.into(), mint: mint(COIN) },
    ];
    let fund = [&[2, 0, 0, 0], &2_000_000_000u64.to_le_bytes()[..]].concat();
    let swap = [&[16], &1_500_000_000u64.to_le_bytes()[..], &40_000u64.to_le_bytes()].concat();
    let swapped = [SPL_TOKEN, POOL, SYSTEM, POOL_WRAPPED, POOL_COINS, WRAPPED, COINS, TRADER];
    let outer = vec![
        instruction(SYSTEM, &[TRADER, WRAPPED], &fund),
        instruction(SPL_TOKEN, &[WRAPPED], &[17]),
        instruction(AMM_V4, &swapped, &swap),
        instruction(SPL_TOKEN, &[WRAPPED, TRADER, TRADER], &[9]),
    ];
    let inner = vec![
        Inner { height: Some(2), instruction: plain(WRAPPED, POOL_WRAPPED, TRADER, 1_500_000_000) },
        Inner { height: Some(2), instruction: plain(POOL_COINS, COINS, POOL, 42_000) },
    ];
    Pack {
        keys: keys.into_iter().map(|key| KeyRow { whole: true, key }).collect(),
        balances,
        outer,
        groups: vec![Group { outer: 2, instructions: inner }],
        pools: vec![],
    }
}

fn instruction(program: u8, accounts: &[u8], data: &[u8]) -> Instruction {
    Instruction { program: program.into(), accounts: accounts.to_vec(), data: data.to_vec() }
}

/// A plain token transfer.
fn plain(source: u8, destination: u8, owner: u8, amount: u64) -> Instruction {
    let data = [&[3], &amount.to_le_bytes()[..]].concat();
    instruction(SPL_TOKEN, &[source, destination, owner], &data)
}

fn print_mint(row: MintRow) {
    println!("mint: account {} mint {} {}", short(&row.account), short(&row.mint), row.mark);
}

/// How many invocations one lies below, from parent to parent.
fn depth(row: &Invocation, rows: &[Invocation]) -> usize {
    successors(row.parent(), |&parent| rows[parent].parent()).count()
}

fn print_invocation(row: &Invocation, depth: usize) {
    let number = |number: Option<u32>| number.map_or("-".to_string(), |n| n.to_string());
    // Of programs that are no token program nobody expects a transfer.
    let reason = row.reason.filter(|reason| *reason != Reason::NotToken);
    println!(
        "{}invocation: outer {} inner {} height {} end {} bits {} leg {} parent {}{}",
        "  ".repeat(depth),
        row.outer,
        number(row.inner),
        number(row.height),
        row.end,
        row.bits(),
        number(row.leg),
        number(row.parent),
        reason.map_or(String::new(), |reason| format!(" no transfer: {reason}"))
    );
}

fn print_transfer(row: Transfer) {
    println!(
        "transfer: invocation {} from {} to {} mint {} amount {} fee {}",
        row.invocation,
        short(&row.source),
        short(&row.destination),
        mint(row.mint),
        row.amount,
        row.fee.map_or("-".to_string(), |fee| fee.to_string())
    );
}

fn print_leg(row: Leg) {
    println!(
        "leg: invocation {} {} pool {} trader {} in {} mint {} out {} mint {} {} {} threshold {}",
        row.invocation,
        row.protocol,
        short(&row.pool),
        short(&row.trader),
        short(&row.input),
        mint(row.input_mint),
        short(&row.output),
        mint(row.output_mint),
        if row.exact_in { "exact in" } else { "exact out" },
        row.amount,
        row.threshold
    );
}

fn print_native(row: Native) {
    print!("native: invocation {} account {} ", row.invocation, short(&row.account));
    match row.action {
        Action::Fund { source, lamports } => println!("fund from {} {lamports}", short(&source)),
        Action::Sync => println!("sync"),
        Action::Close { destination, authority } => {
            println!("close to {} by {}", short(&destination), short(&authority))
        }
    }
}

fn print_month_line(line: MonthLine) {
    let key = |key: Option<Key>| key.map_or("-".to_string(), |key| short(&key));
    println!(
        "month: mint {} account {} debits {} credits {} fees {} apart {}",
        key(line.mint),
        key(line.account),
        line.debits,
        line.credits,
        line.fees,
        line.apart
    );
}

/// A mint and its mark, or '-' where there is none.
fn mint(mint: Mint) -> String {
    let key = mint.key().map_or("-".to_string(), |key| short(&key));
    let mark = mint.mark().map_or("-".to_string(), |mark| mark.to_string());
    format!("{key} {mark}")
}

fn short(key: &Key) -> String {
    base58::short(key)
}
