//! Grids: calls whose instructions cover every tag, length and account count of the token programs and
//! System, and every form of swap around its floors. A pack holds as many instructions as it can.

use crate::generate::names::{BASE_IN, BASE_OUT, BUY, REWARD, STANDARD};
use crate::generate::swaps::{Form, FORMS};
use crate::generate::Case;
use mbelaguy::pack::{Balance, Instruction, Key, KeyRow, Pack, MAX_BYTES};
use mbelaguy::{MAX_INVOCATIONS, MAX_KEYS, MOST_ROWS, WIDTHS};
use original::ids::{
    AMM_V4, CLMM, CPMM, DLMM, LAUNCHLAB, ORCA, PUMPSWAP, SPL_TOKEN, TOKEN_2022, WRAPPED_SOL,
};
use original::instr::pump_amm::discriminators as pump_amm;
use original::names::{real, Names};

/// The most bytes of data and the most accounts of a token or System instruction.
const MOST_DATA: usize = 40;
const MOST_ACCOUNTS: usize = 5;

/// Account counts of swaps; the last one is 17 in a single byte.
const LEG_COUNTS: [usize; 32] = {
    let mut counts = [273; 32];
    let mut count = 0;
    while count < 31 {
        counts[count] = count;
        count += 1;
    }
    counts
};

/// Tags of token instructions that say something about a mint.
const EVIDENCE: [u8; 6] = [1, 3, 12, 16, 18, 26];

/// Keys of every pack: the ids, then these, then accounts.
const ZERO: u8 = 14;
const UNKNOWN: u8 = 15;
const CONFIG: u8 = 16;
const OTHER_CONFIG: u8 = 17;
const PARTIAL_SPL_TOKEN: u8 = 18;
const PARTIAL_TOKEN_2022: u8 = 19;
const ACCOUNTS: u8 = 20;

/// An index past all keys; cut to one byte or two it would be SPL Token's.
const MISSING: u32 = 65_536;

/// Programs of token and System instructions, by their indexes: those with a key, and those that are not
/// resolved.
pub const RESOLVED: [u32; 4] = [SPL_TOKEN as u32, TOKEN_2022 as u32, ZERO as u32, UNKNOWN as u32];
pub const UNRESOLVED: [u32; 3] = [PARTIAL_SPL_TOKEN as u32, PARTIAL_TOKEN_2022 as u32, MISSING];

/// Accounts of a swap before they come again: those with mints and graduated, then as many without.
const SWAP_ACCOUNTS: u8 = 31;

/// A part of the grids.
#[derive(Clone, Copy, Debug)]
pub enum Share {
    /// Token and System instructions under a program, over accounts with mints.
    Recorded(u32, Damage),
    /// The same over accounts with other mints, source and destination not having the same.
    OtherMints(u32),
    /// The same over accounts that only the instruction itself tells something about.
    Fresh(u32),
    /// Of those only tags that are evidence, with an account missing.
    FreshDamaged(u32, Damage),
    /// Tag 26 with every second byte.
    SecondBytes(u32),
    /// Transfers with so many accounts or bytes that a single byte holds few of them.
    Wide(u32),
    /// Swaps with the names lent in one of the ways.
    Legs(usize),
    /// Slices of DLMM's second version.
    Slices,
    /// The start of every form under every protocol, and every tag of AMM V4.
    Crossed,
    /// Every form with as many accounts as a pack holds.
    Largest,
}

/// What is wrong with one account of an instruction.
#[derive(Clone, Copy, Debug)]
pub enum Damage {
    None,
    OutOfRange,
    Zero,
}

/// All parts, the longest first.
pub fn shares() -> Vec<Share> {
    let mut shares = Vec::new();
    for damage in [Damage::OutOfRange, Damage::Zero, Damage::None] {
        shares.extend(RESOLVED.map(|program| Share::Recorded(program, damage)));
    }
    shares.extend(UNRESOLVED.map(|program| Share::Recorded(program, Damage::None)));
    shares.extend(RESOLVED.map(Share::OtherMints));
    shares.extend(RESOLVED.map(Share::Fresh));
    for damage in [Damage::OutOfRange, Damage::Zero] {
        shares.extend(RESOLVED.map(|program| Share::FreshDamaged(program, damage)));
    }
    shares.extend((0..all_names().len()).map(Share::Legs));
    shares.extend([Share::Slices, Share::Crossed, Share::Largest]);
    let token_programs = [SPL_TOKEN as u32, TOKEN_2022 as u32];
    shares.extend(token_programs.map(Share::SecondBytes));
    shares.extend(token_programs.map(Share::Wide));
    shares
}

impl Share {
    /// Its calls.
    pub fn cases(self) -> Vec<Case> {
        match self {
            Share::Recorded(program, damage) => recorded(program, damage),
            Share::OtherMints(program) => other_mints(program),
            Share::Fresh(program) if is_token(program) => fresh(program, Damage::None, &all_tags()),
            Share::Fresh(program) => fresh(program, Damage::None, &EVIDENCE),
            Share::FreshDamaged(program, damage) => fresh(program, damage, &EVIDENCE),
            Share::SecondBytes(program) => second_bytes(program),
            Share::Wide(program) => wide(program),
            Share::Legs(way) => legs(way),
            Share::Slices => slices(),
            Share::Crossed => crossed(),
            Share::Largest => largest(),
        }
    }
}

/// Every instruction of a call alone, the shortest first.
pub fn alone(case: &Case) -> Vec<Case> {
    let pack = mbelaguy::pack::read(&case.pack).expect("grids hold whole packs");
    let mut outer = pack.outer.clone();
    outer.sort_by_key(size);
    let alone = |instruction| Pack { outer: vec![instruction], ..pack.clone() };
    let case = |pack: Pack| Case { pack: write(&pack), ..case.clone() };
    outer.into_iter().map(alone).map(case).collect()
}

/// Instructions put into packs over the same keys, balances and pools.
struct Packer {
    names: Names,
    pack: Pack,
    /// The most instructions of a pack.
    most: usize,
    /// Bytes of a pack without instructions, and of the one that is being filled.
    empty: usize,
    bytes: usize,
    cases: Vec<Case>,
}

impl Packer {
    fn new(names: Names, pack: Pack, most: usize) -> Self {
        let empty = write(&pack).len();
        Packer { names, pack, most, empty, bytes: empty, cases: Vec::new() }
    }

    fn push(&mut self, instruction: Instruction) {
        if self.bytes + size(&instruction) > MAX_BYTES {
            self.close();
        }
        self.bytes += size(&instruction);
        self.pack.outer.push(instruction);
        if self.pack.outer.len() == self.most {
            self.close();
        }
    }

    fn close(&mut self) {
        if !self.pack.outer.is_empty() {
            let lengths = std::array::from_fn(|t| MOST_ROWS[t] * WIDTHS[t]);
            let pack = write(&self.pack);
            self.cases.push(Case { names: self.names.to_vec(), pack, lengths });
            self.pack.outer.clear();
            self.bytes = self.empty;
        }
    }

    fn end(mut self) -> Vec<Case> {
        self.close();
        self.cases
    }
}

fn write(pack: &Pack) -> Vec<u8> {
    pack.write().expect("grids stay within a pack")
}

fn size(instruction: &Instruction) -> usize {
    8 + instruction.accounts.len() + instruction.data.len()
}

/// The ids, zero, an unknown program, both configs, the token programs with flag 0, then so many
/// accounts.
fn keys(names: &Names, accounts: usize) -> Vec<KeyRow> {
    let config = |at: usize| names[at..at + 32].try_into().expect("a config has 32 bytes");
    let ids = original::ids();
    let mut keys = ids.to_vec();
    keys.extend([[0; 32], [200; 32], config(STANDARD), config(REWARD)]);
    keys.extend([ids[SPL_TOKEN], ids[TOKEN_2022]]);
    keys.extend((0..accounts).map(account_key));
    let mut keys: Vec<_> = keys.into_iter().map(|key| KeyRow { whole: true, key }).collect();
    for partial in [PARTIAL_SPL_TOKEN, PARTIAL_TOKEN_2022] {
        keys[usize::from(partial)].whole = false;
    }
    keys
}

/// Keys that differ in their last byte alone.
fn account_key(number: usize) -> Key {
    let mut key = [90; 32];
    key[31] = number as u8;
    key
}

fn pattern(place: usize) -> u8 {
    (place * 31 + 7) as u8
}

/// Tokens and natives: all tags over the wrapped SOL accounts first and third, whose second is wrapped
/// SOL itself, so that no instruction makes another account ambiguous.
fn recorded(program: u32, damage: Damage) -> Vec<Case> {
    all_tags_over(RECORDED, recorded_mints(), program, damage)
}

/// Its accounts, and the mints of their balances.
const RECORDED: [u8; MOST_ACCOUNTS] =
    [ACCOUNTS, WRAPPED_SOL as u8, ACCOUNTS + 1, ACCOUNTS + 2, ACCOUNTS + 3];

fn recorded_mints() -> [Key; MOST_ACCOUNTS] {
    let wrapped_sol = original::ids()[WRAPPED_SOL];
    [wrapped_sol, wrapped_sol, wrapped_sol, [7; 32], [8; 32]]
}

/// The second account is the mint of the first and third, and has another mint itself.
fn other_mints(program: u32) -> Vec<Case> {
    let wrapped_sol = original::ids()[WRAPPED_SOL];
    let accounts = [ACCOUNTS, ACCOUNTS + 1, ACCOUNTS + 2, ACCOUNTS + 3, WRAPPED_SOL as u8];
    let mints = [account_key(1), [8; 32], account_key(1), wrapped_sol, wrapped_sol];
    all_tags_over(accounts, mints, program, Damage::None)
}

fn all_tags_over(
    accounts: [u8; MOST_ACCOUNTS],
    mints: [Key; MOST_ACCOUNTS],
    program: u32,
    damage: Damage,
) -> Vec<Case> {
    let mut packer = packer_over(accounts, mints);
    let past = packer.pack.keys.len() as u8;
    for data in all_data(program, &all_tags()) {
        for accounts in damaged(accounts, damage, past) {
            packer.push(Instruction { program, accounts, data: data.clone() });
        }
    }
    packer.end()
}

/// Packs with a balance of each account.
fn packer_over(accounts: [u8; MOST_ACCOUNTS], mints: [Key; MOST_ACCOUNTS]) -> Packer {
    let names = real();
    let balance = |(account, mint)| Balance { account: u32::from(account), mint };
    let balances = accounts.into_iter().zip(mints).map(balance).collect();
    let pack = Pack { keys: keys(&names, 4), balances, ..Pack::default() };
    Packer::new(names, pack, MAX_INVOCATIONS)
}

/// Every second byte of tag 26, around the least accounts and data.
fn second_bytes(program: u32) -> Vec<Case> {
    let mut packer = packer_over(RECORDED, recorded_mints());
    for second in 0..=255 {
        for length in [2, 18, 19, 20] {
            for count in [0, 3, 4, 5] {
                let data = [26, second].into_iter().chain((2..length).map(pattern)).collect();
                let accounts = RECORDED[..count].to_vec();
                packer.push(Instruction { program, accounts, data });
            }
        }
    }
    packer.end()
}

/// Transfers around their least accounts and data, with 256 more accounts or bytes or both.
fn wide(program: u32) -> Vec<Case> {
    let mut packer = packer_over(RECORDED, recorded_mints());
    for start in [[3, 1], [12, 1], [26, 1]] {
        for (more_accounts, more_bytes) in [(256, 0), (0, 256), (256, 256)] {
            for count in 0..=MOST_ACCOUNTS {
                for length in 1..=20 {
                    let accounts = RECORDED.into_iter().cycle().take(count + more_accounts);
                    let data = start.into_iter().chain((2..).map(pattern));
                    packer.push(Instruction {
                        program,
                        accounts: accounts.collect(),
                        data: data.take(length + more_bytes).collect(),
                    });
                }
            }
        }
    }
    packer.end()
}

fn all_tags() -> Vec<u8> {
    (0..=255).collect()
}

pub fn is_token(program: u32) -> bool {
    [SPL_TOKEN, TOKEN_2022].contains(&(program as usize))
}

/// Tokens as evidence: first and third account come in one instruction only, the second has a mint.
fn fresh(program: u32, damage: Damage, tags: &[u8]) -> Vec<Case> {
    const SHARED: usize = 3;
    let names = real();
    let balances = vec![Balance { account: ACCOUNTS.into(), mint: original::ids()[WRAPPED_SOL] }];
    let count = MAX_KEYS - 2 - usize::from(ACCOUNTS);
    let pack = Pack { keys: keys(&names, count), balances, ..Pack::default() };
    let past = pack.keys.len() as u8;
    let mut packer = Packer::new(names, pack, (count - SHARED) / 2);
    for data in all_data(program, tags) {
        for number in 0..damaged([0; MOST_ACCOUNTS], damage, past).len() {
            let own = ACCOUNTS + (SHARED + 2 * packer.pack.outer.len()) as u8;
            let accounts = [own, ACCOUNTS, own + 1, ACCOUNTS + 1, ACCOUNTS + 2];
            let accounts = damaged(accounts, damage, past).swap_remove(number);
            packer.push(Instruction { program, accounts, data: data.clone() });
        }
    }
    packer.end()
}

/// The first 0 to 5 of the accounts, each of them damaged in turn.
fn damaged(accounts: [u8; MOST_ACCOUNTS], damage: Damage, past: u8) -> Vec<Vec<u8>> {
    let index = match damage {
        Damage::None => return (0..=MOST_ACCOUNTS).map(|n| accounts[..n].to_vec()).collect(),
        Damage::OutOfRange => past,
        Damage::Zero => ZERO,
    };
    let mut all = Vec::new();
    for count in 1..=MOST_ACCOUNTS {
        for place in 0..count {
            let mut accounts = accounts[..count].to_vec();
            accounts[place] = index;
            all.push(accounts);
        }
    }
    all
}

/// No data, then every tag with every length.
fn all_data(program: u32, tags: &[u8]) -> Vec<Vec<u8>> {
    let mut all = vec![Vec::new()];
    for start in tags.iter().flat_map(|&tag| starts(program, tag)) {
        for length in 1..=MOST_DATA {
            let rest = (4..MOST_DATA).map(pattern);
            all.push(start.into_iter().chain(rest).take(length).collect());
        }
    }
    all
}

/// Ways to begin with a tag: one byte, for fees a second one, and four where System would read four.
fn starts(program: u32, tag: u8) -> Vec<[u8; 4]> {
    let system = [ZERO, UNKNOWN].map(u32::from).contains(&program);
    match tag {
        26 => vec![[tag, 1, 9, 9], [tag, 0, 9, 9], [tag, 2, 9, 9]],
        2 if system => vec![[tag, 0, 0, 0], [tag, 1, 0, 0], [tag, 0, 1, 0], [tag, 0, 0, 1]],
        _ if system => vec![[tag, 0, 0, 0]],
        _ => vec![[tag, 1, 9, 9]],
    }
}

/// The source's own names, all zero, then every way in which some coincide.
fn all_names() -> Vec<Names> {
    let mut all = vec![real(), [0; 88], [1; 88]];
    let mut copy = |from: usize, length: usize, to: usize| {
        let mut names = real();
        names.copy_within(from..from + length, to);
        all.push(names);
    };
    copy(BASE_IN, 8, BASE_OUT);
    copy(BASE_IN, 8, BUY);
    copy(STANDARD, 32, REWARD);
    let constants = [
        pump_amm::BUY_EXACT_QUOTE_IN,
        pump_amm::BUY_EXACT_QUOTE_IN_V2,
        pump_amm::BUY_V2,
        pump_amm::SELL,
        pump_amm::SELL_V2,
    ];
    all.extend(constants.map(|constant| with(BUY, &constant)));
    all.extend([STANDARD, REWARD].map(|at| with(at, &[0; 32])));
    all
}

fn with(at: usize, value: &[u8]) -> Names {
    let mut names = real();
    names[at..at + value.len()].copy_from_slice(value);
    names
}

/// Accounts with mints, all of them graduated pools, and as many accounts without. A config is a pool
/// too: with some names that is the zero key.
fn swap_pack(names: &Names) -> Pack {
    let keys = keys(names, 2 * usize::from(SWAP_ACCOUNTS));
    let account = |number: u8| u32::from(ACCOUNTS + number);
    let mint = |number: u8| [number + 1; 32];
    let balance = |number| Balance { account: account(number), mint: mint(number) };
    let mut pools: Vec<Key> = (0..usize::from(SWAP_ACCOUNTS)).map(account_key).collect();
    pools.push(keys[usize::from(CONFIG)].key);
    Pack { keys, balances: (0..SWAP_ACCOUNTS).map(balance).collect(), pools, ..Pack::default() }
}

/// Ways to choose the accounts of a swap.
const LAYOUTS: usize = 10;

fn layout(way: usize, count: usize) -> Vec<u8> {
    let known = |place: usize| ACCOUNTS + (place % usize::from(SWAP_ACCOUNTS)) as u8;
    let new = |place: usize| known(place) + SWAP_ACCOUNTS;
    let account = |place: usize| match (way, place) {
        (0, _) => known(place),
        (2, 2) | (3, 2) => WRAPPED_SOL as u8,
        (2, 3) => CONFIG,
        (3, 3) => OTHER_CONFIG,
        (3, _) => known(place),
        (4, 5) => new(6),
        (9, 9) => new(7),
        (5, 3) => new(5),
        (6, _) => ZERO,
        (7, _) => 255,
        (8, _) if place.is_multiple_of(2) => known(place),
        _ => new(place),
    };
    (0..count).map(account).collect()
}

/// Forms at every account count, around their least data, with every flag, over every layout.
fn legs(way: usize) -> Vec<Case> {
    let names = all_names()[way];
    let mut packer = Packer::new(names, swap_pack(&names), MAX_INVOCATIONS);
    let lent = |form: &Form| [CPMM, PUMPSWAP, LAUNCHLAB].contains(&form.program);
    for form in FORMS.iter().filter(|form| way < 2 || lent(form)) {
        let data = leg_data(form, &names);
        for count in LEG_COUNTS {
            for layout in (0..LAYOUTS).map(|way| layout(way, count)) {
                for data in &data {
                    packer.push(swap(form, layout.clone(), data.clone()));
                }
            }
        }
    }
    packer.end()
}

fn swap(form: &Form, accounts: Vec<u8>, data: Vec<u8>) -> Instruction {
    Instruction { program: form.program as u32, accounts, data }
}

/// The lent start and the source's own, every flag, and around the least length.
fn leg_data(form: &Form, names: &Names) -> Vec<Vec<u8>> {
    let mut all = Vec::new();
    for names in [names, &real()] {
        for flags in flags(form) {
            let whole = whole_data(form, names, flags);
            let lengths = form.data - 1..=form.data + 1;
            all.extend(lengths.map(|length| whole[..length].to_vec()));
        }
        let whole = whole_data(form, names, [1, 1]);
        all.extend([0, 1, 7, 8, 9, 15, 16, 17].map(|length| whole[..length].to_vec()));
    }
    all.sort();
    all.dedup();
    all
}

/// Start, amounts, then the flags, which stand at 40 and 41 or at 24.
fn whole_data(form: &Form, names: &Names, flags: [u8; 2]) -> Vec<u8> {
    let mut data = form.prefix(names);
    data.extend((data.len()..24).map(pattern));
    data.extend([flags[0]; 17]);
    data.extend([flags[1]; 2]);
    data
}

fn flags(form: &Form) -> Vec<[u8; 2]> {
    match form.program {
        ORCA => (0..9).map(|flags| [flags / 3, flags % 3]).collect(),
        CLMM | PUMPSWAP => (0..3).map(|flag| [flag, 2]).collect(),
        DLMM => vec![[0, 0]],
        _ => vec![[2, 2]],
    }
}

/// No, one and two slices of every kind, which fill the accounts left over, or pass them by one.
fn slices() -> Vec<Case> {
    let names = real();
    let mut packer = Packer::new(names, swap_pack(&names), MAX_INVOCATIONS);
    for form in FORMS.iter().filter(|form| form.program == DLMM && form.data == 28) {
        for count in LEG_COUNTS {
            let left = count.saturating_sub(form.floor).min(254) as u8;
            let mut tables = one_slice(left);
            if [15, 16, 17, 18, 24, 273].contains(&count) {
                tables.extend(two_slices(left));
            }
            for table in tables {
                let start = &whole_data(form, &names, [0, 0])[..24];
                let data = [start, &table].concat();
                let longer = [&data[..], &[0]].concat();
                for data in [&data[..data.len() - 1], &data, &longer] {
                    packer.push(swap(form, layout(1, count), data.to_vec()));
                }
            }
        }
    }
    packer.end()
}

/// How many slices are told of, then one slice.
fn one_slice(left: u8) -> Vec<Vec<u8>> {
    let mut all = Vec::new();
    for told in [0, 1, 2, 256, 65_537, u32::MAX] {
        for tag in [0, 1, 2, 3, 4, 5, 6, 255] {
            for length in [0, 1, left, left + 1, 255] {
                all.push([told.to_le_bytes().to_vec(), slice(tag, length)].concat());
            }
        }
    }
    all
}

fn two_slices(left: u8) -> Vec<Vec<u8>> {
    let mut all = Vec::new();
    for tags in 0..36 {
        for first in [0, 1, left] {
            let rest = left.saturating_sub(first);
            for second in [0, rest, rest + 1, 255] {
                let slices = [slice(tags / 6, first), slice(tags % 6, second)].concat();
                all.push([2u32.to_le_bytes().to_vec(), slices].concat());
            }
        }
    }
    all
}

/// A tag, with tag 3 a byte more, then the length.
fn slice(tag: u8, length: u8) -> Vec<u8> {
    match tag {
        3 => vec![tag, 77, length],
        _ => vec![tag, length],
    }
}

fn crossed() -> Vec<Case> {
    let names = real();
    let mut packer = Packer::new(names, swap_pack(&names), MAX_INVOCATIONS);
    for form in FORMS.iter() {
        for program in FORMS.iter().map(|form| form.program) {
            for count in [17, 30] {
                let data = whole_data(form, &names, [1, 0]);
                let program = program as u32;
                packer.push(Instruction { program, accounts: layout(0, count), data });
            }
        }
    }
    for tag in 0..=255 {
        for count in [7, 8, 16, 17, 18, 19] {
            let data = (0..17).map(|place| if place == 0 { tag } else { pattern(place) });
            let (program, data) = (AMM_V4 as u32, data.collect());
            packer.push(Instruction { program, accounts: layout(0, count), data });
        }
    }
    packer.end()
}

/// 65,535 accounts are more than the bytes of a pack: as many as fit.
fn largest() -> Vec<Case> {
    let names = real();
    let mut packer = Packer::new(names, swap_pack(&names), 1);
    for form in FORMS.iter() {
        let data = whole_data(form, &names, [1, 1])[..form.data].to_vec();
        let data = if form.program == DLMM { [&data[..24], &[0; 4]].concat() } else { data };
        let count = MAX_BYTES - packer.empty - 8 - data.len();
        packer.push(swap(form, layout(0, count), data));
    }
    packer.end()
}
