//! Chains of plain transfers, and packs at the limits and one past them.

use super::rng::Rng;
use super::tokens::{self, Form};
use super::trees::{self, Heights};
use super::world::World;
use super::{mixed, write};
use mbelaguy::pack::{Balance, Group, Inner, Instruction, Key, KeyRow, Pack, MAX_BYTES};
use mbelaguy::{MAX_INVOCATIONS, MAX_KEYS};
use original::ids::{AMM_V4, SPL_TOKEN, TOKEN_2022, WRAPPED_SOL};
use original::names::Names;

/// Plain transfers along a line of accounts, in some order and direction, with mints at its ends.
pub fn chain(names: Names, rng: &mut Rng) -> Pack {
    let length = if rng.chance(4) { MAX_KEYS } else { rng.between(2, 40) };
    let mut keys: Vec<Key> = (0..length).map(|_| rng.array()).collect();
    let programs = place_token_programs(&mut keys, rng);
    let reversed = rng.pick(&[0, 50, 100]);
    let mut steps: Vec<Vec<u8>> = (1..length)
        .map(|k| {
            let (from, to) = if rng.chance(reversed) { (k, k - 1) } else { (k - 1, k) };
            vec![from as u8, to as u8, 0]
        })
        .collect();
    match rng.below(4) {
        0 => rng.shuffle(&mut steps),
        1 => {}
        _ => steps.reverse(),
    }
    let balances = chain_balances(length, rng);
    let transfer = |accounts: Vec<u8>, rng: &mut Rng| {
        let mut data = vec![3];
        data.extend(rng.amount().to_le_bytes());
        Instruction { program: rng.pick(&programs), accounts, data }
    };
    let pack = Pack {
        keys: keys.into_iter().map(|key| KeyRow { whole: true, key }).collect(),
        balances,
        outer: steps.into_iter().map(|accounts| transfer(accounts, rng)).collect(),
        ..Pack::default()
    };
    if rng.chance(30) {
        with_noise(pack, names, rng)
    } else {
        pack
    }
}

/// Puts the token programs among the accounts of the line, or after them where there is room.
fn place_token_programs(keys: &mut Vec<Key>, rng: &mut Rng) -> Vec<u32> {
    let ids = original::ids();
    let mut programs = Vec::new();
    for id in [SPL_TOKEN, TOKEN_2022] {
        let at = if keys.len() < MAX_KEYS {
            keys.push(ids[id]);
            keys.len() - 1
        } else {
            let at = rng.below(MAX_KEYS / 2) * 2 + id;
            keys[at] = ids[id];
            at
        };
        programs.push(at as u32);
    }
    programs
}

/// The mint at the start; often another at the far end, an ambiguous one or a further one between.
fn chain_balances(length: usize, rng: &mut Rng) -> Vec<Balance> {
    let wrapped_sol = original::ids()[WRAPPED_SOL];
    let other = rng.array();
    let mut balances = vec![Balance { account: 0, mint: wrapped_sol }];
    let mut add = |account: usize, mint| balances.push(Balance { account: account as u32, mint });
    if rng.chance(30) {
        add(length - 1, other);
    }
    if rng.chance(15) {
        let middle = rng.below(length);
        add(middle, wrapped_sol);
        add(middle, other);
    }
    if rng.chance(15) {
        add(rng.below(length), wrapped_sol);
    }
    if rng.chance(5) {
        balances.clear();
    }
    balances
}

/// The pack with some instructions of every kind in between, over the same keys.
fn with_noise(mut pack: Pack, names: Names, rng: &mut Rng) -> Pack {
    let indexes: Vec<u8> = (0..pack.keys.len()).map(|k| k as u8).collect();
    let world = World { names, keys: pack.keys.clone(), hot: indexes.clone(), mints: indexes };
    for _ in 0..rng.between(1, 6) {
        let at = rng.below(pack.outer.len() + 1);
        pack.outer.insert(at, super::instruction(&world, rng));
    }
    let outers = pack.outer.len();
    pack.groups = trees::groups(outers.min(3), 3, rng, &mut |rng| tokens::token(&world, rng));
    pack.pools = world.pools(rng);
    pack
}

/// A pack at a limit, or one past it.
pub fn limit(names: Names, rng: &mut Rng) -> Vec<u8> {
    match rng.below(10) {
        0 | 1 => write(&with_keys(mixed(names, rng), MAX_KEYS + rng.below(2), rng)),
        2 | 3 => write(&with_invocations(mixed(names, rng), MAX_INVOCATIONS + rng.below(2), rng)),
        4 | 5 => with_bytes(mixed(names, rng), MAX_BYTES + rng.below(2), rng),
        6 => write(&one_kind(names, rng)),
        7 => write(&full_table(rng)),
        8 => write(&empty_groups(mixed(names, rng), rng)),
        _ => write(&many_rows(mixed(names, rng), rng)),
    }
}

pub fn with_keys(mut pack: Pack, count: usize, rng: &mut Rng) -> Pack {
    while pack.keys.len() < count {
        pack.keys.push(KeyRow { whole: true, key: rng.array() });
    }
    pack
}

/// So many kept invocations: short ones are added as one long group, or as outers with a group of a
/// late one.
pub fn with_invocations(mut pack: Pack, count: usize, rng: &mut Rng) -> Pack {
    if pack.outer.is_empty() {
        pack.outer.push(Instruction::default());
    }
    let missing = count - pack.steps().len();
    let inners = if rng.chance(50) { missing } else { rng.below(4) };
    // Outers at the end may not take in groups that named no outer before.
    let outers = pack.outer.len() + missing - inners;
    pack.groups.retain(|group| !(pack.outer.len()..outers).contains(&(group.outer as usize)));
    pack.outer.resize(outers, Instruction::default());
    let pattern = trees::any_heights(rng);
    let outer = rng.below(outers) as u32;
    let group = trees::group(outer, inners, pattern, rng, &mut |_| Instruction::default());
    pack.groups.push(group);
    pack
}

/// A pack of so many bytes: one long instruction more.
fn with_bytes(mut pack: Pack, length: usize, rng: &mut Rng) -> Vec<u8> {
    let missing = length - write(&pack).len() - 8;
    let accounts = rng.below(missing);
    pack.outer.push(Instruction {
        program: rng.below(16) as u32,
        accounts: rng.bytes(accounts),
        data: rng.bytes(missing - accounts),
    });
    write(&pack)
}

/// As many invocations as can be, all of one kind, so that one table is nearly full.
fn one_kind(names: Names, rng: &mut Rng) -> Pack {
    let world = World::new(names, rng);
    let form = rng.pick(&[
        Some(Form::Plain),
        Some(Form::Checked),
        Some(Form::Sync),
        Some(Form::Fund),
        None,
    ]);
    let mut make = |rng: &mut Rng| match form {
        Some(form) => tokens::instruction(form, &world, rng),
        None => Instruction {
            program: world.program(AMM_V4, rng),
            accounts: world.accounts(8, rng),
            data: [vec![16], rng.bytes(16)].concat(),
        },
    };
    let pattern = rng.pick(&[Heights::Deep, Heights::Flat, Heights::Zigzag, Heights::Walk]);
    let group = trees::group(0, MAX_INVOCATIONS - 1, pattern, rng, &mut make);
    Pack {
        outer: vec![make(rng)],
        groups: vec![group],
        balances: world.balances(rng),
        pools: Vec::new(),
        keys: world.keys,
    }
}

/// As many invocations as can be, each with a row in the same table: transfers, legs or actions.
fn full_table(rng: &mut Rng) -> Pack {
    let ids = original::ids();
    let keys = [rng.array(), rng.array(), ids[SPL_TOKEN], ids[AMM_V4]];
    let (program, accounts, tag, bytes) =
        rng.pick(&[(2, vec![0, 1, 0], 3, 8), (3, vec![0; 8], 16, 16), (2, vec![0], 17, 0)]);
    let mut make = |rng: &mut Rng| Instruction {
        program,
        accounts: accounts.clone(),
        data: [vec![tag], rng.bytes(bytes)].concat(),
    };
    let pattern = trees::any_heights(rng);
    Pack {
        keys: keys.map(|key| KeyRow { whole: true, key }).to_vec(),
        balances: vec![Balance { account: 0, mint: ids[WRAPPED_SOL] }],
        outer: vec![make(rng)],
        groups: vec![trees::group(0, MAX_INVOCATIONS - 1, pattern, rng, &mut make)],
        ..Pack::default()
    }
}

/// Thousands of groups without instructions, some of them in between the others.
fn empty_groups(mut pack: Pack, rng: &mut Rng) -> Pack {
    let outers = pack.outer.len() as u32;
    for _ in 0..rng.between(1_000, 7_000) {
        let outer = rng.below(outers as usize + 2) as u32;
        pack.groups.push(Group { outer, instructions: Vec::new() });
    }
    rng.shuffle(&mut pack.groups);
    if outers > 0 {
        let inner = Inner { height: Some(2), instruction: Instruction::default() };
        pack.groups.push(Group { outer: 0, instructions: vec![inner] });
    }
    pack
}

/// Hundreds of balances or pools before the others.
fn many_rows(mut pack: Pack, rng: &mut Rng) -> Pack {
    let count = rng.between(260, 1_000);
    if rng.chance(50) && !pack.keys.is_empty() {
        let account = rng.below(pack.keys.len()) as u32;
        let balances = (0..count).map(|_| Balance { account, mint: rng.array() });
        pack.balances.splice(0..0, balances);
    } else {
        pack.pools.splice(0..0, (0..count).map(|_| rng.array()));
    }
    pack
}
