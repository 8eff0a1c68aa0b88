//! The packs that are timed: typical ones, one at each limit that costs time, some that grow, and some
//! whose keys are alike but for one byte.

use crate::generate::rng::Rng;
use crate::sample;
use mbelaguy::pack::{Balance, Group, Inner, Instruction, Key, KeyRow, Pack, MAX_BYTES};
use mbelaguy::{Names, MAX_INVOCATIONS, MAX_KEYS};
use original::ids::{AMM_V4, CPMM, SPL_TOKEN, WRAPPED_SOL};

/// A pack that is timed, and what it is called.
pub struct Timed {
    pub name: String,
    pub pack: Pack,
}

/// Typical packs first, then the limits, then those that grow in invocations, keys and bytes, then those
/// whose keys are alike.
pub fn packs() -> Vec<Timed> {
    let typical = [1, 2, 4].map(|trades| ("typical", sample::trades(trades)));
    let longer = [10, 30, 100].map(|trades| ("trades", sample::trades(trades)));
    let traded = typical
        .into_iter()
        .chain(longer)
        .map(|(name, pack)| Timed { name: format!("{name}-{}", pack.steps().len()), pack });
    let keyed =
        [16, 64, 256].map(|count| Timed { name: format!("keys-{count}"), pack: keys(count) });
    let long = [1_000, 10_000, 60_000]
        .map(|count| Timed { name: format!("bytes-{count}"), pack: bytes(count) });
    traded.chain(limits()).chain(keyed).chain(long).chain(alike()).collect()
}

fn limits() -> impl Iterator<Item = Timed> {
    let limits = [
        ("passes", passes()),
        ("doubt", doubt()),
        ("groups", groups()),
        ("deep", one_outer(|k| k as u32 + 2)),
        ("flat", one_outer(|_| 2)),
        ("transfers", full_table(&[0, 1, 0], SPL_TOKEN, &[3; 9])),
        ("legs", full_table(&[0; 8], AMM_V4, &[16; 17])),
        ("natives", full_table(&[0], SPL_TOKEN, &[17])),
        ("pools", pools(LAST)),
        ("balances", balances()),
        ("largest", largest()),
    ];
    limits.into_iter().map(|(name, pack)| Timed { name: name.to_string(), pack })
}

fn alike() -> impl Iterator<Item = Timed> {
    let traded = [LAST, 0].map(|place| ("typical", place, trades_alike(place)));
    let crowded = [LAST, 30, 0].map(|place| ("keys", place, keys_alike(place)));
    let alike = traded.into_iter().chain(crowded).chain([("pools", 0, pools(0))]);
    alike.map(|(kind, place, pack)| Timed { name: format!("{kind}-alike-{place}"), pack })
}

/// Four trades, as in the longest typical pack. All keys that are no ids differ in one byte only.
fn trades_alike(place: usize) -> Pack {
    let mut pack = sample::trades(4);
    let ids = original::ids();
    let before: Vec<Key> = pack.keys.iter().map(|row| row.key).collect();
    let renamed = |key: Key| match before.iter().position(|known| *known == key) {
        Some(k) if !ids.contains(&key) && key != [0; 32] => look_alike(k, place),
        _ => key,
    };
    pack.keys.iter_mut().for_each(|row| row.key = renamed(row.key));
    pack.balances.iter_mut().for_each(|balance| balance.mint = renamed(balance.mint));
    pack.pools.iter_mut().for_each(|pool| *pool = renamed(*pool));
    pack
}

/// As many keys as can be that differ in one byte only, SPL Token's id among them, and one transfer.
fn keys_alike(place: usize) -> Pack {
    let id = original::ids()[SPL_TOKEN];
    let from = id[place].wrapping_add(1);
    let transfer = Instruction {
        program: id[place].into(),
        accounts: vec![from, from.wrapping_add(1), from],
        data: vec![3; 9],
    };
    Pack {
        keys: (0..MAX_KEYS).map(|k| row(with_byte(id, place, k))).collect(),
        balances: vec![Balance { account: from.into(), mint: [9; 32] }],
        outer: vec![transfer],
        ..Pack::default()
    }
}

/// So many accounts with keys of random bytes, each with a balance.
fn keys(count: usize) -> Pack {
    let balance = |account: usize| Balance { account: account as u32, mint: [9; 32] };
    let mut rng = Rng::new(count as u64);
    Pack {
        keys: (0..count).map(|_| row(rng.array())).collect(),
        balances: (0..count).map(balance).collect(),
        ..Pack::default()
    }
}

/// One instruction with so many bytes of data.
fn bytes(count: usize) -> Pack {
    let data = vec![0; count];
    Pack { outer: vec![Instruction { data, ..Instruction::default() }], ..Pack::default() }
}

/// The most work for the passes: 256 of them, over a line of all keys.
fn passes() -> Pack {
    line(MAX_KEYS, 0)
}

/// The most work for passes and doubt together: the last key has another mint and is joined to the near
/// end of the line of all others, too late to fill anything in. Doubt has as far to go as the mint.
fn doubt() -> Pack {
    let other = MAX_KEYS - 1;
    let mut pack = line(other, other);
    pack.balances.push(Balance { account: other as u32, mint: [8; 32] });
    pack
}

/// 1,024 plain transfers along a line of so many keys: each two neighbours have four, which hand one
/// mint along the line against its order; the rest come from another key to the second of the line.
fn line(length: usize, other: usize) -> Pack {
    let mut keys: Vec<KeyRow> = (1..MAX_KEYS).map(|k| row(look_alike(k, LAST))).collect();
    keys.push(row(original::ids()[SPL_TOKEN]));
    let transfer = |from: usize, to: usize| Instruction {
        program: MAX_KEYS as u32 - 1,
        accounts: vec![from as u8, to as u8, 0],
        data: vec![3; 9],
    };
    let mut outer: Vec<_> = (1..length).rev().flat_map(|k| vec![transfer(k - 1, k); 4]).collect();
    outer.resize(MAX_INVOCATIONS, transfer(other, 1));
    Pack { keys, balances: vec![Balance { account: 0, mint: [9; 32] }], outer, ..Pack::default() }
}

/// As many outers as can be, and as many groups without instructions as fit, from the last outer on.
fn groups() -> Pack {
    let outer = vec![Instruction::default(); MAX_INVOCATIONS];
    let empty = |k: usize| Group {
        outer: (MAX_INVOCATIONS - 1 - k % MAX_INVOCATIONS) as u32,
        instructions: Vec::new(),
    };
    filled(Pack { outer, ..Pack::default() }, 6, |pack, k| pack.groups.push(empty(k)))
}

/// One outer and as many inners as can be, by their heights.
fn one_outer(height: impl Fn(usize) -> u32) -> Pack {
    let inners = (0..MAX_INVOCATIONS - 1)
        .map(|k| Inner { height: Some(height(k)), instruction: Instruction::default() });
    Pack {
        outer: vec![Instruction::default()],
        groups: vec![Group { outer: 0, instructions: inners.collect() }],
        ..Pack::default()
    }
}

/// As many invocations as can be, each with a row in the same table.
fn full_table(accounts: &[u8], program: usize, data: &[u8]) -> Pack {
    let ids = original::ids();
    let keys = [look_alike(1, LAST), look_alike(2, LAST), ids[program]];
    let instruction = Instruction { program: 2, accounts: accounts.to_vec(), data: data.to_vec() };
    Pack {
        keys: keys.map(row).to_vec(),
        balances: vec![Balance { account: 0, mint: ids[WRAPPED_SOL] }],
        outer: vec![instruction; MAX_INVOCATIONS],
        ..Pack::default()
    }
}

/// As many comparisons with graduated pools as can be: half the bytes are legs of a pool that is none
/// of them, half are pools that differ from it in one byte only.
fn pools(place: usize) -> Pack {
    let keys = vec![row([7; 32]), row(original::ids()[CPMM])];
    let leg = Instruction {
        program: 1,
        accounts: vec![0; 13],
        data: [&Names::ORIGINAL.swap_base_in[..], &[1; 16]].concat(),
    };
    let half = MAX_BYTES / 2;
    let outer = vec![leg; half / 45];
    // Of the keys that differ in that byte only, number 7 is the pool itself.
    let other = |k: usize| look_alike(8 + k % 248, place);
    filled(Pack { keys, outer, ..Pack::default() }, 32, |pack, k| pack.pools.push(other(k)))
}

/// As many keys as can be, and as many balances as fit.
fn balances() -> Pack {
    let keys = (0..MAX_KEYS).map(|k| row(look_alike(k, LAST))).collect();
    filled(Pack { keys, ..Pack::default() }, 36, |pack, k| {
        pack.balances.push(Balance { account: (k % MAX_KEYS) as u32, mint: [9; 32] });
    })
}

/// As many keys and invocations as can be, each with data as long as fits.
fn largest() -> Pack {
    let keys = (0..MAX_KEYS).map(|k| row(look_alike(k, LAST))).collect();
    let pack =
        Pack { keys, outer: vec![Instruction::default(); MAX_INVOCATIONS], ..Pack::default() };
    filled(pack, 1, |pack, k| pack.outer[k % MAX_INVOCATIONS].data.push(k as u8))
}

/// Adds things of so many bytes to a pack, by number, as many as fit.
fn filled(mut pack: Pack, bytes: usize, add: impl Fn(&mut Pack, usize)) -> Pack {
    let used = pack.write().expect("what is added to fits").len();
    (0..(MAX_BYTES - used) / bytes).for_each(|k| add(&mut pack, k));
    pack
}

fn row(key: Key) -> KeyRow {
    KeyRow { whole: true, key }
}

/// The place of a key's last byte.
const LAST: usize = 31;

/// Keys that only the byte at one place tells apart.
fn look_alike(k: usize, place: usize) -> Key {
    with_byte([7; 32], place, k)
}

fn with_byte(mut key: Key, place: usize, byte: usize) -> Key {
    key[place] = byte as u8;
    key
}
