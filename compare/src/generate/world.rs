//! The keys of a pack, and which of them are used for what: a few token accounts come again and again,
//! so that what one instruction records another one uses.

use super::names::{REWARD, STANDARD};
use super::rng::Rng;
use mbelaguy::pack::{Balance, Key, KeyRow};
use original::ids::WRAPPED_SOL;
use original::names::Names;

pub struct World {
    pub names: Names,
    pub keys: Vec<KeyRow>,
    /// Indexes of token accounts.
    pub hot: Vec<u8>,
    /// Indexes of keys that serve as mints, wrapped SOL first where it is among the keys.
    pub mints: Vec<u8>,
}

impl World {
    pub fn new(names: Names, rng: &mut Rng) -> Self {
        let keys = if rng.chance(8) { few_keys(rng) } else { keys(&names, rng) };
        let mut world = World { names, keys, hot: Vec::new(), mints: Vec::new() };
        for _ in 0..rng.between(3, 8) {
            let index = world.any(rng);
            world.hot.push(index);
        }
        world.mints.push(world.index_of(&original::ids()[WRAPPED_SOL]) as u8);
        for _ in 0..rng.between(1, 3) {
            let index = world.any(rng);
            world.mints.push(index);
        }
        world
    }

    /// Where a key stands, or the first index past the keys.
    pub fn index_of(&self, key: &Key) -> u32 {
        let found = self.keys.iter().position(|row| row.key == *key);
        found.unwrap_or(self.keys.len()) as u32
    }

    /// The program with this row in the table of ids, now and then something else.
    pub fn program(&self, id: usize, rng: &mut Rng) -> u32 {
        let index = self.index_of(&original::ids()[id]);
        self.nearly(index, rng)
    }

    /// The System program, now and then something else.
    pub fn system(&self, rng: &mut Rng) -> u32 {
        let index = self.index_of(&[0; 32]);
        self.nearly(index, rng)
    }

    fn nearly(&self, index: u32, rng: &mut Rng) -> u32 {
        match rng.below(60) {
            0 => self.any_program(rng),
            1 => index + 256,
            2 => index + 65_536,
            _ => index,
        }
    }

    /// Any index, also out of range.
    pub fn any_program(&self, rng: &mut Rng) -> u32 {
        match rng.below(12) {
            0 => self.keys.len() as u32,
            1 => u32::MAX,
            2 => 255,
            _ => u32::from(self.any(rng)),
        }
    }

    /// An index of a key, if there is one.
    pub fn any(&self, rng: &mut Rng) -> u8 {
        rng.below(self.keys.len().max(1)) as u8
    }

    pub fn account(&self, rng: &mut Rng) -> u8 {
        match rng.below(100) {
            0..=59 => rng.pick(&self.hot),
            60..=92 => self.any(rng),
            93 | 94 => self.keys.len().min(255) as u8,
            95 | 96 => 255,
            _ => self.index_of(&[0; 32]).min(255) as u8,
        }
    }

    pub fn accounts(&self, count: usize, rng: &mut Rng) -> Vec<u8> {
        (0..count).map(|_| self.account(rng)).collect()
    }

    pub fn token_account(&self, rng: &mut Rng) -> u8 {
        if rng.chance(90) {
            rng.pick(&self.hot)
        } else {
            self.account(rng)
        }
    }

    /// A mint for an account: mostly its usual one, else another, which makes it ambiguous.
    pub fn mint(&self, account: u8, rng: &mut Rng) -> u8 {
        match rng.below(20) {
            0 => self.account(rng),
            1..=5 => rng.pick(&self.mints),
            _ => self.mints[usize::from(account) % self.mints.len()],
        }
    }

    /// The key at an index; zero past the keys.
    pub fn key(&self, index: u8) -> Key {
        self.keys.get(usize::from(index)).map_or([0; 32], |row| row.key)
    }

    pub fn balances(&self, rng: &mut Rng) -> Vec<Balance> {
        let count = rng.weigh(&[(2, 0), (3, 2), (3, 5), (2, 9)]) + rng.below(2);
        match self.keys.len() {
            0 => Vec::new(),
            keys => (0..count).map(|_| self.balance((keys - 1) as u8, rng)).collect(),
        }
    }

    /// A row that names a key, the last one more often than others.
    fn balance(&self, last: u8, rng: &mut Rng) -> Balance {
        let index = self.token_account(rng).min(last);
        let index = if rng.below(40) < 4 { last } else { index };
        let mint = match rng.below(20) {
            0 => [0; 32],
            1 => rng.array(),
            2 | 3 => original::ids()[WRAPPED_SOL],
            _ => self.key(self.mint(index, rng)),
        };
        Balance { account: index.into(), mint }
    }

    /// Graduated pools: mostly keys that swaps use, also zero and unknown ones, some twice.
    pub fn pools(&self, rng: &mut Rng) -> Vec<Key> {
        let count = rng.weigh(&[(4, 0), (3, 1), (3, 4)]);
        let mut pools: Vec<Key> = (0..count)
            .map(|_| match rng.below(10) {
                0 => [0; 32],
                1 => rng.array(),
                _ => self.key(self.account(rng)),
            })
            .collect();
        if !pools.is_empty() && rng.chance(20) {
            pools.push(rng.pick(&pools));
        }
        pools
    }
}

/// Ids, configs and random keys; some repeated, some differing in one byte, some zero, some not whole.
fn keys(names: &Names, rng: &mut Rng) -> Vec<KeyRow> {
    let presence = rng.pick(&[60, 100]);
    let mut keys: Vec<Key> = original::ids().into_iter().filter(|_| rng.chance(presence)).collect();
    if rng.chance(80) {
        keys.push([0; 32]);
    }
    for at in [STANDARD, REWARD] {
        if rng.chance(60) {
            keys.push(names[at..at + 32].try_into().expect("a config has 32 bytes"));
        }
    }
    for _ in 0..rng.between(4, 20) {
        keys.push(rng.array());
    }
    for _ in 0..rng.below(3) {
        let mut near = rng.pick(&keys);
        let byte = rng.pick(&[0, 31, 15]);
        near[byte] ^= 1 << rng.below(8);
        keys.push(near);
    }
    for _ in 0..rng.weigh(&[(5, 0), (3, 1), (2, 4)]) {
        keys.push(rng.pick(&keys));
    }
    rng.shuffle(&mut keys);
    let partial = rng.pick(&[0, 0, 3, 30]);
    keys.into_iter().map(|key| KeyRow { whole: !rng.chance(partial), key }).collect()
}

fn few_keys(rng: &mut Rng) -> Vec<KeyRow> {
    let ids = original::ids();
    let count = rng.below(4);
    (0..count).map(|_| KeyRow { whole: !rng.chance(10), key: rng.pick(&ids) }).collect()
}
