//! The lent names: the source's own, all zero, random, or some of them coinciding with each other or
//! with constants that are tested before or after them.

use super::rng::Rng;
use original::instr::pump_amm::discriminators as pump_amm;
use original::names::{real, Names};

/// Where the names start in the 88 bytes.
pub const BASE_IN: usize = mbelaguy::Names::SWAP_BASE_IN;
pub const BASE_OUT: usize = mbelaguy::Names::SWAP_BASE_OUT;
pub const BUY: usize = mbelaguy::Names::BUY;
pub const STANDARD: usize = mbelaguy::Names::STANDARD;
pub const REWARD: usize = mbelaguy::Names::REWARD;

/// Ways in which names coincide.
pub const COINCIDENCES: usize = 9;

pub fn names(rng: &mut Rng) -> Names {
    match rng.below(10) {
        0..=4 => real(),
        5 => [0; 88],
        6 => rng.array(),
        _ => coinciding(rng.below(COINCIDENCES), rng),
    }
}

fn coinciding(way: usize, rng: &mut Rng) -> Names {
    let mut names = if rng.chance(70) { real() } else { rng.array() };
    match way {
        0 => names.copy_within(BASE_IN..BASE_IN + 8, BASE_OUT),
        1 => put(&mut names, BUY, &pump_amm::BUY_EXACT_QUOTE_IN),
        2 => put(&mut names, BUY, &pump_amm::BUY_EXACT_QUOTE_IN_V2),
        3 => put(&mut names, BUY, &pump_amm::SELL),
        4 => put(&mut names, BUY, &pump_amm::SELL_V2),
        5 => names.copy_within(STANDARD..REWARD, REWARD),
        6 => put(&mut names, STANDARD, &[0; 32]),
        7 => put(&mut names, REWARD, &[0; 32]),
        _ => {
            let key = rng.pick(&original::ids());
            put(&mut names, STANDARD, &key);
            names.copy_within(BASE_IN..BASE_IN + 8, BUY);
        }
    }
    names
}

fn put(names: &mut Names, at: usize, value: &[u8]) {
    names[at..at + value.len()].copy_from_slice(value);
}
