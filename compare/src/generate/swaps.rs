//! Swap instructions of the eight protocols, at their account floors and data lengths and around them.

use super::names::{BASE_IN, BASE_OUT, BUY, REWARD, STANDARD};
use super::rng::Rng;
use super::world::World;
use mbelaguy::pack::{Instruction, Key};
use original::ids::{AMM_V4, CLMM, CPMM, DLMM, LAUNCHLAB, ORCA, PUMPFUN, PUMPSWAP, WRAPPED_SOL};
use original::instr::meteora_dlmm::discriminators as dlmm;
use original::instr::pump::discriminators as pump;
use original::instr::pump_amm::discriminators as pump_amm;
use original::instr::raydium_launchlab::discriminators as launchlab;
use original::names::Names;
use std::sync::LazyLock;

/// CLMM and Orca share these; the original keeps them inside `swap`.
const SWAP: [u8; 8] = dlmm::SWAP;
const SWAP_V2: [u8; 8] = [43, 4, 237, 11, 26, 201, 30, 98];

/// How an instruction's data begins.
#[derive(Clone, Copy, Debug, PartialEq, Eq)]
pub enum Start {
    Fixed([u8; 8]),
    /// A lent name, by its place.
    Lent(usize),
    Tag(u8),
}

/// One form of swap: what it begins with, the fewest accounts, the fewest bytes of data.
#[derive(Clone, Debug)]
pub struct Form {
    pub name: &'static str,
    pub program: usize,
    pub start: Start,
    pub floor: usize,
    pub data: usize,
}

/// Every form that `swap` knows, and DLMM's two that end without a leg.
pub static FORMS: LazyLock<Vec<Form>> = LazyLock::new(|| {
    use Start::{Fixed, Lent, Tag};
    let forms = [
        ("CLMM swap", CLMM, Fixed(SWAP), 10, 41),
        ("CLMM swap v2", CLMM, Fixed(SWAP_V2), 13, 41),
        ("Orca swap", ORCA, Fixed(SWAP), 11, 42),
        ("Orca swap v2", ORCA, Fixed(SWAP_V2), 15, 42),
        ("CPMM base in", CPMM, Lent(BASE_IN), 13, 24),
        ("CPMM base out", CPMM, Lent(BASE_OUT), 13, 24),
        ("DLMM swap", DLMM, Fixed(dlmm::SWAP), 15, 24),
        ("DLMM exact out", DLMM, Fixed(dlmm::SWAP_EXACT_OUT), 15, 24),
        ("DLMM swap2", DLMM, Fixed(dlmm::SWAP2), 16, 28),
        ("DLMM exact out2", DLMM, Fixed(dlmm::SWAP_EXACT_OUT2), 16, 28),
        ("DLMM price impact", DLMM, Fixed(dlmm::SWAP_WITH_PRICE_IMPACT), 15, 24),
        ("DLMM price impact2", DLMM, Fixed(dlmm::SWAP_WITH_PRICE_IMPACT2), 16, 28),
        ("LaunchLab buy exact in", LAUNCHLAB, Fixed(launchlab::BUY_EXACT_IN), 15, 24),
        ("LaunchLab buy exact out", LAUNCHLAB, Fixed(launchlab::BUY_EXACT_OUT), 15, 24),
        ("LaunchLab sell exact in", LAUNCHLAB, Fixed(launchlab::SELL_EXACT_IN), 15, 24),
        ("LaunchLab sell exact out", LAUNCHLAB, Fixed(launchlab::SELL_EXACT_OUT), 15, 24),
        ("PumpFun buy v3", PUMPFUN, Fixed(pump::BUY_V3), 17, 24),
        ("PumpFun exact v3", PUMPFUN, Fixed(pump::BUY_EXACT_QUOTE_IN_V3), 17, 24),
        ("PumpFun sell v3", PUMPFUN, Fixed(pump::SELL_V3), 17, 24),
        ("PumpFun buy v2", PUMPFUN, Fixed(pump::BUY_V2), 27, 24),
        ("PumpFun exact v2", PUMPFUN, Fixed(pump::BUY_EXACT_QUOTE_IN_V2), 27, 24),
        ("PumpFun sell v2", PUMPFUN, Fixed(pump::SELL_V2), 26, 24),
        ("PumpSwap buy", PUMPSWAP, Lent(BUY), 17, 24),
        ("PumpSwap exact", PUMPSWAP, Fixed(pump_amm::BUY_EXACT_QUOTE_IN), 17, 24),
        ("PumpSwap exact v2", PUMPSWAP, Fixed(pump_amm::BUY_EXACT_QUOTE_IN_V2), 17, 24),
        ("PumpSwap buy v2", PUMPSWAP, Fixed(pump_amm::BUY_V2), 17, 24),
        ("PumpSwap sell", PUMPSWAP, Fixed(pump_amm::SELL), 17, 24),
        ("PumpSwap sell v2", PUMPSWAP, Fixed(pump_amm::SELL_V2), 17, 24),
        ("AMM V4 tag 16", AMM_V4, Tag(16), 8, 17),
        ("AMM V4 tag 17", AMM_V4, Tag(17), 8, 17),
        ("AMM V4 tag 9", AMM_V4, Tag(9), 17, 17),
        ("AMM V4 tag 11", AMM_V4, Tag(11), 17, 17),
    ];
    let form = |(name, program, start, floor, data)| Form { name, program, start, floor, data };
    forms.map(form).to_vec()
});

impl Form {
    /// The id of its program.
    pub fn id(&self) -> Key {
        original::ids()[self.program]
    }

    /// What its data begins with, for the names lent.
    pub fn prefix(&self, names: &Names) -> Vec<u8> {
        match self.start {
            Start::Fixed(bytes) => bytes.to_vec(),
            Start::Lent(at) => names[at..at + 8].to_vec(),
            Start::Tag(tag) => vec![tag],
        }
    }

    /// Whether it ends without a leg whatever it holds.
    pub fn is_price_impact(&self) -> bool {
        let impacts = [dlmm::SWAP_WITH_PRICE_IMPACT, dlmm::SWAP_WITH_PRICE_IMPACT2];
        impacts.map(Start::Fixed).contains(&self.start)
    }

    fn has_slices(&self) -> bool {
        self.program == DLMM && self.floor == 16
    }
}

pub fn swap(world: &World, rng: &mut Rng) -> Instruction {
    let form = &FORMS[rng.below(FORMS.len())];
    instruction(form, world, rng)
}

pub fn instruction(form: &Form, world: &World, rng: &mut Rng) -> Instruction {
    let accounts = accounts(form, world, rng);
    let data = data(form, accounts.len(), world, rng);
    Instruction { program: world.program(form.program, rng), accounts, data }
}

fn accounts(form: &Form, world: &World, rng: &mut Rng) -> Vec<u8> {
    let count = match rng.below(30) {
        0 => form.floor + 256,
        1 => form.floor + 255,
        2..=9 if form.program == PUMPSWAP => rng.pick(&[16, 17, 18, 20, 21, 22]),
        _ => rng.around(form.floor),
    };
    let mut accounts = world.accounts(count, rng);
    let (first, second) = match form.program {
        ORCA if form.floor == 15 => (7, 9),
        ORCA => (3, 5),
        _ => (5, 6),
    };
    if rng.chance(15) && accounts.len() > second {
        accounts[first] = accounts[second];
    }
    if form.program == LAUNCHLAB && rng.chance(60) && count > 3 {
        let at = rng.pick(&[STANDARD, REWARD]);
        let config = world.names[at..at + 32].try_into().expect("a config has 32 bytes");
        accounts[3] = world.index_of(&config).min(255) as u8;
    }
    if form.program == PUMPFUN && rng.chance(40) && count > 2 {
        accounts[2] = world.index_of(&original::ids()[WRAPPED_SOL]).min(255) as u8;
    }
    accounts
}

fn data(form: &Form, accounts: usize, world: &World, rng: &mut Rng) -> Vec<u8> {
    let mut data = form.prefix(&world.names);
    let start = data.len();
    data.extend(rng.amount().to_le_bytes());
    data.extend(rng.amount().to_le_bytes());
    if form.has_slices() {
        data.extend(slices(accounts.saturating_sub(form.floor), rng));
    }
    let length = match rng.below(10) {
        0..=2 => rng.around(form.data),
        3 if !form.has_slices() => form.data + 1,
        _ => form.data.max(data.len()),
    };
    while data.len() < length {
        // The bytes behind the amounts are truth values in several forms.
        data.push(rng.weigh(&[(45, 0), (45, 1), (5, 2), (5, 255)]));
    }
    if !form.has_slices() || rng.chance(20) {
        data.truncate(length);
    }
    if rng.chance(3) {
        // Nearly the discriminator or tag.
        let at = rng.below(start);
        data[at] ^= 1 << rng.below(8);
    }
    if rng.chance(2) {
        let short = rng.below(9);
        data.truncate(short);
    }
    data
}

/// Remaining-account slices that mostly fit into the accounts left over.
fn slices(remaining: usize, rng: &mut Rng) -> Vec<u8> {
    let count = rng.weigh(&[(4, 0u32), (3, 1), (2, 2), (1, 3)]);
    let told = if rng.chance(8) { count + 1 } else { count };
    let mut bytes = told.to_le_bytes().to_vec();
    let mut left = remaining;
    for _ in 0..count {
        let tag = rng.pick(&[0, 1, 2, 3, 3, 4, 4, 5]);
        bytes.push(tag);
        if tag == 3 {
            bytes.push(rng.next() as u8);
        }
        let length = match rng.below(8) {
            0 => left + 1,
            1..=3 => left,
            _ => rng.below(left + 1),
        };
        left = left.saturating_sub(length);
        bytes.push(length as u8);
    }
    bytes
}
