//! Packs by seed. Every seed gives names, a pack and table lengths; neighbouring seeds have nothing in
//! common. What occurs among the first seeds is counted by `checks::coverage`.

mod damage;
mod extremes;
pub mod names;
pub mod order;
pub mod rng;
pub mod room;
pub mod swaps;
mod tokens;
mod trees;
mod world;

use crate::oracle::{examine, Examined};
use mbelaguy::pack::{join, Instruction, Pack};
use mbelaguy::Refusal;
use original::names::Names;
use rng::Rng;
use room::Room;
use world::World;

/// One call: names, pack and the lengths of the five tables.
#[derive(Clone, Debug, PartialEq, Eq)]
pub struct Case {
    pub names: Vec<u8>,
    pub pack: Vec<u8>,
    pub lengths: [usize; 5],
}

/// The call of a seed, and what the oracle found about its pack before room was asked for.
pub fn case(seed: u64) -> (Case, Result<Examined, Refusal>) {
    let mut rng = Rng::new(seed);
    let (names, pack) = names_and_pack(&mut rng);
    let examined = examine(&names, &pack);
    let needs = examined.as_ref().map_or([0; 5], |examined| examined.needs);
    let lengths = Room::any(&mut rng).lengths(&needs);
    (Case { names, pack, lengths }, examined)
}

/// What a pack is made to show.
#[derive(Clone, Copy)]
enum Shape {
    Mixed,
    Chain,
    Tree,
    Groups,
    Limit,
    Damaged,
    Stray,
    Altered,
}

fn names_and_pack(rng: &mut Rng) -> (Vec<u8>, Vec<u8>) {
    let names = names::names(rng);
    let shape = rng.weigh(&[
        (550, Shape::Mixed),
        (90, Shape::Chain),
        (70, Shape::Tree),
        (60, Shape::Groups),
        (30, Shape::Limit),
        (115, Shape::Damaged),
        (35, Shape::Stray),
        (50, Shape::Altered),
    ]);
    let pack = match shape {
        Shape::Mixed => write(&mixed(names, rng)),
        Shape::Chain => write(&extremes::chain(names, rng)),
        Shape::Tree => write(&tree(names, rng)),
        Shape::Groups => write(&groups(names, rng)),
        Shape::Limit => extremes::limit(names, rng),
        Shape::Damaged => return damage::damaged(names, rng),
        Shape::Stray => return damage::stray(names, rng),
        Shape::Altered => damage::altered(write(&mixed(names, rng)), rng),
    };
    (names.to_vec(), pack)
}

/// The bytes of a pack, also where they are more than a pack may have.
fn write(pack: &Pack) -> Vec<u8> {
    join(&sections(pack))
}

fn sections(pack: &Pack) -> [Vec<u8>; 5] {
    pack.sections().expect("generated counts stay below 65,536, and balance rows name keys")
}

/// A pack like those of real transactions, with every kind of instruction.
fn mixed(names: Names, rng: &mut Rng) -> Pack {
    let world = World::new(names, rng);
    let outers = rng.weigh(&[(3, 0), (20, 1), (40, 3), (30, 5), (7, 9)]);
    let make = &mut |rng: &mut Rng| instruction(&world, rng);
    Pack {
        outer: (0..outers).map(|_| make(rng)).collect(),
        groups: trees::groups(outers, 6, rng, make),
        balances: world.balances(rng),
        pools: world.pools(rng),
        keys: world.keys,
    }
}

/// One outer instruction with a long group, or a few with long groups.
fn tree(names: Names, rng: &mut Rng) -> Pack {
    let world = World::new(names, rng);
    let make = &mut |rng: &mut Rng| instruction(&world, rng);
    let outers = rng.between(1, 3);
    let mut groups = Vec::new();
    for outer in 0..outers {
        let count = rng.between(1, 40);
        let pattern = trees::any_heights(rng);
        groups.push(trees::group(outer as u32, count, pattern, rng, make));
    }
    let outer = (0..outers).map(|_| make(rng)).collect();
    Pack { outer, groups, balances: world.balances(rng), pools: world.pools(rng), keys: world.keys }
}

/// Many small groups in any order.
fn groups(names: Names, rng: &mut Rng) -> Pack {
    let world = World::new(names, rng);
    let make = &mut |rng: &mut Rng| instruction(&world, rng);
    let outers = rng.between(1, 12);
    let mut groups = trees::groups(outers, 2, rng, make);
    groups.extend(trees::groups(outers, 2, rng, make));
    if rng.chance(50) {
        rng.shuffle(&mut groups);
    }
    let outer = (0..outers).map(|_| make(rng)).collect();
    Pack { outer, groups, balances: world.balances(rng), pools: world.pools(rng), keys: world.keys }
}

fn instruction(world: &World, rng: &mut Rng) -> Instruction {
    match rng.below(100) {
        0..=57 => tokens::token(world, rng),
        58..=93 => swaps::swap(world, rng),
        _ => {
            let (accounts, data) = (rng.below(20), rng.below(40));
            Instruction {
                program: world.any_program(rng),
                accounts: world.accounts(accounts, rng),
                data: rng.bytes(data),
            }
        }
    }
}
