//! The same evidence in another order.

use super::rng::Rng;
use mbelaguy::pack::{Instruction, Pack};
use std::mem;

/// The pack with the same keys, and with its balances and its kept invocations in another order: the
/// instructions change their places, the places stay.
pub fn in_another_order(pack: &Pack, seed: u64) -> Pack {
    let mut rng = Rng::new(!seed);
    let mut pack = pack.clone();
    rng.shuffle(&mut pack.balances);
    let outers = pack.outer.len();
    let kept = pack.groups.iter_mut().filter(|group| (group.outer as usize) < outers);
    let inner = kept.flat_map(|group| &mut group.instructions).map(|inner| &mut inner.instruction);
    let places: Vec<&mut Instruction> = pack.outer.iter_mut().chain(inner).collect();
    let mut instructions = Vec::new();
    let mut empty = Vec::new();
    for place in places {
        instructions.push(mem::take(place));
        empty.push(place);
    }
    if rng.chance(25) {
        instructions.reverse();
    } else {
        rng.shuffle(&mut instructions);
    }
    for (place, instruction) in empty.into_iter().zip(instructions) {
        *place = instruction;
    }
    pack
}
