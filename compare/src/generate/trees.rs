//! Inner groups: heights of every pattern, several groups of one outer instruction, out of order,
//! dropped and empty ones.

use super::rng::Rng;
use mbelaguy::pack::{Group, Inner, Instruction};

/// How heights run inside a group.
#[derive(Clone, Copy)]
pub enum Heights {
    Flat,
    Deep,
    Zigzag,
    Walk,
    Holes,
    Absent,
    Wild,
}

pub fn any_heights(rng: &mut Rng) -> Heights {
    rng.weigh(&[
        (10, Heights::Flat),
        (10, Heights::Deep),
        (10, Heights::Zigzag),
        (40, Heights::Walk),
        (12, Heights::Holes),
        (8, Heights::Absent),
        (10, Heights::Wild),
    ])
}

pub fn heights(pattern: Heights, count: usize, rng: &mut Rng) -> Vec<Option<u32>> {
    let mut height = 2;
    (0..count as u32)
        .map(|k| match pattern {
            Heights::Flat => Some(2),
            Heights::Deep => Some(k + 2),
            Heights::Zigzag => Some(2 + k % 2),
            Heights::Absent => None,
            Heights::Wild => {
                let some = rng.below(6) as u32;
                rng.pick(&[None, Some(0), Some(u32::MAX), Some(some), Some(some)])
            }
            Heights::Holes if rng.chance(25) => None,
            Heights::Walk | Heights::Holes => {
                let now = height;
                height =
                    if rng.chance(55) { height + 1 } else { 2 + rng.below(now as usize) as u32 };
                Some(now)
            }
        })
        .collect()
}

/// A group of an outer instruction with instructions from `make`.
pub fn group(
    outer: u32,
    count: usize,
    pattern: Heights,
    rng: &mut Rng,
    make: &mut dyn FnMut(&mut Rng) -> Instruction,
) -> Group {
    let heights = heights(pattern, count, rng);
    let instructions =
        heights.into_iter().map(|height| Inner { height, instruction: make(rng) }).collect();
    Group { outer, instructions }
}

/// Groups for so many outer instructions: often one each, in order; also several, none, shuffled, and
/// some that name no outer instruction.
pub fn groups(
    outers: usize,
    most: usize,
    rng: &mut Rng,
    make: &mut dyn FnMut(&mut Rng) -> Instruction,
) -> Vec<Group> {
    let mut groups = Vec::new();
    for outer in 0..outers as u32 {
        for _ in 0..rng.weigh(&[(25, 0), (50, 1), (17, 2), (8, 3)]) {
            let count = if rng.chance(8) { 0 } else { rng.below(most + 1) };
            let pattern = any_heights(rng);
            groups.push(group(outer, count, pattern, rng, make));
        }
    }
    for _ in 0..rng.weigh(&[(80, 0), (15, 1), (5, 3)]) {
        let outers = outers as u32;
        let outer = rng.pick(&[outers, outers + 255, outers + 65_535, u32::MAX]);
        let count = rng.below(3);
        groups.push(group(outer, count, Heights::Flat, rng, make));
    }
    if rng.chance(35) {
        rng.shuffle(&mut groups);
    }
    groups
}
