//! Reports that did not come from feeding: in order, and not.

use super::plain::{line, write, Lines, SUM_LIMIT};
use super::transfers::{flagged, World};
use super::ROW;
use crate::generate::rng::Rng;

/// The bytes of a report in order over the lines of a world and others, for so many transfers fed.
pub fn forged(world: &World, most: usize, fed: u32, rng: &mut Rng) -> Vec<u8> {
    let mut lines = Lines::new();
    for _ in 0..rng.between(0, most) {
        lines.insert(any_line(world, rng), (sum(rng), sum(rng), sum(rng), apart(fed, rng)));
    }
    let mut bytes = vec![0; lines.len() * ROW];
    write(&lines, &mut bytes);
    bytes
}

/// A line of the world, or one that no transfer touches.
fn any_line(world: &World, rng: &mut Rng) -> [u8; 66] {
    let account = rng.pick(&world.accounts);
    let mut mint = rng.pick(&world.mints);
    // The line that a transfer with such a mint touches.
    if mint[0] == 0 && rng.chance(50) {
        mint = [0; 33];
    }
    match rng.below(10) {
        0..=2 => line(&mint, None),
        3..=6 => line(&mint, Some(&account)),
        7 => line(&flagged(1, rng.array()), Some(&account)),
        8 => line(&mint, Some(&rng.array())),
        _ => {
            let mut line = line(&mint, Some(&account));
            line[33] = 0;
            line
        }
    }
}

fn sum(rng: &mut Rng) -> u128 {
    let some = u128::from(rng.next()) << 32 | u128::from(rng.next() as u32);
    let small = u128::from(rng.amount());
    rng.pick(&[
        0,
        1,
        small,
        u128::from(u64::MAX),
        1 << 64,
        (1 << 65) - 1,
        some,
        SUM_LIMIT - 1,
        SUM_LIMIT - 1 - small,
    ])
}

fn apart(fed: u32, rng: &mut Rng) -> u64 {
    let some = rng.next() % (u64::from(fed) + 1);
    rng.pick(&[0, some, u64::from(fed)])
}

/// The rows of a report, and how many are said to be used, with something wrong: refusal 20. Where
/// there are too few rows for what was chosen, more are said to be used than the buffer holds.
pub fn damaged(report: &mut Vec<u8>, rows: usize, fed: u32, rng: &mut Rng) -> usize {
    let some = rng.below(rows.max(1));
    let row = rng.pick(&[0, rows.saturating_sub(1), some]) * ROW;
    match rng.below(10) {
        0 if rows > 0 => report[row] = rng.pick(&[2, 3, 255]),
        1 if rows > 0 => report[row + 33] = rng.pick(&[2, 3, 255]),
        2 if rows > 1 => {
            let (one, other) = two(rows, rng);
            report[one * ROW..(other + 1) * ROW].rotate_left(ROW);
        }
        3 if rows > 1 => {
            let (one, other) = two(rows, rng);
            report.copy_within(one * ROW..one * ROW + 66, other * ROW);
        }
        // Two lines that only their last byte tells apart, the greater one first.
        4 if rows > 1 => {
            let (one, other) = two(rows, rng);
            report.copy_within(one * ROW..one * ROW + 66, other * ROW);
            report[one * ROW + 65] |= 1;
            report[other * ROW + 65] &= 254;
        }
        5 | 6 if rows > 0 => {
            let at = row + rng.pick(&[66, 82, 98]);
            let some = SUM_LIMIT + u128::from(rng.next());
            let sum = rng.pick(&[SUM_LIMIT, SUM_LIMIT, SUM_LIMIT + 1, some, u128::MAX >> 1]);
            report[at..at + 16].copy_from_slice(&sum.to_le_bytes());
        }
        7 if rows > 0 && fed < u32::MAX => {
            let count = rng.pick(&[fed + 1, fed + 1, u32::MAX]);
            report[row + 114..row + ROW].copy_from_slice(&count.to_le_bytes());
        }
        _ => return too_many(report.len() / ROW, rng),
    }
    rows
}

/// Two neighbouring rows.
fn two(rows: usize, rng: &mut Rng) -> (usize, usize) {
    let one = rng.below(rows - 1);
    (one, one + 1)
}

/// More rows than a buffer holds; some so many that their bytes wrap to few.
fn too_many(holds: usize, rng: &mut Rng) -> usize {
    let wraps = usize::MAX / ROW + 1;
    rng.pick(&[
        holds + 1,
        holds + 1,
        holds + 2,
        wraps,
        wraps + holds.saturating_sub(1),
        1 << 32,
        usize::MAX,
        usize::MAX - 1,
    ])
}
