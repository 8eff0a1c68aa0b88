//! Damage for every refusal: names, mark, trailer, sections, balance rows, one or two at a time.

use super::extremes::{with_invocations, with_keys};
use super::rng::Rng;
use super::{mixed, sections, write};
use mbelaguy::pack::{join, Pack, BALANCE_ROW, KEY_ROW, MAX_BYTES, TRAILER};
use mbelaguy::{MAX_INVOCATIONS, MAX_KEYS};
use original::names::Names;

/// Names and a pack of which at least one is damaged.
pub fn damaged(names: Names, rng: &mut Rng) -> (Vec<u8>, Vec<u8>) {
    let pack = mixed(names, rng);
    let mut names = names.to_vec();
    let mut bytes = write(&pack);
    match rng.below(20) {
        0 => names = damaged_names(names, rng),
        1..=3 => bytes = bad_mark(bytes, rng),
        4..=6 => bytes = bad_starts(bytes, rng),
        7..=16 => bytes = bad_section(&pack, rng),
        17 => {
            names = damaged_names(names, rng);
            bytes = bad_mark(bytes, rng);
        }
        18 => bytes = bad_starts(bad_section(&pack, rng), rng),
        _ => bytes = bad_mark(bad_starts(bytes, rng), rng),
    }
    (names, bytes)
}

/// Names and a pack with balance rows that name no key. Every other pack has one thing more that is
/// refused, or as many keys as can be, or none.
pub fn stray(names: Names, rng: &mut Rng) -> (Vec<u8>, Vec<u8>) {
    let pack = mixed(names, rng);
    let mut names = names.to_vec();
    let beside = rng.below(24);
    let pack = match beside {
        0 => with_keys(pack, MAX_KEYS, rng),
        1 => with_keys(pack, MAX_KEYS + 1, rng),
        2 => with_invocations(pack, MAX_INVOCATIONS + 1, rng),
        3 => Pack { keys: Vec::new(), balances: Vec::new(), ..pack },
        _ => pack,
    };
    let mut sections = sections(&pack);
    name_no_key(&mut sections, rng);
    if let 4..=7 = beside {
        damage_section(&mut sections, rng);
    }
    let mut bytes = join(&sections);
    match beside {
        8 => names = damaged_names(names, rng),
        9 | 10 => bytes = bad_mark(bytes, rng),
        11 | 12 => bytes = bad_starts(bytes, rng),
        _ => {}
    }
    (names, bytes)
}

/// Makes the first balance row, the last, another one or all of them name no key, some of these with a
/// zero mint. Where there is no row one is added.
fn name_no_key(sections: &mut [Vec<u8>; 5], rng: &mut Rng) {
    let [keys, balances, ..] = sections;
    if balances.is_empty() {
        balances.extend(rng.array::<BALANCE_ROW>());
    }
    let rows = balances.len() / BALANCE_ROW;
    let some = rng.below(rows);
    for row in rng.pick(&[0..1, rows - 1..rows, some..some + 1, 0..rows]) {
        let (index, mint) = balances[row * BALANCE_ROW..][..BALANCE_ROW].split_at_mut(4);
        index.copy_from_slice(&past(keys.len() / KEY_ROW, rng).to_le_bytes());
        if rng.chance(20) {
            mint.fill(0);
        }
    }
}

/// An index that is no key's: just past the keys, at the end of a byte, a key's if cut to a byte or to
/// two, and the last of all.
fn past(keys: usize, rng: &mut Rng) -> u32 {
    let some = rng.below(keys.max(1)) as u32;
    let keys = keys as u32;
    rng.pick(&[keys, keys + 1, 255, 256, some + 256, some + 65_536, u32::MAX]).max(keys)
}

/// Some bytes changed, anywhere in the pack.
pub fn altered(mut bytes: Vec<u8>, rng: &mut Rng) -> Vec<u8> {
    for _ in 0..rng.between(1, 6) {
        let at = rng.below(bytes.len());
        bytes[at] = match rng.below(4) {
            0 => rng.next() as u8,
            1 => bytes[at].wrapping_add(1),
            2 => bytes[at].wrapping_sub(1),
            _ => bytes[at] ^ (1 << rng.below(8)),
        };
    }
    bytes
}

fn damaged_names(mut names: Vec<u8>, rng: &mut Rng) -> Vec<u8> {
    match rng.below(3) {
        0 => names.truncate(87),
        1 => names.push(0),
        _ => names = rng.pick(&[vec![], vec![0; 56], vec![0; 344]]),
    }
    names
}

fn bad_mark(mut bytes: Vec<u8>, rng: &mut Rng) -> Vec<u8> {
    match rng.below(4) {
        0 => {
            let at = bytes.len() - 1 - rng.below(4);
            bytes[at] ^= 1 << rng.below(8);
        }
        1 => bytes.truncate(bytes.len() - 1),
        2 => {
            // The mark is right, but the pack is shorter than a trailer.
            let start = bytes.len() - rng.between(4, TRAILER - 1);
            bytes.drain(..start);
        }
        _ => {
            let trailer = bytes.split_off(bytes.len() - TRAILER);
            bytes.resize(MAX_BYTES - TRAILER + rng.between(1, 5_000), 0);
            bytes.extend(trailer);
        }
    }
    bytes
}

fn bad_starts(mut bytes: Vec<u8>, rng: &mut Rng) -> Vec<u8> {
    let trailer = bytes.len() - TRAILER;
    let body = trailer as u32;
    let which = rng.below(5);
    let at = trailer + 4 * which;
    let old = u32::from_le_bytes(bytes[at..at + 4].try_into().expect("four bytes"));
    let fallen = old.wrapping_sub(1);
    let new = rng.pick(&[fallen, old + 1, body, body + 1, u32::MAX, old + 65_536, 1 << 31]);
    bytes[at..at + 4].copy_from_slice(&new.to_le_bytes());
    bytes
}

fn bad_section(pack: &Pack, rng: &mut Rng) -> Vec<u8> {
    let mut sections = sections(pack);
    damage_section(&mut sections, rng);
    if rng.chance(25) {
        damage_section(&mut sections, rng);
    }
    join(&sections)
}

fn damage_section(sections: &mut [Vec<u8>; 5], rng: &mut Rng) {
    let which = rng.below(5);
    let section = &mut sections[which];
    match (which, rng.below(4)) {
        (0, 0) if section.len() >= KEY_ROW => {
            let row = rng.below(section.len() / KEY_ROW) * KEY_ROW;
            section[row] = rng.pick(&[2, 128, 255]);
        }
        (2, 0) => section.extend(bad_instruction(rng)),
        (3, 0 | 1) => section.extend(bad_group(rng)),
        (_, 2) if !section.is_empty() => {
            let cut = rng.between(1, 3).min(section.len());
            section.truncate(section.len() - cut);
        }
        _ => {
            let more = rng.between(1, 5);
            section.extend(rng.bytes(more));
        }
    }
}

/// An instruction that names more accounts or data than follow.
fn bad_instruction(rng: &mut Rng) -> Vec<u8> {
    let (accounts, data) = rng.pick(&[(1, 0), (0, 1), (300, 0), (0, 65_535), (65_535, 65_535u16)]);
    let mut bytes = vec![0; 4];
    bytes.extend(u16::to_le_bytes(accounts));
    bytes.extend(data.to_le_bytes());
    bytes
}

/// A group, kept or not, with a bad flag, a height without flag, or an instruction too few.
fn bad_group(rng: &mut Rng) -> Vec<u8> {
    let outer = rng.pick(&[0, u32::MAX]);
    let (count, flag, height) = rng.pick(&[
        (1u16, 2, 0u32),
        (1, 255, 2),
        (1, 0, 1),
        (1, 0, 1 << 24),
        (2, 1, 2),
        (65_535, 0, 0),
    ]);
    let mut bytes = outer.to_le_bytes().to_vec();
    bytes.extend(count.to_le_bytes());
    bytes.push(flag);
    bytes.extend(height.to_le_bytes());
    bytes.extend([0; 8]);
    bytes
}
