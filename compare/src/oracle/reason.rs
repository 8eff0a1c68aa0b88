//! Why an instruction gave no transfer, worked out from the words that ask for it: neither the original's
//! decoder nor the definitions that are proved are looked at.

use mbelaguy::pack::{Instruction, KeyRow};

/// 0 for a transfer, else the number of the first test that the instruction fails.
pub fn reason(keys: &[KeyRow], instruction: &Instruction) -> u8 {
    let Instruction { program, accounts, data } = instruction;
    let [spl_token, token_2022, ..] = original::ids();

    // 1: not a token program.
    let resolved = keys.get(*program as usize).filter(|row| row.whole).map(|row| row.key);
    if resolved != Some(spl_token) && resolved != Some(token_2022) {
        return 1;
    }

    // 2: unsupported tag. The others say how many accounts and bytes a transfer needs, and the places
    // of its source, its destination and the mint that it names.
    let (least_accounts, least_bytes, places): (usize, usize, &[usize]) = match data.first() {
        Some(3) => (3, 9, &[0, 1]),
        Some(12) => (4, 10, &[0, 2, 1]),
        Some(26) if resolved == Some(token_2022) && data.get(1) == Some(&1) => (4, 19, &[0, 2, 1]),
        _ => return 2,
    };

    // 3: too few accounts.
    if accounts.len() < least_accounts {
        return 3;
    }

    // 4: data too short.
    if data.len() < least_bytes {
        return 4;
    }

    // 5: zero key, or none at the index.
    let key = |place: usize| keys.get(usize::from(accounts[place])).map(|row| row.key);
    if places.iter().any(|place| key(*place).unwrap_or([0; 32]) == [0; 32]) {
        return 5;
    }

    0
}
