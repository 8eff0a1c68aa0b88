//! Examples of every refusal that can occur, of their order, and of what is not refused.

use super::{same, Example, Outcome};
use crate::oracle::reply;
use mbelaguy::pack::{join, Group, Inner, Instruction, Key, KeyRow, Pack, MAX_BYTES, TRAILER};

pub const REFUSALS: &[Example] = &[
    ("1: names of another length, before anything else", names),
    ("2: length and mark, before the starts", mark),
    ("3: starts, before the sections", starts),
    ("4: the lowest section that is not whole", sections),
    ("4: flags and heights, in dropped groups too", flags),
    ("5: over 256 keys, before the invocations", keys),
    ("11: a balance index at or above the number of keys", balances),
    ("11: whatever the mint is, in any row", any_balance),
    ("11: after 1 to 5, before 6 and 8", balances_in_order),
    ("6: over 1,024 kept invocations, before room", invocations),
    ("6: dropped groups do not count", dropped),
    ("8: the lowest table that lacks a row", room),
];

/// Number and place of the answer for a pack and tables of no length.
fn refused(bytes: &[u8], number: u32, place: u32) -> Outcome {
    with_room(bytes, [0; 5], number, place)
}

fn with_room(bytes: &[u8], lengths: [usize; 5], number: u32, place: u32) -> Outcome {
    let answer = reply(&[0; 88], bytes, &lengths).answer;
    same("answer", (answer.number, answer.place), (number, place))
}

fn write(pack: &Pack) -> Vec<u8> {
    pack.write().expect("counts stay below 65,536")
}

fn with_keys(count: usize) -> Pack {
    Pack { keys: vec![KeyRow { whole: true, key: [1; 32] }; count], ..Pack::default() }
}

fn with_outers(count: usize) -> Pack {
    Pack { outer: vec![Instruction::default(); count], ..Pack::default() }
}

fn names() -> Outcome {
    for length in [0, 87, 89] {
        let answer = reply(&vec![0; length], &[], &[0; 5]).answer;
        same("answer", (answer.number, answer.place), (1, 0))?;
    }
    Ok(())
}

fn mark() -> Outcome {
    let empty = write(&Pack::default());
    refused(&empty, 0, 0)?;
    refused(&empty[1..], 2, 0)?;
    let mut longest = vec![1; MAX_BYTES - 4];
    longest.extend(b"RTP1");
    refused(&longest, 3, 0)?;
    longest.insert(0, 1);
    refused(&longest, 2, 0)?;
    let mut unmarked = empty;
    unmarked[0] = 1;
    unmarked[TRAILER - 1] = b'2';
    refused(&unmarked, 2, 0)
}

fn starts() -> Outcome {
    let bytes = write(&with_keys(1));
    let trailer = bytes.len() - TRAILER;
    for (start, value) in [(0, 1), (1, 34), (4, 34), (4, 32), (2, 255)] {
        let mut bytes = bytes.clone();
        bytes[trailer + 4 * start] = value;
        bytes[0] = 2;
        refused(&bytes, 3, 0)?;
    }
    Ok(())
}

fn sections() -> Outcome {
    for lowest in 0..5 {
        let mut sections: [Vec<u8>; 5] = Default::default();
        sections[lowest..].fill(vec![0; 5]);
        refused(&join(&sections), 4, lowest as u32)?;
    }
    Ok(())
}

fn flags() -> Outcome {
    let mut key = [vec![2; 33], vec![], vec![], vec![], vec![]];
    refused(&join(&key), 4, 0)?;
    key[0][0] = 1;
    refused(&join(&key), 0, 0)?;
    for (flag, height, number, place) in [(1, 0, 0, 0), (0, 0, 0, 0), (0, 1, 4, 3), (2, 0, 4, 3)] {
        let group = [9, 0, 0, 0, 1, 0, flag, height, 0, 0, 0, 0, 0, 0, 0, 0, 0, 0, 0];
        refused(&join(&[vec![], vec![], vec![], group.to_vec(), vec![]]), number, place)?;
    }
    Ok(())
}

fn keys() -> Outcome {
    refused(&write(&with_keys(256)), 0, 0)?;
    let outer = with_outers(1_025).outer;
    refused(&write(&Pack { outer, ..with_keys(257) }), 5, 0)
}

/// The sections of a pack with one balance row more for each index, whatever it names.
fn with_balances(pack: &Pack, mint: Key, indexes: &[u32]) -> [Vec<u8>; 5] {
    let mut sections = pack.sections().expect("counts stay below 65,536");
    for index in indexes {
        sections[1].extend(index.to_le_bytes());
        sections[1].extend(mint);
    }
    sections
}

fn balances() -> Outcome {
    for count in [1, 2, 255, 256] {
        let balance = |index| join(&with_balances(&with_keys(count), [9; 32], &[index]));
        let keys = count as u32;
        for taken in [0, keys - 1] {
            with_room(&balance(taken), [65, 0, 0, 0, 0], 0, 0)?;
        }
        for past in [keys, keys + 1, 256, keys + 255, 65_536, keys + 65_535, u32::MAX] {
            with_room(&balance(past), [65, 0, 0, 0, 0], 11, 1)?;
        }
    }
    refused(&join(&with_balances(&Pack::default(), [9; 32], &[0])), 11, 1)
}

fn any_balance() -> Outcome {
    for mint in [[0; 32], [9; 32]] {
        for (indexes, number, place) in [
            ([1, 2, 0], 0, 0),
            ([3, 2, 0], 11, 1),
            ([1, 3, 0], 11, 1),
            ([1, 2, 3], 11, 1),
            ([3, 3, 3], 11, 1),
        ] {
            let sections = with_balances(&with_keys(3), mint, &indexes);
            with_room(&join(&sections), [65, 0, 0, 0, 0], number, place)?;
        }
    }
    refused(&join(&with_balances(&Pack::default(), [0; 32], &[0])), 11, 1)
}

fn balances_in_order() -> Outcome {
    let sections = with_balances(&with_keys(1), [9; 32], &[1]);
    let bytes = join(&sections);
    let answer = reply(&[0; 87], &bytes, &[0; 5]).answer;
    same("answer", (answer.number, answer.place), (1, 0))?;
    let trailer = bytes.len() - TRAILER;
    for (at, number) in [(bytes.len() - 1, 2), (trailer, 3), (trailer + 16, 3)] {
        let mut bytes = bytes.clone();
        bytes[at] += 1;
        refused(&bytes, number, 0)?;
    }
    for section in 0..5 {
        let mut sections = sections.clone();
        sections[section].extend([0; 5]);
        refused(&join(&sections), 4, section as u32)?;
    }
    for (count, number, place) in [(256, 11, 1), (257, 5, 0)] {
        refused(&join(&with_balances(&with_keys(count), [9; 32], &[257])), number, place)?;
    }
    refused(&join(&with_balances(&with_outers(1_025), [9; 32], &[0])), 11, 1)?;
    refused(&join(&with_balances(&with_outers(1), [9; 32], &[0])), 11, 1)
}

fn invocations() -> Outcome {
    refused(&write(&with_outers(1_025)), 6, 0)?;
    refused(&write(&with_outers(1_024)), 8, 1)?;
    with_room(&write(&with_outers(1_024)), [0, 1_024 * 28 - 1, 0, 0, 0], 8, 1)?;
    with_room(&write(&with_outers(1_024)), [0, 1_024 * 28, 0, 0, 0], 0, 0)
}

fn dropped() -> Outcome {
    let inner = Inner { height: None, instruction: Instruction::default() };
    for (outer, number) in [(1_023, 6), (1_024, 0)] {
        let groups = vec![Group { outer, instructions: vec![inner.clone()] }];
        let bytes = write(&Pack { groups, ..with_outers(1_024) });
        with_room(&bytes, [0, 1_024 * 28, 0, 0, 0], number, 0)?;
    }
    Ok(())
}

fn room() -> Outcome {
    let ids = original::ids().map(|key| KeyRow { whole: true, key });
    let keys = (1..9).map(|k| KeyRow { whole: true, key: [k; 32] }).chain(ids).collect();
    let instruction = |id: usize, accounts: &[u8], data: &[u8]| Instruction {
        program: 8 + id as u32,
        accounts: accounts.to_vec(),
        data: data.to_vec(),
    };
    use original::ids::{AMM_V4, SPL_TOKEN, WRAPPED_SOL};
    let bytes = write(&Pack {
        keys,
        outer: vec![
            instruction(SPL_TOKEN, &[0, 8 + WRAPPED_SOL as u8], &[1]),
            instruction(SPL_TOKEN, &[0, 0, 0], &[3; 9]),
            instruction(AMM_V4, &[0; 8], &[16; 17]),
            instruction(SPL_TOKEN, &[0], &[17]),
        ],
        ..Pack::default()
    });
    let exact = [65, 4 * 28, 150, 250, 109];
    with_room(&bytes, exact, 0, 0)?;
    for table in 0..5 {
        let mut lengths = exact;
        lengths[table] -= 1;
        with_room(&bytes, lengths, 8, table as u32)?;
        lengths[table..].fill(0);
        with_room(&bytes, lengths, 8, table as u32)?;
    }
    Ok(())
}
