//! The inputs of crates/routes_cases: names and a pack at the edges of what `routes` reads and prints. And what `tree` is run on.

use crate::listing::listing;
use crate::sample;
use mbelaguy::ids::{AMM_V4, SPL_TOKEN};
use mbelaguy::pack::{join, Group, Inner, Instruction, KeyRow, Pack};
use mbelaguy::pack::{BALANCE_ROW, KEY_ROW, MAX_BYTES, TRAILER};
use mbelaguy::MAX_INVOCATIONS;

/// What the program `routes_cases` reads and what it has to print: each file's path, and its bytes.
pub fn files() -> Result<Vec<(String, Vec<u8>)>, String> {
    let inputs = inputs()?;
    let arguments: String = inputs.iter().map(|(name, _)| format!("{name}\n")).collect();
    let print = |(name, input): &(&str, Vec<u8>)| format!("{name}\n{}", listing(input));
    let printed: String = inputs.iter().map(print).collect();
    let data = inputs.into_iter().map(|(name, input)| (format!("data/{name}"), input));
    let texts = [("args", arguments), ("stdout", printed)]
        .map(|(name, text)| (name.to_string(), text.into_bytes()));
    Ok(data.chain(texts).collect())
}

fn inputs() -> Result<Vec<(&'static str, Vec<u8>)>, String> {
    let [(_, sample), ..] = sample::files()?;
    let inner_cut = [vec![], vec![], vec![], vec![0; 5], vec![]];
    let mut second_key = vec![0; BALANCE_ROW];
    second_key[0] = 1;
    let balance_of_no_key = [vec![1; KEY_ROW], second_key, vec![], vec![], vec![]];
    Ok(vec![
        ("names_cut", vec![0; 87]),
        ("no_pack", unnamed(&[])),
        ("inner_cut", unnamed(&join(&inner_cut))),
        ("balance_of_no_key", unnamed(&join(&balance_of_no_key))),
        ("height_absent", unnamed(&pack(&calls([Some(2), None]))?)),
        ("reasons", unnamed(&pack(&reasons())?)),
        ("transfers_401", unnamed(&pack(&transfers(401))?)),
        ("longest", unnamed(&pack(&filled(MAX_BYTES))?)),
        ("too_long", unnamed(&pack(&filled(MAX_BYTES + 1))?)),
        (sample::NAME, sample),
    ])
}

/// Names all zero, then the pack.
fn unnamed(pack: &[u8]) -> Vec<u8> {
    [&[0; 88], pack].concat()
}

/// A pack's bytes, of whatever length.
fn pack(pack: &Pack) -> Result<Vec<u8>, String> {
    pack.sections().map(|sections| join(&sections)).map_err(|error| error.to_string())
}

/// One outer instruction, and inner ones of these heights.
fn calls(heights: impl IntoIterator<Item = Option<u32>>) -> Pack {
    let inner = |height| Inner { height, instruction: Instruction::default() };
    Pack {
        outer: vec![Instruction::default()],
        groups: vec![Group { outer: 0, instructions: heights.into_iter().map(inner).collect() }],
        ..Pack::default()
    }
}

/// As many invocations as a pack may have: each calls the next (`deepest`), or the first calls all (`widest`). compare/stack runs `tree` on them.
pub fn most(name: &str) -> Result<Vec<u8>, String> {
    let calls = match name {
        "deepest" => calls((2..=MAX_INVOCATIONS as u32).map(Some)),
        "widest" => calls([None; MAX_INVOCATIONS - 1]),
        _ => return Err(format!("{name} is neither deepest nor widest")),
    };
    Ok(unnamed(&pack(&calls)?))
}

/// The calls that docs/TREE.md draws: 3 is a transfer, 5 a swap.
pub fn drawn() -> Result<Vec<u8>, String> {
    let other = Instruction { program: 1, ..Instruction::default() };
    let transfer = Instruction { program: 0, accounts: vec![1, 2, 1], data: vec![3; 9] };
    let swap = Instruction { program: 3, accounts: vec![1; 8], data: vec![16; 17] };
    let first = [
        (Some(2), &other),
        (Some(3), &other),
        (Some(4), &transfer),
        (Some(3), &other),
        (Some(2), &swap),
    ];
    let second = [(None, &other), (Some(2), &other)];
    let group = |outer, calls: &[(Option<u32>, &Instruction)]| {
        let inner =
            |&(height, call): &(_, &Instruction)| Inner { height, instruction: call.clone() };
        Group { outer, instructions: calls.iter().map(inner).collect() }
    };
    let drawn = Pack {
        keys: [SPL_TOKEN, [1; 32], [2; 32], AMM_V4].map(|key| KeyRow { whole: true, key }).to_vec(),
        outer: vec![other.clone(); 2],
        groups: vec![group(0, &first), group(1, &second)],
        ..Pack::default()
    };
    Ok(unnamed(&pack(&drawn)?))
}

/// A plain transfer, and for each reason in turn one that it keeps from being a transfer.
fn reasons() -> Pack {
    let mut pack = transfers(6);
    let outer = &mut pack.outer;
    outer[1].program = pack.keys.len() as u32;
    outer[2].data.clear();
    outer[3].accounts.pop();
    outer[4].data.pop();
    outer[5].accounts[0] = pack.keys.len() as u8;
    pack
}

/// So many plain transfers.
fn transfers(count: usize) -> Pack {
    let transfer = Instruction { program: 0, accounts: vec![1, 2, 1], data: vec![3; 9] };
    Pack {
        keys: [SPL_TOKEN, [1; 32], [2; 32]].map(|key| KeyRow { whole: true, key }).to_vec(),
        outer: vec![transfer; count],
        ..Pack::default()
    }
}

/// As many invocations as are allowed, the first with data that make the pack so many bytes long.
fn filled(length: usize) -> Pack {
    let mut outer = vec![Instruction::default(); MAX_INVOCATIONS];
    outer[0].data = vec![0; length - TRAILER - 8 * MAX_INVOCATIONS];
    Pack { outer, ..Pack::default() }
}
