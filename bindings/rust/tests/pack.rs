//! A pack of values is written and read back, damage is named, and what does not fit is told.

use mbelaguy::pack::{
    join, read, Balance, DoesNotFit, Group, Inner, Instruction, KeyRow, Pack, BALANCE_ROW, KEY_ROW,
    MAX_BYTES, POOL_ROW, TRAILER,
};
use mbelaguy::{Refusal, Section};

fn instruction(program: u32, accounts: &[u8], data: &[u8]) -> Instruction {
    Instruction { program, accounts: accounts.to_vec(), data: data.to_vec() }
}

fn example() -> Pack {
    let inner = |height, instruction| Inner { height, instruction };
    Pack {
        keys: vec![KeyRow { whole: true, key: [7; 32] }, KeyRow { whole: false, key: [0; 32] }],
        balances: vec![Balance { account: 1, mint: [9; 32] }],
        outer: vec![instruction(1, &[0, 255], &[3; 300]), instruction(u32::MAX, &[], &[])],
        groups: vec![
            Group { outer: 5, instructions: vec![] },
            Group {
                outer: 0,
                instructions: vec![
                    inner(Some(0), instruction(2, &[1], &[])),
                    inner(None, instruction(3, &[], &[8])),
                ],
            },
        ],
        pools: vec![[4; 32]],
    }
}

#[test]
fn values_come_back() {
    for pack in [example(), Pack::default()] {
        assert_eq!(read(&pack.write().unwrap()), Ok(pack));
    }
}

#[test]
fn rows_have_their_sizes() {
    let [keys, balances, _, _, pools] = example().sections().unwrap().map(|section| section.len());
    assert_eq!([keys, balances, pools], [2 * KEY_ROW, BALANCE_ROW, POOL_ROW]);
}

#[test]
fn damage_is_named() {
    let mut bytes = example().write().unwrap();
    let trailer = bytes.len() - TRAILER;
    bytes[trailer] = 1;
    assert_eq!(read(&bytes), Err(Refusal::Starts));
    bytes.pop();
    assert_eq!(read(&bytes), Err(Refusal::Mark));
    for (damaged, section) in Section::ALL.into_iter().enumerate() {
        let mut sections = example().sections().unwrap();
        sections[4].push(0);
        sections[damaged].push(0);
        assert_eq!(read(&join(&sections)), Err(Refusal::Section(section)));
    }
}

#[test]
fn counts_have_two_bytes() {
    let with = |instruction| Pack { outer: vec![instruction], ..Pack::default() };
    let accounts = with(instruction(0, &vec![0; 65_536], &[]));
    assert_eq!(accounts.write(), Err(DoesNotFit::Accounts(65_536)));
    let data = with(instruction(0, &[], &vec![0; 70_000]));
    assert_eq!(data.write(), Err(DoesNotFit::Data(70_000)));
    let group = Group { outer: 0, instructions: vec![Inner::default(); 65_536] };
    let group = Pack { groups: vec![group], ..Pack::default() };
    assert_eq!(group.write(), Err(DoesNotFit::Instructions(65_536)));
}

/// By the index alone: the mint may be zero. With 300 keys an index has two bytes that are not 0.
#[test]
fn a_balance_names_a_key() {
    for keys in [0, 1, 2, 300] {
        for mint in [[0; 32], [9; 32]] {
            let with = |account| Pack {
                keys: vec![KeyRow { whole: true, key: [7; 32] }; keys],
                balances: vec![Balance { account, mint }],
                ..Pack::default()
            };
            let count = keys as u32;
            if let Some(last) = count.checked_sub(1) {
                let bytes = with(last).write().unwrap();
                assert_eq!(bytes[keys * KEY_ROW..][..4], last.to_le_bytes());
                assert_eq!(read(&bytes), Ok(with(last)));
            }
            for account in [count, u32::MAX] {
                let none = DoesNotFit::Balance { account, keys };
                assert_eq!(with(account).write(), Err(none));
                assert_eq!(with(account).sections(), Err(none));
            }
        }
    }
}

#[test]
fn one_balance_that_names_no_key_is_enough() {
    for row in 0..3 {
        let mut pack = example();
        pack.balances = vec![pack.balances[0]; 3];
        let mut bytes = pack.write().unwrap();
        pack.balances[row].account = 2;
        let none = DoesNotFit::Balance { account: 2, keys: 2 };
        assert_eq!(pack.write(), Err(none));
        assert_eq!(none.to_string(), "a balance row names account 2, and there are 2 keys");
        // Such bytes are read: what they say is a pack that a call refuses.
        bytes[2 * KEY_ROW + row * BALANCE_ROW] = 2;
        assert_eq!(read(&bytes), Ok(pack));
    }
}

#[test]
fn a_pack_has_a_greatest_length() {
    let with = |data: usize| {
        let outer = vec![instruction(0, &[], &vec![0; data])];
        Pack { outer, ..Pack::default() }.write()
    };
    let most = MAX_BYTES - TRAILER - 8;
    assert_eq!(with(most).map(|bytes| bytes.len()), Ok(MAX_BYTES));
    assert_eq!(with(most + 1), Err(DoesNotFit::Bytes(MAX_BYTES + 1)));
}

#[test]
fn steps_are_in_execution_order() {
    let group = |outer, programs: &[u32]| {
        let inner =
            |&program| Inner { height: Some(2), instruction: instruction(program, &[], &[]) };
        Group { outer, instructions: programs.iter().map(inner).collect() }
    };
    let pack = Pack {
        outer: vec![instruction(10, &[], &[]), instruction(11, &[], &[])],
        groups: vec![group(1, &[1]), group(0, &[2, 3]), group(2, &[4]), group(1, &[5])],
        ..Pack::default()
    };
    let steps = pack.steps();
    let order: Vec<_> = steps.iter().map(|s| (s.instruction.program, s.outer, s.inner)).collect();
    let expected = [
        (10, 0, None),
        (2, 0, Some(0)),
        (3, 0, Some(1)),
        (11, 1, None),
        (1, 1, Some(0)),
        (5, 1, Some(0)),
    ];
    assert_eq!(order, expected);
}
