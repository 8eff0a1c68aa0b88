//! The oracle and its generated packs, checked by themselves.

use compare::checks::{
    cases::CASES, chosen, coverage, grids, ids, mutants, packs, refusals::REFUSALS, sample,
};
use compare::grids::{shares, Share};
use compare::oracle::blocks::parents;
use compare::oracle::examine;
use compare::oracle::reason::reason;
use mbelaguy::pack::{Instruction, KeyRow};

#[test]
fn cases_of_document_01() {
    for (name, case) in CASES {
        assert_eq!(case(), Ok(()), "{name}");
    }
}

#[test]
fn refusals_of_document_01() {
    for (name, refusal) in REFUSALS {
        assert_eq!(refusal(), Ok(()), "{name}");
    }
}

/// By the ends of blocks, and as rows have it: 0, or 1 plus the parent.
#[test]
fn parents_of_blocks() {
    let blocks: [(&[usize], &[usize]); 5] = [
        (&[], &[]),
        (&[3, 3, 3], &[0, 1, 2]),
        (&[3, 2, 3], &[0, 1, 1]),
        (&[1, 2], &[0, 0]),
        (&[2, 2, 6, 5, 5, 6], &[0, 1, 0, 3, 4, 3]),
    ];
    for (ends, expected) in blocks {
        let found = parents(ends).into_iter().map(|parent| parent.map_or(0, |row| row + 1));
        assert_eq!(found.collect::<Vec<_>>(), expected, "{ends:?}");
    }
}

/// Program, accounts, how the data begins, how long it is, and the reason.
type Told = (u32, &'static [u8], &'static [u8], usize, u8);

/// The first keys are SPL Token, Token-2022, another program, SPL Token with flag 0 and the zero key;
/// there is no key 9.
#[test]
fn reasons_of_instructions() {
    let [spl_token, token_2022, ..] = original::ids();
    let keys =
        [spl_token, token_2022, [2; 32], spl_token, [0; 32], [5; 32], [6; 32], [7; 32], [8; 32]];
    let row = |(at, key)| KeyRow { whole: at != 3, key };
    let keys: Vec<_> = keys.into_iter().enumerate().map(row).collect();
    let instructions: &[Told] = &[
        (0, &[5, 6, 7], &[3], 9, 0),
        (1, &[5, 6, 7], &[3], 9, 0),
        (0, &[5, 6, 7, 8], &[12], 10, 0),
        (1, &[5, 6, 7, 8], &[12], 10, 0),
        (1, &[5, 6, 7, 8], &[26, 1], 19, 0),
        // Not a token program.
        (2, &[5, 6, 7], &[3], 9, 1),
        (3, &[5, 6, 7], &[3], 9, 1),
        (4, &[5, 6, 7], &[3], 9, 1),
        (9, &[5, 6, 7], &[3], 9, 1),
        (256, &[5, 6, 7], &[3], 9, 1),
        (65_537, &[5, 6, 7], &[3], 9, 1),
        (2, &[], &[], 0, 1),
        (3, &[], &[], 0, 1),
        // Unsupported tag.
        (0, &[5, 6, 7, 8], &[], 0, 2),
        (1, &[], &[], 0, 2),
        (0, &[5, 6], &[1], 1, 2),
        (1, &[5, 6], &[16], 33, 2),
        (1, &[5, 6], &[18], 33, 2),
        (0, &[5], &[17], 1, 2),
        (0, &[5, 6, 7], &[9], 1, 2),
        (0, &[5, 6, 7, 8], &[4], 19, 2),
        (1, &[5, 6, 7, 8], &[26], 1, 2),
        (1, &[5, 6, 7, 8], &[26, 0], 19, 2),
        (1, &[5, 6, 7, 8], &[26, 2], 19, 2),
        (1, &[5], &[26, 2], 2, 2),
        (0, &[5, 6, 7, 8], &[26, 1], 19, 2),
        (0, &[5, 6, 7], &[26, 1], 19, 2),
        (0, &[5, 6, 7, 8], &[26, 1], 18, 2),
        (0, &[4, 6, 7, 8], &[26, 1], 19, 2),
        // Too few accounts, also where more is wrong.
        (0, &[5, 6], &[3], 9, 3),
        (0, &[5, 6], &[3], 1, 3),
        (0, &[4, 9], &[3], 9, 3),
        (1, &[5, 6, 7], &[12], 10, 3),
        (1, &[5, 6, 7], &[12], 9, 3),
        (1, &[5, 6, 7], &[26, 1], 19, 3),
        (1, &[5, 6, 7], &[26, 1], 2, 3),
        (1, &[], &[26, 1], 19, 3),
        // Data too short, also where a key is zero.
        (0, &[5, 6, 7], &[3], 8, 4),
        (0, &[5, 6, 7], &[3], 1, 4),
        (0, &[4, 6, 7], &[3], 8, 4),
        (1, &[5, 6, 7, 8], &[12], 9, 4),
        (1, &[5, 9, 7, 8], &[12], 9, 4),
        (1, &[5, 6, 7, 8], &[26, 1], 18, 4),
        (1, &[5, 6, 7, 8], &[26, 1], 2, 4),
        // Zero key: source and destination, and the mint where there is one.
        (0, &[4, 6, 7], &[3], 9, 5),
        (0, &[9, 6, 7], &[3], 9, 5),
        (0, &[5, 4, 7], &[3], 9, 5),
        (0, &[5, 9, 7], &[3], 9, 5),
        (0, &[4, 6, 7, 8], &[12], 10, 5),
        (0, &[5, 4, 7, 8], &[12], 10, 5),
        (0, &[5, 6, 4, 8], &[12], 10, 5),
        (0, &[5, 6, 9, 8], &[12], 10, 5),
        (1, &[9, 6, 7, 8], &[26, 1], 19, 5),
        (1, &[5, 9, 7, 8], &[26, 1], 19, 5),
        (1, &[5, 6, 9, 8], &[26, 1], 19, 5),
        (1, &[5, 4, 7, 8], &[26, 1], 19, 5),
        // The authority is not looked at, and a key with flag 0 is a key.
        (0, &[5, 6, 4], &[3], 9, 0),
        (0, &[5, 6, 9], &[3], 9, 0),
        (0, &[5, 6, 7, 4], &[12], 10, 0),
        (1, &[5, 6, 7, 9], &[26, 1], 19, 0),
        (0, &[3, 3, 9], &[3], 9, 0),
        (1, &[3, 3, 3, 9], &[12], 10, 0),
    ];
    for &(program, accounts, start, length, expected) in instructions {
        let mut data = start.to_vec();
        data.resize(length, 0);
        let instruction = Instruction { program, accounts: accounts.to_vec(), data };
        assert_eq!(reason(&keys, &instruction), expected, "{instruction:?}");
    }
}

#[test]
fn ids_agree() {
    assert_eq!(ids::distinct(), Ok(()));
    assert_eq!(ids::decoded(), Ok(()));
    assert_eq!(ids::bindings(), Ok(()));
    match ids::decoded_again() {
        Some(outcome) => assert_eq!(outcome, Ok(())),
        None => println!("no python3: the second decoder was not run"),
    }
}

#[test]
fn sample_is_committed() {
    assert_eq!(sample::committed(), Ok(()));
}

#[test]
fn first_half_of_the_packs() {
    assert_eq!(packs::hold(0..10_000), Ok(()));
}

#[test]
fn second_half_of_the_packs() {
    assert_eq!(packs::hold(10_000..20_000), Ok(()));
}

#[test]
fn every_feature_occurs() {
    let features = coverage::count(0..20_000);
    for (name, count) in &features {
        println!("{count:>8} {name}");
    }
    let missing: Vec<_> = features.iter().filter(|feature| *feature.1 == 0).collect();
    assert!(missing.is_empty(), "missing: {missing:?}");
}

#[test]
fn grids_meet_every_reason() {
    let mut met = grids::Met::new();
    for case in shares().into_iter().flat_map(Share::cases) {
        let examined = examine(&case.names, &case.pack).expect("grids are not refused");
        assert_eq!(grids::meet(&mut met, &examined), Ok(()));
    }
    assert_eq!(grids::all_met(&met), Ok(()));
}

#[test]
fn every_mutant_is_noticed() {
    for (name, first) in mutants::first_noticed(0..20_000) {
        println!("{first:?} {name}");
        assert!(first.is_some(), "{name} is not noticed");
    }
}

#[test]
fn stored_answers_notice_every_mutant() {
    for (name, first) in chosen::first_noticed().expect("crates/replay has stored answers") {
        println!("{first:?} {name}");
        assert!(first.is_some(), "{name} is not noticed");
    }
}
