//! The plain month totals and their generated months, checked by themselves.

use compare::checks::months::{committed, holds, noticed, noticed_by_stored, EXAMPLES};
use compare::month::coverage::{shown, FEATURES};
use compare::month::{answered, generate::Month};
use std::collections::BTreeSet;

#[test]
fn examples() {
    for (name, example) in EXAMPLES {
        assert_eq!(example(), Ok(()), "{name}");
    }
}

#[test]
fn every_month_holds() {
    for seed in 0..500 {
        assert_eq!(holds(seed, &Month::of(seed)).unwrap_or(Ok(())), Ok(()), "seed {seed}");
    }
}

#[test]
fn every_feature_occurs() {
    let calls = (0..2_000).flat_map(|seed| Month::of(seed).calls);
    let found: BTreeSet<_> = calls.flat_map(|call| shown(&call, &answered(&call))).collect();
    let missing: Vec<_> = FEATURES.iter().filter(|name| !found.contains(*name)).collect();
    assert!(missing.is_empty(), "missing: {missing:?}");
}

#[test]
fn every_break_is_noticed() {
    for found in [noticed(0..1_000), noticed_by_stored()] {
        for (name, seen) in found.expect("nothing else differs") {
            assert!(seen, "{name} is not noticed");
        }
    }
}

#[test]
fn stored_calls_are_committed() {
    assert_eq!(committed(), Ok(()));
}
