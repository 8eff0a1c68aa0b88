//! The quick part of the comparison: cases, ids, 20,000 generated packs, coverage, mutants, stored
//! answers, and of the month totals examples, breaks and stored calls. The last line says how many checks passed and failed; the exit code is 0 only if none failed.

use compare::checks::{
    cases::CASES, chosen, coverage, ids, inputs, months, mutants, packs, refusals::REFUSALS,
    sample, Outcome,
};
use compare::close;
use std::process::ExitCode;

const SEEDS: u64 = 20_000;
const SEEDS_PER_CHECK: u64 = 1_000;

/// Months whose calls have to notice each deliberate break of the month totals.
const MONTHS: u64 = 1_000;

fn main() -> ExitCode {
    let mut tally = Tally::default();
    for (name, example) in CASES.iter().chain(REFUSALS).chain(months::EXAMPLES) {
        tally.add(name, example());
    }
    tally.add("the ids are distinct", ids::distinct());
    tally.add("the original's ids are those of crates/ids", ids::decoded());
    tally.add("the bindings' ids are those of crates/ids, and their names", ids::bindings());
    match ids::decoded_again() {
        Some(outcome) => tally.add("the second decoder's ids are those of crates/ids", outcome),
        None => println!("python3 is not installed: the second decoder of the ids was not run"),
    }
    tally.add("the sample in examples/", sample::committed());
    tally.add("the inputs in crates/routes_cases and crates/tree", inputs::committed());
    tally.add("the stored answers in crates/replay", chosen::committed());
    tally.add("the stored calls in crates/month_replay", months::committed());
    tally.breaks("no month notices it", months::noticed(0..MONTHS));
    tally.breaks("no stored call notices it", months::noticed_by_stored());
    for first in (0..SEEDS).step_by(SEEDS_PER_CHECK as usize) {
        tally.add("generated packs", packs::hold(first..first + SEEDS_PER_CHECK));
    }
    for (feature, count) in coverage::count(0..SEEDS) {
        tally.add(&feature, if count > 0 { Ok(()) } else { Err("does not occur".to_string()) });
    }
    for (mutant, first) in mutants::first_noticed(0..SEEDS) {
        tally.add(mutant, first.map(|_| ()).ok_or("is not noticed".to_string()));
    }
    match chosen::first_noticed() {
        Ok(found) => {
            for (mutant, first) in found {
                let noticed = first.map(|_| ()).ok_or("no stored answer notices it".to_string());
                tally.add(mutant, noticed);
            }
        }
        Err(wrong) => tally.add("the stored answers", Err(wrong)),
    }
    close(tally.passed, tally.failed)
}

#[derive(Default)]
struct Tally {
    passed: usize,
    failed: usize,
}

impl Tally {
    /// The deliberate breaks of the month totals, each of which has to be noticed.
    fn breaks(&mut self, wrong: &str, found: Result<Vec<(&str, bool)>, String>) {
        match found {
            Ok(found) => found.into_iter().for_each(|(name, noticed)| {
                self.add(name, noticed.then_some(()).ok_or(wrong.to_string()));
            }),
            Err(wrong) => self.add("breaks of the month totals", Err(wrong)),
        }
    }

    fn add(&mut self, name: &str, outcome: Outcome) {
        match outcome {
            Ok(()) => self.passed += 1,
            Err(wrong) => {
                self.failed += 1;
                println!("{name}: {wrong}");
            }
        }
    }
}
