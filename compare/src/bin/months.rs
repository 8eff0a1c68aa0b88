//! Compares the library's month totals with the plain ones over the months of some seeds: `months FROM
//! TO`, TO not included. Each call's numbers and all bytes of the report are compared, and the bytes
//! around it; months from an empty report are also held to what is true of every month, and fed by the
//! Rust crate's `Month`. That damaged answers are noticed is tried at the end, and, where the seeds are
//! enough for it, that each feature occurs among the calls. The last line says how many of all these
//! are right and how many are not.

use compare::checks::{months, Outcome};
use compare::close;
use compare::month::coverage::{shown, FEATURES};
use compare::month::damaged::{answers, rows_and_tail};
use compare::month::generate::Month;
use compare::month::{answered, linked};
use compare::shares::{cut, seeds, walk};
use std::collections::BTreeSet;
use std::ops::Range;
use std::process::ExitCode;

const SEEDS_AT_ONCE: u64 = 20;

/// From so many seeds on every feature has to occur.
const ENOUGH: usize = 2_000;

/// How many of the differences are told.
const TOLD: usize = 20;

fn main() -> ExitCode {
    let Some(seeds) = seeds("months") else {
        return ExitCode::FAILURE;
    };
    let mut found: Found = walk(&cut(seeds.clone(), SEEDS_AT_ONCE), Found::share, Found::with);
    let (call, reply) = rows_and_tail();
    for (damaged, what) in answers(&reply) {
        let noticed =
            linked::difference(&call, &damaged).is_some_and(|told| told.starts_with(what));
        found.note(noticed.then_some(()).ok_or(format!("{what}: is not noticed")));
    }
    let seeds = seeds.count();
    if seeds >= ENOUGH {
        for feature in FEATURES {
            let occurs = found.features.contains(feature);
            found.note(occurs.then_some(()).ok_or(format!("{feature}: does not occur")));
        }
    } else {
        println!("fewer than {ENOUGH} seeds: what occurs among them is not looked at");
    }
    found.wrong.iter().take(TOLD).for_each(|wrong| println!("{wrong}"));
    println!("{seeds} months, {} feeds, {} transfers", found.calls, found.transfers);
    close(found.passed, found.wrong.len())
}

#[derive(Default)]
struct Found {
    calls: usize,
    transfers: usize,
    passed: usize,
    wrong: Vec<String>,
    features: BTreeSet<&'static str>,
}

impl Found {
    fn share(&mut self, seeds: &Range<u64>) {
        seeds.clone().for_each(|seed| self.compare(seed));
    }

    fn compare(&mut self, seed: u64) {
        let month = Month::of(seed);
        for (number, call) in month.calls.iter().enumerate() {
            let reply = answered(call);
            let outcome = linked::difference(call, &reply).map_or(Ok(()), Err);
            self.note(outcome.map_err(|what| format!("seed {seed}, call {number}: {what}")));
            self.calls += 1;
            self.transfers += call.transfers.len() / compare::month::TRANSFER;
            self.features.extend(shown(call, &reply));
        }
        let held = months::holds(seed, &month).into_iter().chain(linked::whole(&month));
        held.for_each(|outcome| self.note(outcome.map_err(|what| format!("seed {seed}: {what}"))));
    }

    fn note(&mut self, outcome: Outcome) {
        match outcome {
            Ok(()) => self.passed += 1,
            Err(wrong) => self.wrong.push(wrong),
        }
    }

    fn with(mut self, other: Found) -> Found {
        self.calls += other.calls;
        self.transfers += other.transfers;
        self.passed += other.passed;
        self.wrong.extend(other.wrong);
        self.features.extend(other.features);
        self
    }
}
