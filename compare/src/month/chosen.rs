//! The calls that stand in crates/month_replay, to be made again wherever the crates are proved.

use super::coverage::{shown, FEATURES};
use super::generate::Month;
use super::{answered, broken, damaged, stored, Call, Reply};
use std::collections::{BTreeMap, BTreeSet};

/// They are chosen among the calls of the first seeds.
const SEEDS: u64 = 3_000;

/// How many there are at least; how long those are that nothing but their number asks for; and how
/// long one may be that a feature asks for.
const LEAST: usize = 270;
const SHORT: usize = 700;
const LONG: usize = 8_000;

/// The feature that asks for a longer one.
const BEYOND: &str = "over 1,024 transfers";

/// How many differences the program tells.
const TOLD: usize = 10;

/// What the program `month_replay` reads and what it has to print: the file's name, and its bytes.
/// Behind the right records stand damaged ones.
pub fn files() -> [(&'static str, Vec<u8>); 2] {
    let right = right();
    let damaged = damaged::records();
    let mut printed = String::new();
    for (number, (_, what)) in (right.len()..).zip(&damaged).take(TOLD) {
        printed += &format!("record {number}: {what}\n");
    }
    let answers = right.len() + damaged.len();
    printed += &format!("{answers} answers, {} different\n", damaged.len());
    let records = right.into_iter().chain(damaged.into_iter().map(|(record, _)| record));
    [("stdin", records.flatten().collect()), ("stdout", printed.into_bytes())]
}

/// The right records: for each feature the shortest that shows it, where it is not too long; for each
/// deliberate break that none of these notices the shortest that does; and the first short ones.
fn right() -> Vec<Vec<u8>> {
    let calls = calls();
    let mut order: Vec<usize> = (0..calls.len()).collect();
    order.sort_by_key(|&number| calls[number].2.len());
    let mut chosen = BTreeSet::new();
    let mut missing: BTreeMap<&str, ()> = FEATURES.iter().map(|name| (*name, ())).collect();
    for &number in &order {
        let (call, reply, record) = &calls[number];
        let long = record.len() > LONG;
        if long && !missing.contains_key(BEYOND) {
            break;
        }
        let new = shown(call, reply).into_iter().filter(|name| missing.contains_key(name));
        let new: Vec<_> = new.filter(|name| !long || *name == BEYOND).collect();
        if !new.is_empty() {
            chosen.insert(number);
        }
        for name in new {
            missing.remove(name);
        }
    }
    for number in 0..broken::BREAKS.len() {
        let notices = |&call: &usize| notices(number, &calls[call]);
        if !chosen.iter().any(|call| notices(call)) {
            chosen.extend(order.iter().copied().find(notices));
        }
    }
    for number in (0..calls.len()).filter(|&number| calls[number].2.len() <= SHORT) {
        if chosen.len() >= LEAST {
            break;
        }
        chosen.insert(number);
    }
    chosen.into_iter().map(|number| calls[number].2.clone()).collect()
}

/// The calls of the first seeds, each once, with their records.
fn calls() -> Vec<(Call, Reply, Vec<u8>)> {
    let mut seen = BTreeSet::new();
    let mut all = Vec::new();
    for call in (0..SEEDS).flat_map(|seed| Month::of(seed).calls) {
        let reply = answered(&call);
        let record = stored::write(&call, &reply);
        if seen.insert(record.clone()) {
            all.push((call, reply, record));
        }
    }
    all
}

fn notices(number: usize, (call, reply, _): &(Call, Reply, Vec<u8>)) -> bool {
    broken::answered(Some(number), call) != *reply
}
