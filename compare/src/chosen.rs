//! The answers that stand in crates/replay, to be compared wherever the crates are proved.

use crate::checks::{coverage, mutants};
use crate::generate::case;
use crate::library::TOLD;
use crate::oracle::fit;
use crate::{damaged, stored};
use std::collections::{BTreeMap, BTreeSet};

/// They are chosen among the packs of the first seeds.
const SEEDS: u64 = 20_000;

/// How many there are at least, and how long those are that nothing but their number asks for.
const LEAST: usize = 1_200;
const SHORT: usize = 1_500;

/// What the program `replay` reads and what it has to print: the file's name, and its bytes. Behind
/// the right records stand damaged ones.
pub fn files() -> [(&'static str, Vec<u8>); 2] {
    let seeds = seeds();
    let damaged = damaged::records();
    let mut printed = String::new();
    for (number, (_, what)) in (seeds.len()..).zip(&damaged).take(TOLD) {
        printed += &format!("record {number}: {what}\n");
    }
    let answers = seeds.len() + damaged.len();
    printed += &format!("{answers} answers, {} different\n", damaged.len());
    let right = seeds.into_iter().map(|seed| {
        let (case, examined) = case(seed);
        stored::write(&case, &fit(&examined, &case.lengths))
    });
    let records = right.chain(damaged.into_iter().map(|(record, _)| record));
    [("stdin", records.flatten().collect()), ("stdout", printed.into_bytes())]
}

/// For each feature that must occur the shortest record that shows it; for each deliberate break that
/// none of these notices the first that does; and the first short ones.
fn seeds() -> BTreeSet<u64> {
    let mut shortest: BTreeMap<String, (usize, u64)> = BTreeMap::new();
    let mut short = Vec::new();
    for seed in 0..SEEDS {
        let (case, examined) = case(seed);
        let reply = fit(&examined, &case.lengths);
        let length = stored::write(&case, &reply).len();
        for feature in coverage::shown(&case, &examined, &reply) {
            let best = shortest.entry(feature).or_insert((length, seed));
            *best = (length, seed).min(*best);
        }
        if length <= SHORT {
            short.push(seed);
        }
    }
    let mut seeds: BTreeSet<u64> = shortest.into_values().map(|(_, seed)| seed).collect();
    let noticing = mutants::first_noticed(seeds.clone().into_iter().chain(0..SEEDS));
    seeds.extend(noticing.into_iter().filter_map(|mutant| mutant.1));
    for seed in short {
        if seeds.len() >= LEAST {
            break;
        }
        seeds.insert(seed);
    }
    seeds
}
