//! Whether calls notice when the original or the reasons are broken on purpose.

use crate::generate::{case, Case};
use crate::oracle::broken::breaks;
use crate::oracle::{examine_broken, fit, Reply};

/// For each deliberate break, by name, the first of some seeds whose answer differs.
pub fn first_noticed(seeds: impl Iterator<Item = u64>) -> Vec<(&'static str, Option<u64>)> {
    first_of(seeds.map(|seed| {
        let (case, examined) = case(seed);
        let reply = fit(&examined, &case.lengths);
        (seed, case, reply)
    }))
}

/// The same of numbered calls with the oracle's answers.
pub fn first_of(
    calls: impl Iterator<Item = (u64, Case, Reply)>,
) -> Vec<(&'static str, Option<u64>)> {
    let mut found: Vec<_> = breaks().map(|(name, broken)| (name, broken, None)).collect();
    for (call, case, reply) in calls {
        if found.iter().all(|(_, _, first)| first.is_some()) {
            break;
        }
        // All refusals but those of passes and of room are decided before the original is asked.
        if !matches!(reply.answer.number, 0 | 7 | 8) {
            continue;
        }
        for (_, broken, first) in found.iter_mut().filter(|(_, _, first)| first.is_none()) {
            let broken = examine_broken(Some(*broken), &case.names, &case.pack);
            if fit(&broken, &case.lengths) != reply {
                *first = Some(call);
            }
        }
    }
    found.into_iter().map(|(name, _, first)| (name, first)).collect()
}
