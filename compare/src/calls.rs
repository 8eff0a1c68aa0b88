//! The calls that are made with the pack of a seed, and the oracle's answers to them.

use crate::checks::{order, Outcome};
use crate::generate::order::in_another_order;
use crate::generate::{case, Case};
use crate::oracle::{examine, fit, Examined, Reply};
use mbelaguy::{Refusal, MOST_ROWS, WIDTHS};

/// One pack in so many is called with all the room that a pack can need: these calls take the longest.
const FULL_ROOM: u64 = 8;

/// One call, and what is special about it.
pub struct Call {
    pub what: &'static str,
    pub case: Case,
    pub reply: Reply,
}

/// The calls of a seed; where its pack is not refused, also those of the same evidence in another
/// order, with what came of comparing the two.
pub struct Calls {
    pub calls: Vec<Call>,
    pub order: Option<Outcome>,
}

impl Calls {
    pub fn of(seed: u64) -> Self {
        let (case, examined) = case(seed);
        let mut calls = Calls { calls: Vec::new(), order: None };
        calls.add("the seed's room", &case, &examined, case.lengths);
        if seed.is_multiple_of(FULL_ROOM) {
            calls.add("full room", &case, &examined, lengths(&MOST_ROWS));
        }
        if let Ok(one) = &examined {
            calls.add("ample room", &case, &examined, ample(&one.needs, seed));
            calls.add("exact room", &case, &examined, lengths(&one.needs));
            if let Some(short) = one_row_short(&one.needs, seed) {
                calls.add("one row short", &case, &examined, short);
            }
            calls.add_other_order(&case, one, seed);
        }
        calls
    }

    fn add(
        &mut self,
        what: &'static str,
        case: &Case,
        examined: &Result<Examined, Refusal>,
        lengths: [usize; 5],
    ) {
        let reply = fit(examined, &lengths);
        self.calls.push(Call { what, case: Case { lengths, ..case.clone() }, reply });
    }

    /// Room as both packs need it, and a row less in table 0.
    fn add_other_order(&mut self, case: &Case, one: &Examined, seed: u64) {
        let pack = in_another_order(&one.pack, seed).write();
        let pack = pack.expect("as many bytes as the pack that was examined");
        let case = Case { pack, ..case.clone() };
        let other = examine(&case.names, &case.pack);
        let needs = other.as_ref().map_or([0; 5], |other| other.needs);
        let mut room = lengths(&std::array::from_fn(|t| needs[t].max(one.needs[t])));
        self.add("another order", &case, &other, room);
        if room[0] > 0 {
            room[0] -= 1;
            self.add("another order, one row short", &case, &other, room);
        }
        self.order = Some(order::same_evidence(one, &other));
    }
}

fn lengths(rows: &[usize; 5]) -> [usize; 5] {
    std::array::from_fn(|t| rows[t] * WIDTHS[t])
}

/// Some rows more than needed in each table, and some odd bytes.
fn ample(needs: &[usize; 5], seed: u64) -> [usize; 5] {
    let more = |t: usize| (seed as usize + t) % (2 * WIDTHS[t]);
    std::array::from_fn(|t| (needs[t] + 1) * WIDTHS[t] + more(t))
}

/// Exact room, but for a row or a byte of one table, if some table needs a row.
fn one_row_short(needs: &[usize; 5], seed: u64) -> Option<[usize; 5]> {
    let needing: Vec<usize> = (0..5).filter(|&t| needs[t] > 0).collect();
    let seed = seed as usize;
    let &short = needing.get(seed % needing.len().max(1))?;
    let mut lengths = lengths(needs);
    lengths[short] -= if seed.is_multiple_of(2) { 1 } else { WIDTHS[short] };
    Some(lengths)
}
