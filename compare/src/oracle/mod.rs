//! The oracle: names, pack and five table lengths give the answer and the five tables.
//!
//! Refusals are decided here. Every ported answer comes from the original's functions (`original`).
//! What the original does not have (marks, passes, room, parents, tests, reasons, the tables' bytes)
//! follows its definition: `mints` and `blocks` work it out from what was recorded and from the ends of
//! blocks, `reason` from the instruction.

pub mod blocks;
pub mod broken;
pub mod feed;
pub mod mints;
pub mod reason;
mod rows;

use broken::Break;
use mbelaguy::pack::{self, Instruction, KeyRow, Pack};
use mbelaguy::{Answer, Refusal, Table, MAX_INVOCATIONS, MAX_KEYS, MAX_PASSES, WIDTHS};
use mints::Mints;
use original::names::Names;
use original::Facts;

/// A call's answer and what it leaves in the five lent tables.
#[derive(Clone, Debug, PartialEq, Eq)]
pub struct Reply {
    pub answer: Answer,
    pub tables: [Vec<u8>; 5],
}

/// All that a pack leads to, before anything is asked about room.
#[derive(Clone, Debug)]
pub struct Examined {
    pub pack: Pack,
    pub facts: Facts,
    pub mints: Mints,
    /// The parent of each invocation.
    pub parents: Vec<Option<usize>>,
    pub tests: usize,
    /// Why each invocation is no transfer, 0 where it is one.
    pub reasons: Vec<u8>,
    /// Used rows of the five tables.
    pub rows: [Vec<u8>; 5],
    /// Rows of room needed: in table 0 ambiguous accounts count too.
    pub needs: [usize; 5],
}

/// The answer and the tables of a call.
pub fn reply(names: &[u8], bytes: &[u8], lengths: &[usize; 5]) -> Reply {
    fit(&examine(names, bytes), lengths)
}

/// What the original says about a pack, or the refusal, of all but 8, that it meets.
pub fn examine(names: &[u8], bytes: &[u8]) -> Result<Examined, Refusal> {
    examine_by(&original::facts, &reason::reason, names, bytes)
}

/// As `examine`, with the copies that have breaks in the place of the original and of the reasons.
pub fn examine_broken(
    broken: Option<Break>,
    names: &[u8],
    bytes: &[u8],
) -> Result<Examined, Refusal> {
    let (of_original, of_reason) = match broken {
        Some(Break::Original(number)) => (Some(number), None),
        Some(Break::Reason(number)) => (None, Some(number)),
        None => (None, None),
    };
    let facts = |transaction: &_, meta: &_, graduated: &_| {
        original::mutant_facts(of_original, transaction, meta, graduated)
    };
    let reason = |keys: &_, instruction: &_| broken::reason(of_reason, keys, instruction);
    examine_by(&facts, &reason, names, bytes)
}

/// The answer and the tables, once the lengths are known: refusal 8 if one is too short.
pub fn fit(examined: &Result<Examined, Refusal>, lengths: &[usize; 5]) -> Reply {
    let mut tables = lengths.map(|length| vec![0; length]);
    let fitting = examined.as_ref().map_err(|refusal| *refusal);
    let answer = match fitting.and_then(|examined| examined.with_room(lengths)) {
        Ok(examined) => {
            for (table, rows) in tables.iter_mut().zip(&examined.rows) {
                table[..rows.len()].copy_from_slice(rows);
            }
            examined.answer()
        }
        Err(refusal) => Answer::refused(refusal),
    };
    Reply { answer, tables }
}

impl Examined {
    /// Whole rows of every table are as many as needed, or the lowest table lacks some.
    fn with_room(&self, lengths: &[usize; 5]) -> Result<&Self, Refusal> {
        match (0..5).find(|&t| lengths[t] / WIDTHS[t] < self.needs[t]) {
            Some(t) => Err(Refusal::Room(Table::ALL[t])),
            None => Ok(self),
        }
    }

    fn answer(&self) -> Answer {
        Answer {
            number: 0,
            place: 0,
            counts: std::array::from_fn(|t| (self.rows[t].len() / WIDTHS[t]) as u32),
            passes: self.mints.passes as u32,
            tests: self.tests as u32,
        }
    }
}

fn examine_by(
    facts: &feed::FactsOf<'_>,
    reason: &dyn Fn(&[KeyRow], &Instruction) -> u8,
    names: &[u8],
    bytes: &[u8],
) -> Result<Examined, Refusal> {
    let names: &Names = names.try_into().map_err(|_| Refusal::Names)?;
    let pack = pack::read(bytes)?;
    if pack.keys.len() > MAX_KEYS {
        return Err(Refusal::Keys);
    }
    // By the index alone, whatever the mint is.
    if pack.balances.iter().any(|balance| balance.account as usize >= pack.keys.len()) {
        return Err(Refusal::Balances);
    }
    if pack.steps().len() > MAX_INVOCATIONS {
        return Err(Refusal::Invocations);
    }
    original::names::lend(names);
    let facts = feed::facts_of(&pack, facts);
    let mints = Mints::of(&pack, &facts);
    if mints.passes > MAX_PASSES {
        return Err(Refusal::Passes);
    }
    let ends: Vec<_> = facts.invocations.iter().map(|invocation| invocation.end).collect();
    let (parents, tests) = (blocks::parents(&ends), blocks::tests(&ends));
    let reason = |step: &pack::Step<'_>| reason(&pack.keys, step.instruction);
    let reasons: Vec<_> = pack.steps().iter().map(reason).collect();
    let rows = rows::tables(&facts, &mints, &parents, &reasons);
    let mut needs = std::array::from_fn(|t| rows[t].len() / WIDTHS[t]);
    needs[0] = mints.room;
    Ok(Examined { pack, facts, mints, parents, tests, reasons, rows, needs })
}
