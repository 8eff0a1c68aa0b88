//! What holds of every answer, worked out a second way where there is one.

use super::{hold, same, Outcome};
use crate::generate::Case;
use crate::oracle::mints::Mints;
use crate::oracle::{blocks, feed, Examined, Reply};
use mbelaguy::pack::{Instruction, Step};
use mbelaguy::{Refusal, MAX_INVOCATIONS, MAX_KEYS, WIDTHS};
use original::facts::{Invocation, Key};
use original::ids::WRAPPED_SOL;
use std::collections::{BTreeMap, BTreeSet};

/// An answer against its tables: refusals leave zeroes, rows are sorted and point where they should.
pub fn reply(case: &Case, examined: &Result<Examined, Refusal>, reply: &Reply) -> Outcome {
    let answer = &reply.answer;
    same("table lengths", reply.tables.each_ref().map(Vec::len), case.lengths)?;
    if answer.number != 0 {
        let none = ([0; 5], 0, 0);
        same("counts of a refusal", (answer.counts, answer.passes, answer.tests), none)?;
        return hold("zeroed tables", reply.tables.iter().flatten().all(|byte| *byte == 0));
    }
    let Ok(examined) = examined else {
        return Err("accepted, but not examined".to_string());
    };
    same("place of a success", answer.place, 0)?;
    for (t, table) in reply.tables.iter().enumerate() {
        let used = answer.counts[t] as usize * WIDTHS[t];
        hold("room", examined.needs[t] * WIDTHS[t] <= table.len())?;
        hold("zeroes behind the last row", table[used..].iter().all(|byte| *byte == 0))?;
    }
    let accounts: Vec<_> = rows(reply, 0).map(|row| &row[..32]).collect();
    hold("table 0 ascends", accounts.is_sorted_by(|a, b| a < b))?;
    hold("marks", rows(reply, 0).all(|row| row[64] <= 2))?;
    for t in [2, 3, 4] {
        let numbers: Vec<_> = rows(reply, t).map(|row| number(row, 0)).collect();
        hold("execution order", numbers.is_sorted_by(|a, b| a < b))?;
        hold("invocation numbers", numbers.iter().all(|number| *number < answer.counts[1]))?;
    }
    own_rows(reply)?;
    parents(reply)?;
    wrapped_sol(reply)
}

fn rows(reply: &Reply, table: usize) -> impl Iterator<Item = &[u8]> {
    let count = reply.answer.counts[table] as usize;
    reply.tables[table].chunks_exact(WIDTHS[table]).take(count)
}

fn number(row: &[u8], at: usize) -> u32 {
    u32::from_le_bytes(row[at..at + 4].try_into().expect("four bytes"))
}

/// Bits 16 and 32, leg numbers, reasons and inside bits against the rows of tables 2 and 3.
fn own_rows(reply: &Reply) -> Outcome {
    let owners = |t| rows(reply, t).map(|row| number(row, 0)).collect::<Vec<_>>();
    let (transfers, legs) = (owners(2), owners(3));
    let some_in = |owners: &[u32], from: u32, to: u32| {
        let first = owners.partition_point(|owner| *owner < from);
        owners.get(first).is_some_and(|owner| *owner < to)
    };
    for (i, row) in (0u32..).zip(rows(reply, 1)) {
        let (end, bits) = (number(row, 14), row[18]);
        hold("end", i < end && end <= reply.answer.counts[1])?;
        same("transfers inside", bits & 1 != 0, some_in(&transfers, i + 1, end))?;
        same("swaps inside", bits & 2 != 0, some_in(&legs, i + 1, end))?;
        same("own leg", bits & 16 != 0, some_in(&legs, i, i + 1))?;
        same("own transfer", bits & 32 != 0, some_in(&transfers, i, i + 1))?;
        same("a transfer has no reason, all others have one", row[27] == 0, bits & 32 != 0)?;
        hold("reasons", row[27] <= 5)?;
        let leg = legs.binary_search(&i).map_or(0, |leg| leg as u32 + 1);
        same("leg number", number(row, 19), leg)?;
        hold("skipped programs are resolved", bits & 4 == 0 || bits & 8 != 0)?;
        hold("skipped programs have no leg", bits & 4 == 0 || bits & 16 == 0)?;
    }
    Ok(())
}

/// Parents by one walk over the rows that keeps the open blocks, the innermost last: that is the
/// parent's, and the row's own block ends inside it.
fn parents(reply: &Reply) -> Outcome {
    let mut open: Vec<(u32, u32)> = Vec::new();
    for (i, row) in (0u32..).zip(rows(reply, 1)) {
        while open.last().is_some_and(|(_, end)| *end <= i) {
            open.pop();
        }
        let (end, parent) = (number(row, 14), number(row, 23));
        let all = (0, reply.answer.counts[1]);
        let (innermost, last) = open.last().map_or(all, |(holder, end)| (holder + 1, *end));
        same("parent", parent, innermost)?;
        hold("a parent comes before its children", parent <= i)?;
        hold("blocks are nested or apart", end <= last)?;
        same("inner instructions have a parent and outer ones none", parent > 0, row[4] == 1)?;
        open.push((i, end));
    }
    Ok(())
}

/// Native actions are about accounts whose final mint is wrapped SOL.
fn wrapped_sol(reply: &Reply) -> Outcome {
    let wrapped_sol = original::ids()[WRAPPED_SOL];
    let mints: BTreeMap<_, _> = rows(reply, 0).map(|row| (&row[..32], &row[32..64])).collect();
    let acted = |row: &[u8]| mints.get(&row[5..37]) == Some(&&wrapped_sol[..]);
    hold("native actions on wrapped SOL", rows(reply, 4).all(acted))
}

/// The original's answers against the definitions.
pub fn examined(examined: &Examined) -> Outcome {
    let invocations = &examined.facts.invocations;
    let n = invocations.len();
    let steps = examined.pack.steps();
    same("kept invocations", n, steps.len())?;
    hold("steps", steps.iter().zip(invocations).all(|(step, one)| is_step(step, one)))?;
    let keys = examined.pack.keys.len();
    hold("limits", n <= MAX_INVOCATIONS && keys <= MAX_KEYS)?;
    let mut balances = examined.pack.balances.iter();
    hold("balance rows name keys", balances.all(|balance| (balance.account as usize) < keys))?;
    let ends: Vec<_> = (0..n).map(|i| end(invocations, i)).collect();
    same("ends", invocations.iter().map(|one| one.end).collect(), ends.clone())?;
    same("tests by the loop", counted_tests(invocations), blocks::tests(&ends))?;
    hold("tests at most 2n - 2", examined.tests <= (2 * n).saturating_sub(2))?;
    mints(&examined.mints, &examined.facts.mints)
}

/// The pack's own order of instructions against the original's.
fn is_step(step: &Step<'_>, one: &Invocation) -> bool {
    let position = (step.outer, step.inner, step.height) == (one.outer, one.inner, one.height);
    position && step.instruction.accounts == one.accounts && step.instruction.data == one.data
}

/// The first later invocation that is no descendant, or n.
fn end(invocations: &[Invocation], i: usize) -> usize {
    let later = |j: &usize| !holds(&invocations[i], &invocations[*j]);
    (i + 1..invocations.len()).find(later).unwrap_or(invocations.len())
}

/// An outer holds all its inners; an inner holds a later one of the same outer if its inner index is
/// greater, both heights are known and the later one is greater.
pub fn holds(parent: &Invocation, child: &Invocation) -> bool {
    let inside = match (parent.inner, child.inner) {
        (_, None) => false,
        (None, Some(_)) => true,
        (Some(first), Some(later)) => {
            let deeper = parent.height.zip(child.height).is_some_and(|(a, b)| a < b);
            first < later && deeper
        }
    };
    parent.outer == child.outer && inside
}

/// How often the backward loop asks whether one invocation holds another.
fn counted_tests(invocations: &[Invocation]) -> usize {
    let n = invocations.len();
    let mut ends = vec![0; n];
    let mut tests = 0;
    for i in (0..n).rev() {
        let mut end = i + 1;
        while end < n {
            tests += 1;
            if !holds(&invocations[i], &invocations[end]) {
                break;
            }
            end = ends[end];
        }
        ends[i] = end;
    }
    tests
}

/// Reasons a second way, with the original as the judge: how much of a token instruction has to be mended
/// until it is a transfer. Keys are mended first, then data, then accounts.
pub fn reasons(examined: &Examined) -> Outcome {
    let [spl_token, token_2022, ..] = original::ids();
    let [keys, data, accounts] =
        [mend_keys, mend_data, mend_accounts].map(|mend| transfers_if(mend, examined));
    for (i, one) in examined.facts.invocations.iter().enumerate() {
        let reason = if one.program != spl_token && one.program != token_2022 {
            1
        } else if one.transfer.is_some() {
            0
        } else if keys[i] {
            5
        } else if data[i] {
            4
        } else if accounts[i] {
            3
        } else {
            2
        };
        same("reason by what has to be mended", examined.reasons[i], reason)?;
    }
    Ok(())
}

/// Whether the original finds a transfer in each invocation, were all instructions mended.
fn transfers_if(mend: fn(&mut Instruction), examined: &Examined) -> Vec<bool> {
    let mut pack = examined.pack.clone();
    let inner = pack.groups.iter_mut().flat_map(|group| &mut group.instructions);
    let inner = inner.map(|inner| &mut inner.instruction);
    pack.outer.iter_mut().chain(inner).for_each(mend);
    let facts = feed::facts_of(&pack, &original::facts);
    facts.invocations.iter().map(|one| one.transfer.is_some()).collect()
}

/// All accounts are the token program, whose key is neither missing nor zero.
fn mend_keys(instruction: &mut Instruction) {
    instruction.accounts.fill(instruction.program as u8);
}

/// Data that has a tag is long enough as well.
fn mend_data(instruction: &mut Instruction) {
    mend_keys(instruction);
    let data = &mut instruction.data;
    if !data.is_empty() {
        data.resize(data.len().max(19), 0);
    }
}

/// The accounts are enough as well.
fn mend_accounts(instruction: &mut Instruction) {
    mend_data(instruction);
    let accounts = &mut instruction.accounts;
    accounts.resize(accounts.len().max(4), instruction.program as u8);
}

/// Final mints: by passes, and by the chains that reach an account; marks: by doubt that spreads.
fn mints(mints: &Mints, last: &BTreeMap<Key, Key>) -> Outcome {
    same("final mints", last, &mints.expected)?;
    hold("at most 256 passes", mints.passes <= 256)?;
    same("no pass exactly without record", mints.passes == 0, mints.recorded.is_empty())?;
    let known = mints.recorded.values().flatten().count();
    let ambiguous = mints.recorded.len() - known;
    same("room", mints.room, last.len() + ambiguous)?;
    for (account, mint) in &mints.recorded {
        same("a recorded mint stays", last.get(account), mint.as_ref())?;
    }
    for (account, starts) in &mints.reaching {
        let reached = last.get(account).is_some_and(|mint| starts.contains(mint));
        hold("filled in where a chain reaches", reached)?;
    }
    same("nothing else is filled in", last.len(), known + mints.reaching.len())?;
    let in_doubt = spread(mints, last);
    let mark = |account| match in_doubt.get(account) {
        Some(_) => 2,
        None => u8::from(!mints.recorded.contains_key(account)),
    };
    let marks = last.keys().map(|account| (*account, mark(account))).collect();
    same("marks by doubt that spreads", &mints.marks, &marks)
}

/// The accounts in doubt by what is beside them, without chains, each with how many plain transfers
/// away another final mint is: doubt arises in a filled-in account joined to another final mint, and
/// spreads to the filled-in ones joined to it.
pub fn spread(mints: &Mints, last: &BTreeMap<Key, Key>) -> BTreeMap<Key, usize> {
    let filled = |a: &Key| last.contains_key(a) && !mints.recorded.contains_key(a);
    let both_ways = mints.plain.iter().flat_map(|&(a, b)| [(a, b), (b, a)]);
    let joined: BTreeSet<(Key, Key)> = both_ways.filter(|(a, _)| filled(a)).collect();
    let beside = |found: &dyn Fn(&Key, &Key) -> bool| -> BTreeSet<Key> {
        joined.iter().filter(|(a, b)| found(a, b)).map(|(a, _)| *a).collect()
    };
    let mut in_doubt = BTreeMap::new();
    let mut found = beside(&|a, b| last.get(b).is_some_and(|mint| *mint != last[a]));
    let mut away = 0;
    while !found.is_empty() {
        away += 1;
        in_doubt.extend(found.iter().map(|account| (*account, away)));
        found = beside(&|a, b| found.contains(b) && !in_doubt.contains_key(a));
    }
    in_doubt
}
