//! The typed rows of the bindings, read out of the oracle's tables, against the original's facts. That
//! evidence contradicts itself the bindings find out from the pack, the oracle by what it recorded.

use super::{hold, same, Outcome};
use crate::oracle::mints::Mints;
use crate::oracle::{Examined, Reply};
use mbelaguy::rows::{
    Action, Invocation, Lack, Leg, Mark, Mint, MintRow, Native, Reason, Transfer,
};
use mbelaguy::{Key, Tables};
use original::facts;

/// Each row says what the original found, and there are no others.
pub fn agree(examined: &Examined, reply: &Reply, pack: &[u8]) -> Outcome {
    let tables =
        Tables::read(&reply.answer, reply.tables.clone(), pack).map_err(|bad| bad.to_string())?;
    let facts = &examined.facts;
    let known = Known(&examined.mints);
    let ambiguous = examined.mints.recorded.iter().filter(|(_, mint)| mint.is_none());
    let contradicted = examined.pack.contradicted();
    hold("contradicted", contradicted.iter().eq(ambiguous.map(|(account, _)| account)))?;
    let mints = facts.mints.iter().map(|(account, mint)| (*account, *mint));
    hold("mints", tables.mints().map(|MintRow { account, mint, .. }| (account, mint)).eq(mints))?;
    let marks = examined.mints.marks.values().copied();
    hold("marks", tables.mints().map(|row| row.mark as u8).eq(marks))?;
    let mut transfers = tables.transfers();
    let mut legs = tables.legs();
    let mut natives = tables.natives();
    same("invocations", tables.invocations().len(), facts.invocations.len())?;
    for ((number, row), invocation) in (0..).zip(tables.invocations()).zip(&facts.invocations) {
        let parent = examined.parents[number as usize];
        let reason = examined.reasons[number as usize];
        same("reason", row.reason.map_or(0, Reason::number), reason)?;
        same("invocation", row, invocation_row(invocation, parent, row.reason))?;
        if let Some(transfer) = &invocation.transfer {
            same("transfer", transfers.next(), Some(transfer_row(number, transfer, known)))?;
        }
        if let Some(leg) = invocation.leg {
            let found = legs.next();
            same("protocol", found.map(|leg| leg.protocol as u8), Some(facts.legs[leg].protocol))?;
            let mode = found.and_then(|leg| leg.mode).map_or(0, |mode| mode as u8);
            same("mode", mode, facts.legs[leg].mode)?;
            let expected = found.map(|found| leg_row(number, &facts.legs[leg], found, known));
            same("leg", found, expected)?;
        }
        if let Some(native) = &invocation.native {
            same("native action", natives.next(), Some(native_row(number, native, known)))?;
        }
    }
    same("rows left", (transfers.len(), legs.len(), natives.len()), (0, 0, 0))
}

/// The reason is compared by its number and taken from what was read.
fn invocation_row(
    invocation: &facts::Invocation,
    parent: Option<usize>,
    reason: Option<Reason>,
) -> Invocation {
    Invocation {
        outer: invocation.outer,
        inner: invocation.inner,
        height: invocation.height,
        end: invocation.end as u32,
        transfers_inside: invocation.transfers_inside,
        swaps_inside: invocation.swaps_inside,
        skipped: invocation.skip_route,
        resolved: invocation.resolved,
        own_transfer: invocation.transfer.is_some(),
        leg: invocation.leg.map(|leg| leg as u32),
        parent: parent.map(|parent| parent as u32),
        reason,
    }
}

/// How the mints of accounts are known to the oracle.
#[derive(Clone, Copy)]
struct Known<'a>(&'a Mints);

impl Known<'_> {
    fn mark(self, account: &Key) -> Option<Mark> {
        self.0.marks.get(account).map(|mark| Mark::ALL[usize::from(*mark)])
    }

    /// What a row has beside the mint that the original found.
    fn mint(self, account: &Key, found: Option<Key>) -> Mint {
        let lack = match self.0.recorded.get(account) {
            Some(None) => Lack::Contradictory,
            _ => Lack::NoEvidence,
        };
        match (found, self.mark(account)) {
            (Some(key), Some(mark)) => Mint::Marked { key, mark },
            (Some(key), None) => Mint::Named { key, lack },
            (None, _) => Mint::Unknown(lack),
        }
    }
}

fn transfer_row(invocation: u32, transfer: &facts::Transfer, known: Known<'_>) -> Transfer {
    Transfer {
        invocation,
        program: transfer.program,
        source: transfer.source,
        destination: transfer.destination,
        mint: known.mint(&transfer.source, transfer.mint),
        amount: transfer.amount,
        fee: transfer.fee,
    }
}

/// Protocol and mode are compared by their numbers and taken from what was read.
fn leg_row(
    invocation: u32,
    leg: &facts::Leg,
    Leg { protocol, mode, .. }: Leg,
    known: Known<'_>,
) -> Leg {
    Leg {
        invocation,
        protocol,
        program: leg.program,
        pool: leg.pool,
        trader: leg.trader,
        input: leg.input,
        output: leg.output,
        input_mint: known.mint(&leg.input, leg.input_mint),
        output_mint: known.mint(&leg.output, leg.output_mint),
        exact_in: leg.exact_in,
        amount: leg.amount,
        threshold: leg.threshold,
        mode,
        graduated: leg.graduated,
    }
}

fn native_row(invocation: u32, native: &facts::Native, known: Known<'_>) -> Native {
    let action = match native.action {
        facts::Action::Fund { source, lamports } => Action::Fund { source, lamports },
        facts::Action::Sync => Action::Sync,
        facts::Action::Close { destination, authority } => Action::Close { destination, authority },
    };
    let mark = known.mark(&native.account).expect("wrapped SOL accounts have a mint");
    Native { invocation, account: native.account, mark, action }
}
