//! What is shown of a pack: its sizes, the mints, and the invocations as a tree with what each did.

use mbelaguy::pack::{self, Pack};
use mbelaguy::rows::{Invocation, Leg, MintRow, Native, Transfer};
use mbelaguy::{Answer, Key, Refusal, Tables};
use std::collections::BTreeMap;

/// The tables of an accepted pack, put together.
#[derive(Clone, Debug)]
pub struct Report {
    pub bytes: usize,
    pub pack: Pack,
    pub answer: Answer,
    pub mints: Vec<MintRow>,
    /// Accounts without a mint because they were seen with two.
    pub contradicted: Vec<Key>,
    pub nodes: Vec<Node>,
}

/// An invocation in the tree.
#[derive(Clone, Debug)]
pub struct Node {
    pub invocation: Invocation,
    /// How many invocations it lies below.
    pub depth: usize,
    /// Whether another one follows below the same invocation.
    pub has_next: bool,
    pub program: Program,
    pub deeds: Vec<Deed>,
}

/// What an invocation called.
#[derive(Clone, Copy, Debug, PartialEq, Eq)]
pub enum Program {
    Key(Key),
    /// The index that names no key of 32 bytes.
    Unresolved(u32),
}

/// What an invocation did.
#[derive(Clone, Copy, Debug)]
pub enum Deed {
    Leg(Leg),
    Transfer(Transfer),
    Native(Native),
}

impl Report {
    /// The report of a pack and of the answer and tables that it led to.
    pub fn new(bytes: &[u8], answer: &Answer, tables: &Tables) -> Result<Self, Refusal> {
        if let Some(refusal) = answer.refusal() {
            return Err(refusal);
        }
        let pack = pack::read(bytes)?;
        let nodes = nodes(&pack, tables);
        Ok(Report {
            bytes: bytes.len(),
            answer: *answer,
            mints: tables.mints().collect(),
            contradicted: pack.contradicted().into_iter().collect(),
            nodes,
            pack,
        })
    }

    /// The keys that may be shown.
    pub fn keys(&self) -> impl Iterator<Item = Key> + '_ {
        let keys = self.pack.keys.iter().map(|row| row.key);
        let mints = self.pack.balances.iter().map(|row| row.mint);
        keys.chain(mints).chain(self.pack.pools.iter().copied())
    }
}

fn nodes(pack: &Pack, tables: &Tables) -> Vec<Node> {
    let mut nodes: Vec<Node> = Vec::with_capacity(tables.invocations().len());
    // The last node so far below each parent, and below none.
    let mut latest: BTreeMap<Option<usize>, usize> = BTreeMap::new();
    for ((number, invocation), step) in (0..).zip(tables.invocations()).zip(pack.steps()) {
        // A call's parents are earlier. One that is not, in rows made otherwise, counts as none.
        let parent = invocation.parent().filter(|parent| *parent < number);
        if let Some(before) = latest.insert(parent, number) {
            nodes[before].has_next = true;
        }
        let unresolved = Program::Unresolved(step.instruction.program);
        nodes.push(Node {
            invocation,
            depth: parent.map_or(0, |parent| nodes[parent].depth + 1),
            has_next: false,
            program: pack.program(step.instruction).map_or(unresolved, Program::Key),
            deeds: Vec::new(),
        });
    }
    let deeds = tables.legs().map(|leg| (leg.invocation, Deed::Leg(leg)));
    let deeds = deeds.chain(tables.transfers().map(|row| (row.invocation, Deed::Transfer(row))));
    let deeds = deeds.chain(tables.natives().map(|row| (row.invocation, Deed::Native(row))));
    for (invocation, deed) in deeds {
        if let Some(node) = nodes.get_mut(invocation as usize) {
            node.deeds.push(deed);
        }
    }
    nodes
}
