//! Features of names, packs, answers, mints and trees.

use super::Coverage;
use crate::checks::invariants;
use crate::generate::names::{BASE_IN, BASE_OUT, BUY, REWARD, STANDARD};
use crate::generate::Case;
use crate::oracle::{Examined, Reply};
use mbelaguy::pack::{self, Pack, MAX_BYTES};
use mbelaguy::WIDTHS;
use original::facts::Key;
use original::instr::pump_amm::discriminators as pump_amm;
use std::collections::BTreeSet;

impl Coverage {
    pub fn note_room(&mut self, case: &Case, examined: &Examined) {
        let rows = case.lengths[0] / WIDTHS[0];
        let lacking = examined.facts.mints.len() <= rows && rows < examined.needs[0];
        self.note_if("room lacking for ambiguous accounts alone", lacking);
    }

    pub fn note_answer(&mut self, case: &Case, reply: &Reply) {
        let answer = &reply.answer;
        let accepted = answer.number == 0;
        self.note(&format!("answer {} {}", answer.number, answer.place));
        let keys = pack::read(&case.pack).map(|pack| pack.keys.len());
        self.note_if("257 keys refused", keys == Ok(257) && answer.number == 5);
        self.note_if("61,440 bytes accepted", accepted && case.pack.len() == MAX_BYTES);
        let long = case.pack.len() == MAX_BYTES + 1;
        self.note_if("61,441 bytes refused", long && answer.number == 2);
        let invocations = pack::read(&case.pack).map(|pack| pack.steps().len());
        self.note_if("1,025 invocations refused", invocations == Ok(1_025) && answer.number == 6);
        self.note_if("1,024 invocations accepted", accepted && answer.counts[1] == 1_024);
        self.note_if("256 keys accepted", accepted && keys == Ok(256));
        self.note_if("256 mints", answer.counts[0] == 256);
        self.note_if("1,024 transfers", answer.counts[2] == 1_024);
        self.note_if("1,024 legs", answer.counts[3] == 1_024);
        self.note_if("1,024 native actions", answer.counts[4] == 1_024);
        if accepted {
            let used = |t: usize| answer.counts[t] as usize * WIDTHS[t];
            let full = (0..5).any(|t| used(t) > 0 && used(t) == case.lengths[t]);
            self.note_if("table exactly full", full);
            let odd = (0..5).any(|t| !case.lengths[t].is_multiple_of(WIDTHS[t]));
            self.note_if("odd bytes behind the rows", odd);
        }
    }

    pub fn note_names(&mut self, case: &Case) {
        let names = &case.names[..];
        let real = names == original::names::real();
        let zero = names.iter().all(|byte| *byte == 0);
        self.note_if("names real", real);
        self.note_if("names zero", zero);
        self.note_if("names other", !real && !zero);
        let name = |at: usize| &names[at..at + 8];
        let config = |at: usize| &names[at..at + 32];
        let buy = name(BUY);
        self.note_if("names: base in = base out", !zero && name(BASE_IN) == name(BASE_OUT));
        self.note_if("names: buy = exact quote in", buy == pump_amm::BUY_EXACT_QUOTE_IN);
        self.note_if("names: buy = exact quote in v2", buy == pump_amm::BUY_EXACT_QUOTE_IN_V2);
        self.note_if("names: buy = sell", buy == pump_amm::SELL);
        self.note_if("names: buy = sell v2", buy == pump_amm::SELL_V2);
        self.note_if("names: equal configs", !zero && config(STANDARD) == config(REWARD));
        self.note_if("names: standard config zero", !zero && config(STANDARD) == [0; 32]);
        self.note_if("names: reward config zero", !zero && config(REWARD) == [0; 32]);
    }

    pub fn note_pack(&mut self, examined: &Examined) {
        let pack = &examined.pack;
        let keys = &pack.keys;
        self.note_if("no keys", keys.is_empty());
        self.note_if("zero key", keys.iter().any(|row| row.key == [0; 32]));
        self.note_if("key with flag 0", keys.iter().any(|row| !row.whole));
        let distinct: BTreeSet<_> = keys.iter().map(|row| row.key).collect();
        let rows: BTreeSet<_> = keys.iter().map(|row| (row.key, row.whole)).collect();
        self.note_if("repeated key", distinct.len() < keys.len());
        self.note_if("repeated key with the other flag", distinct.len() < rows.len());
        let near = |cut: fn(&Key) -> &[u8]| {
            distinct.iter().map(cut).collect::<BTreeSet<_>>().len() < distinct.len()
        };
        self.note_if("keys that differ in their last byte only", near(|key| &key[..31]));
        self.note_if("keys that differ in their first byte only", near(|key| &key[1..]));
        let past = |index: &u32| *index as usize >= keys.len();
        let last = pack.balances.iter().any(|balance| balance.account as usize + 1 == keys.len());
        self.note_if("balance index one below the number of keys", last);
        self.note_if("256 keys and balance index 255 accepted", last && keys.len() == 256);
        let zero_mint = pack.balances.iter().any(|balance| balance.mint == [0; 32]);
        self.note_if("balance with a zero mint", zero_mint);
        let inner = pack.groups.iter().flat_map(|group| &group.instructions);
        let instructions =
            || pack.outer.iter().chain(inner.clone().map(|inner| &inner.instruction));
        self.note_if("program index out of range", instructions().any(|one| past(&one.program)));
        self.note_if("program index past 65,535", instructions().any(|one| one.program > 65_535));
        let partial = |index: u32| keys.get(index as usize).is_some_and(|row| !row.whole);
        self.note_if("program with flag 0", instructions().any(|one| partial(one.program)));
        let mut accounts = instructions().flat_map(|one| &one.accounts);
        let stray = accounts.any(|index| past(&u32::from(*index)));
        self.note_if("account index out of range", stray);
        self.note_if("pool", !pack.pools.is_empty());
        self.note_if("zero pool", pack.pools.contains(&[0; 32]));
        let pools: BTreeSet<_> = pack.pools.iter().collect();
        self.note_if("pool twice", pools.len() < pack.pools.len());
        self.note_if("over 255 pools", pack.pools.len() > 255);
        self.note_if("over 255 balances", pack.balances.len() > 255);
        self.note_groups(pack);
    }

    fn note_groups(&mut self, pack: &Pack) {
        let groups = &pack.groups;
        let kept: Vec<_> = groups
            .iter()
            .map(|group| group.outer)
            .filter(|outer| (*outer as usize) < pack.outer.len())
            .collect();
        let distinct: BTreeSet<_> = kept.iter().collect();
        self.note_if("several groups of one outer", distinct.len() < kept.len());
        self.note_if("groups out of order", !kept.is_sorted());
        self.note_if("dropped group", kept.len() < groups.len());
        self.note_if("empty group", groups.iter().any(|group| group.instructions.is_empty()));
        self.note_if("over 1,000 groups", groups.len() > 1_000);
        self.note_if("group of an outer past 255", kept.iter().any(|outer| *outer > 255));
    }

    pub fn note_mints(&mut self, examined: &Examined) {
        let mints = &examined.mints;
        match mints.passes {
            passes @ (0..=3 | 256) => self.note(&format!("passes {passes}")),
            passes => self.note_if("passes over 20", passes > 20),
        }
        let ambiguous = mints.recorded.values().filter(|mint| mint.is_none()).count();
        self.note_if("ambiguous account", ambiguous > 0);
        let only = ambiguous > 0 && ambiguous == mints.recorded.len();
        self.note_if("only ambiguous accounts", only);
        for mark in 0..=2 {
            let occurs = mints.marks.values().any(|one| *one == mark);
            self.note_if(&format!("mark {mark}"), occurs);
        }
        let backward = |(source, destination): &(Key, Key)| {
            mints.marks.get(source).is_some_and(|mark| *mark > 0)
                && mints.recorded.get(destination).is_some_and(Option::is_some)
        };
        self.note_if(
            "filled in against the transfer's direction",
            mints.plain.iter().any(backward),
        );
        let ids = original::ids();
        let joins = |program: Key| {
            examined.facts.invocations.iter().any(|one| {
                let plain = one.program == program && one.data.first() == Some(&3);
                let transfer = one.transfer.as_ref().filter(|_| plain);
                transfer.is_some_and(|transfer| mints.marks.get(&transfer.destination) == Some(&1))
            })
        };
        self.note_if("chain over both token programs", joins(ids[0]) && joins(ids[1]));
    }

    /// How far doubt travels, and what stops it.
    pub fn note_doubt(&mut self, examined: &Examined) {
        let (mints, last) = (&examined.mints, &examined.facts.mints);
        let away = invariants::spread(mints, last).into_values().max().unwrap_or(0);
        self.note_if("mark 2 with no other final mint beside it", away > 1);
        self.note_if("mark 2 over four transfers from another mint", away > 4);
        self.note_if("mark 2 over 20 transfers from another mint", away > 20);
        for (middle, mint) in &mints.recorded {
            let kind = if mint.is_some() { "a recorded" } else { "an ambiguous" };
            let sides = || {
                let joined = mints.plain.iter().filter(|(a, b)| a == middle || b == middle);
                let side = joined.map(|(a, b)| if a == middle { b } else { a });
                side.filter_map(|side| Some((last.get(side)?, mints.marks.get(side)?)))
            };
            for (mint, _) in sides().filter(|(_, mark)| **mark == 1) {
                let other = sides().any(|(one, _)| one != mint);
                self.note_if(
                    &format!("mark 1 and another mint on two sides of {kind} account"),
                    other,
                );
                let doubt = sides().any(|(_, mark)| *mark == 2);
                self.note_if(&format!("marks 1 and 2 on two sides of {kind} account"), doubt);
            }
        }
    }

    pub fn note_trees(&mut self, examined: &Examined) {
        let invocations = &examined.facts.invocations;
        let n = invocations.len();
        self.note_if("no invocation", n == 0);
        let height = |height| invocations.iter().any(|one| one.height == height);
        self.note_if("absent height", height(None));
        self.note_if("height 0", height(Some(0)));
        self.note_if("height 4,294,967,295", height(Some(u32::MAX)));
        self.note_if("tests 2n - 3", n > 1 && examined.tests == 2 * n - 3);
        let deep = n == 1_024 && invocations.iter().all(|one| one.end == n);
        self.note_if("chain of 1,024 invocations", deep);
        for group in examined.pack.groups.iter().filter(|group| group.instructions.len() >= 4) {
            let heights: Option<Vec<u32>> =
                group.instructions.iter().map(|one| one.height).collect();
            let Some(heights) = heights else { continue };
            let steps = || heights.windows(2).map(|pair| i64::from(pair[1]) - i64::from(pair[0]));
            self.note_if("flat group", steps().all(|step| step == 0));
            self.note_if("deep group", steps().all(|step| step == 1));
            let up_and_down = |(k, step): (usize, i64)| step == if k % 2 == 0 { 1 } else { -1 };
            self.note_if("zigzag group", steps().enumerate().all(up_and_down));
        }
    }

    pub fn note_parents(&mut self, examined: &Examined) {
        let (invocations, parents) = (&examined.facts.invocations, &examined.parents);
        let named = || parents.iter().flatten();
        self.note_if("parent with a parent", named().any(|parent| parents[*parent].is_some()));
        let distinct: BTreeSet<_> = named().collect();
        self.note_if("parent of several", distinct.len() < named().count());
        let passed = |child: usize| {
            let end = invocations[child].end;
            child + 1 < end && parents[child].is_some() && parents.get(end) == parents.get(child)
        };
        self.note_if("sibling behind a child with children", (0..parents.len()).any(passed));
        // Index and height may put it below an earlier one whose block has ended.
        let by_heights =
            |i: usize| (0..i).rev().find(|k| invariants::holds(&invocations[*k], &invocations[i]));
        let other = (0..parents.len()).any(|i| by_heights(i) != parents[i]);
        self.note_if("parent that heights alone would not name", other);
        self.note_if("parent 1,023", parents.get(1_023) == Some(&Some(1_022)));
    }
}
