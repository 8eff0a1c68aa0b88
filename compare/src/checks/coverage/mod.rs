//! What occurs among generated packs. Each feature has a name and is counted; the list of features
//! that must occur stands here, the code that notes them in `packs` and `invocations`; of reasons both
//! stand in `reasons`, of balance rows that name no key in `balances`.

mod balances;
mod invocations;
mod packs;
mod reasons;

use crate::generate::swaps::{Form, FORMS};
use crate::generate::{case, Case};
use crate::oracle::{fit, Examined, Reply};
use mbelaguy::Refusal;
use std::collections::BTreeMap;
use std::ops::Range;

/// How often each feature occurs.
struct Coverage(BTreeMap<String, usize>);

/// Counts the features that must occur over the packs of some seeds.
pub fn count(seeds: Range<u64>) -> BTreeMap<String, usize> {
    let mut coverage = Coverage::new();
    for seed in seeds {
        let (case, examined) = case(seed);
        let reply = fit(&examined, &case.lengths);
        coverage.note_call(&case, &examined, &reply);
    }
    coverage.0
}

/// The features that must occur and that one call shows.
pub fn shown(case: &Case, examined: &Result<Examined, Refusal>, reply: &Reply) -> Vec<String> {
    let mut coverage = Coverage::new();
    coverage.note_call(case, examined, reply);
    coverage.0.into_iter().filter(|(_, count)| *count > 0).map(|(name, _)| name).collect()
}

/// Token forms: tag, least or exact data, least accounts.
const TOKEN_FORMS: [(u8, usize, usize); 8] = [
    (1, 1, 2),
    (3, 9, 3),
    (9, 1, 3),
    (12, 10, 4),
    (16, 33, 2),
    (17, 1, 1),
    (18, 33, 2),
    (26, 19, 4),
];

/// Features named one by one; the others come in series.
const SINGLE: &[&str] = &[
    "table exactly full",
    "odd bytes behind the rows",
    "names real",
    "names zero",
    "names other",
    "names: base in = base out",
    "names: buy = exact quote in",
    "names: buy = exact quote in v2",
    "names: buy = sell",
    "names: buy = sell v2",
    "names: equal configs",
    "names: standard config zero",
    "names: reward config zero",
    "no keys",
    "zero key",
    "repeated key",
    "repeated key with the other flag",
    "keys that differ in their last byte only",
    "keys that differ in their first byte only",
    "key with flag 0",
    "balance index one below the number of keys",
    "balance with a zero mint",
    "program index out of range",
    "program index past 65,535",
    "program with flag 0",
    "System program",
    "account index out of range",
    "pool",
    "zero pool",
    "pool twice",
    "over 255 pools",
    "over 255 balances",
    "256 keys accepted",
    "256 keys and balance index 255 accepted",
    "257 keys refused",
    "1,024 invocations accepted",
    "1,024 transfers",
    "1,024 legs",
    "1,024 native actions",
    "256 mints",
    "1,025 invocations refused",
    "61,440 bytes accepted",
    "61,441 bytes refused",
    "no invocation",
    "ambiguous account",
    "only ambiguous accounts",
    "room lacking for ambiguous accounts alone",
    "filled in against the transfer's direction",
    "chain over both token programs",
    "mark 0",
    "mark 1",
    "mark 2",
    "mark 2 with no other final mint beside it",
    "mark 2 over four transfers from another mint",
    "mark 2 over 20 transfers from another mint",
    "mark 1 and another mint on two sides of a recorded account",
    "mark 1 and another mint on two sides of an ambiguous account",
    "marks 1 and 2 on two sides of a recorded account",
    "marks 1 and 2 on two sides of an ambiguous account",
    "passes 0",
    "passes 1",
    "passes 2",
    "passes 3",
    "passes over 20",
    "passes 256",
    "absent height",
    "height 0",
    "height 4,294,967,295",
    "flat group",
    "deep group",
    "zigzag group",
    "chain of 1,024 invocations",
    "parent with a parent",
    "parent of several",
    "sibling behind a child with children",
    "parent that heights alone would not name",
    "parent 1,023",
    "several groups of one outer",
    "groups out of order",
    "dropped group",
    "empty group",
    "over 1,000 groups",
    "group of an outer past 255",
    "tests 2n - 3",
    "fund",
    "sync",
    "close",
    "native action on a filled-in account",
    "sync stopped by an account out of range",
    "plain transfer of SPL Token",
    "plain transfer of Token-2022",
    "checked transfer of SPL Token",
    "checked transfer of Token-2022",
    "with-fee transfer",
    "transfer with a mint",
    "transfer without a mint",
    "transfer to the same account",
    "tag 26 with second byte 0",
    "tag 26 with second byte 2",
    "System transfer of 11 bytes",
    "System transfer of 12 bytes",
    "System transfer of 13 bytes",
    "System transfer of 268 bytes",
    "leg mode 1",
    "leg mode 2",
    "graduated",
    "graduated zero pool",
    "leg with equal token accounts",
    "leg with a zero pool",
    "leg for a sell with byte 24 over 1",
    "no leg for a buy with byte 24 over 1",
    "PumpFun with wrapped SOL as quote",
    "slices with a leg",
    "slices without a leg",
    "CLMM byte 40 over 1",
    "Orca byte 40 over 1",
    "Orca byte 41 over 1",
];

/// All features that must occur.
fn required() -> Vec<String> {
    let single = SINGLE.iter().chain(balances::REQUIRED);
    let mut names: Vec<String> = single.map(|name| name.to_string()).collect();
    for refusal in ["0 0", "1 0", "2 0", "3 0", "5 0", "11 1", "6 0"] {
        names.push(format!("answer {refusal}"));
    }
    for place in 0..5 {
        names.push(format!("answer 4 {place}"));
        names.push(format!("answer 8 {place}"));
    }
    for (tag, length, accounts) in TOKEN_FORMS {
        for near in [length - 1, length, length + 1, length + 256] {
            if near > 0 {
                names.push(format!("tag {tag} with {near} bytes"));
            }
        }
        for near in accounts - 1..=accounts + 1 {
            names.push(format!("tag {tag} with {near} accounts"));
        }
    }
    for form in FORMS.iter() {
        names.push(form_feature(form, "one account below its floor"));
        names.push(form_feature(form, "one byte short"));
        if !form.is_price_impact() {
            names.push(form_feature(form, "at its floor: leg"));
            names.push(form_feature(form, "least data: leg"));
            names.push(form_feature(form, "256 accounts above its floor: leg"));
        }
    }
    for accounts in [16, 17, 18, 20, 21] {
        names.push(format!("PumpSwap with {accounts} accounts"));
    }
    for protocol in 1..=8 {
        for input in [false, true] {
            names.push(format!("protocol {protocol}, input mint {input}"));
            names.push(format!("protocol {protocol}, output mint {input}"));
            names.push(format!("protocol {protocol}, exact in {input}"));
        }
    }
    names.extend(reasons::required());
    names
}

fn form_feature(form: &Form, what: &str) -> String {
    format!("{}, {what}", form.name)
}

impl Coverage {
    fn new() -> Self {
        Coverage(required().into_iter().map(|name| (name, 0)).collect())
    }

    /// A call that is refused shows its refusal and balance rows that name no key: what else its pack
    /// holds leaves nothing in the tables.
    fn note_call(&mut self, case: &Case, examined: &Result<Examined, Refusal>, reply: &Reply) {
        self.note_answer(case, reply);
        self.note_balances(case, reply);
        let Ok(examined) = examined else { return };
        self.note_room(case, examined);
        if reply.answer.number != 0 {
            return;
        }
        self.note_names(case);
        self.note_pack(examined);
        self.note_mints(examined);
        self.note_doubt(examined);
        self.note_trees(examined);
        self.note_parents(examined);
        self.note_reasons(examined);
        for invocation in &examined.facts.invocations {
            self.note_token(invocation);
            self.note_swap(case, examined, invocation);
            self.note_native(examined, invocation);
        }
    }

    /// Counts one more, if the feature is one of those that must occur.
    fn note(&mut self, name: &str) {
        if let Some(count) = self.0.get_mut(name) {
            *count += 1;
        }
    }

    fn note_if(&mut self, name: &str, occurs: bool) {
        if occurs {
            self.note(name);
        }
    }
}
