//! Features of reasons: each of them under each program and tag, what else is wrong behind the first test
//! that fails, and each key that is zero or missing.

use super::Coverage;
use crate::oracle::Examined;
use mbelaguy::pack::{Instruction, KeyRow};

/// Tags of transfers, their least data, and what the accounts are that they need.
const TRANSFERS: [(u8, usize, &[&str]); 3] = [
    (3, 9, &["source", "destination", AUTHORITY]),
    (12, 10, &["source", "mint", "destination", AUTHORITY]),
    (26, 19, &["source", "mint", "destination", AUTHORITY]),
];

/// The account whose key is not looked at.
const AUTHORITY: &str = "authority";

/// What an instruction can be under; also a key with flag 0 that is no token program's.
const SPL_TOKEN: &str = "SPL Token";
const TOKEN_2022: &str = "Token-2022";
const ANOTHER: &str = "another program";
const PARTIAL: &str = "a token program's key with flag 0";
const OUT_OF_RANGE: &str = "an index out of range";

/// Those that must occur.
pub fn required() -> Vec<String> {
    let mut names: Vec<String> = [
        "tag 26 alone",
        "tag 26 with another second byte, all else right",
        "unsupported tag 26 and too few accounts",
        "unsupported tag 26 and short data",
        "unsupported tag 26 and a zero key",
        "transfer over a key with flag 0",
    ]
    .map(String::from)
    .to_vec();
    names.push(all_else_right(26, SPL_TOKEN));
    names.extend([SPL_TOKEN, TOKEN_2022].map(no_data));
    for (tag, _, roles) in TRANSFERS {
        names.extend([ANOTHER, PARTIAL, OUT_OF_RANGE].map(|program| all_else_right(tag, program)));
        for program in [SPL_TOKEN, TOKEN_2022] {
            if (tag, program) != (26, SPL_TOKEN) {
                names.extend((3..=5).map(|reason| reason_of(tag, program, reason)));
            }
        }
        names.extend(TWO_FAULTS.map(|faults| format!("tag {tag}: {faults}")));
        for role in roles {
            names.extend(["zero", "missing"].map(|fault| one_fault(tag, fault, role)));
        }
    }
    names
}

const TWO_FAULTS: [&str; 3] = [
    "too few accounts and short data",
    "too few accounts and a zero key",
    "short data and a zero key",
];

fn all_else_right(tag: u8, program: &str) -> String {
    format!("tag {tag} under {program}, all else right")
}

fn no_data(program: &str) -> String {
    format!("no data under {program}")
}

fn reason_of(tag: u8, program: &str, reason: u8) -> String {
    format!("tag {tag} under {program}: reason {reason}")
}

fn one_fault(tag: u8, fault: &str, role: &str) -> String {
    format!("tag {tag}: {fault} {role}, all else right")
}

fn program_of(row: Option<&KeyRow>) -> &'static str {
    let [spl_token, token_2022, ..] = original::ids();
    let Some(KeyRow { whole, key }) = row else {
        return OUT_OF_RANGE;
    };
    match (whole, *key == spl_token, *key == token_2022) {
        (true, true, _) => SPL_TOKEN,
        (true, _, true) => TOKEN_2022,
        (true, ..) => ANOTHER,
        (false, false, false) => "another key with flag 0",
        (false, ..) => PARTIAL,
    }
}

impl Coverage {
    pub fn note_reasons(&mut self, examined: &Examined) {
        for (step, reason) in examined.pack.steps().iter().zip(&examined.reasons) {
            self.note_reason(&examined.pack.keys, step.instruction, *reason);
        }
    }

    fn note_reason(&mut self, keys: &[KeyRow], instruction: &Instruction, reason: u8) {
        let Instruction { program, accounts, data } = instruction;
        let program = program_of(keys.get(*program as usize));
        let Some(tag) = data.first() else {
            return self.note(&no_data(program));
        };
        let Some((tag, least, roles)) = TRANSFERS.into_iter().find(|one| one.0 == *tag) else {
            return;
        };
        let rows =
            || roles.iter().zip(accounts).map(|(role, at)| (role, keys.get(usize::from(*at))));
        let faults: Vec<_> = rows()
            .filter_map(|(role, row)| match row {
                None => Some(("missing", role)),
                Some(row) => (row.key == [0; 32]).then_some(("zero", role)),
            })
            .collect();
        let few = accounts.len() < roles.len();
        let short = data.len() < least;
        let zero = faults.iter().any(|(_, role)| **role != AUTHORITY);
        let begun = tag != 26 || data.get(1) == Some(&1);
        let two = [few && short, few && zero, !few && short && zero];
        let whole = !few && !short;
        match reason {
            1 => self.note_if(&all_else_right(tag, program), whole && begun && faults.is_empty()),
            2 => {
                let right = whole && faults.is_empty();
                self.note_if(&all_else_right(tag, program), right && begun);
                self.note_if("tag 26 with another second byte, all else right", right && !begun);
                self.note_if("tag 26 alone", program == TOKEN_2022 && data.len() == 1);
                self.note_if("unsupported tag 26 and too few accounts", few);
                self.note_if("unsupported tag 26 and short data", short);
                self.note_if("unsupported tag 26 and a zero key", zero);
            }
            _ => {
                self.note(&reason_of(tag, program, reason));
                for (faults, occur) in TWO_FAULTS.iter().zip(two) {
                    self.note_if(&format!("tag {tag}: {faults}"), occur);
                }
                if let (true, [(fault, role)]) = (whole, &faults[..]) {
                    self.note(&one_fault(tag, fault, role));
                }
                let partial = |(role, row): (&&str, Option<&KeyRow>)| {
                    *role != AUTHORITY && row.is_some_and(|row| !row.whole)
                };
                let over = reason == 0 && rows().any(partial);
                self.note_if("transfer over a key with flag 0", over);
            }
        }
    }
}
