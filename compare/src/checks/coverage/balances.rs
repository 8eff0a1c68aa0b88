//! Features of packs with balance rows that name no key: which of two refusals is given, the first of the
//! two; and of refusal 11 what the row is like, where there is only one such.

use super::Coverage;
use crate::generate::Case;
use crate::oracle::{reply, Reply};
use mbelaguy::pack::{self, BALANCE_ROW, KEY_ROW, TRAILER};

/// Those that must occur.
pub const REQUIRED: &[&str] = &[
    "1 0 and 11",
    "2 0 and 11",
    "3 0 and 11",
    "4 0 and 11",
    "4 1 and 11",
    "4 2 and 11",
    "4 3 and 11",
    "4 4 and 11",
    "5 0 and 11",
    "11 and 6",
    "11 and 8",
    "11 alone",
    "11: no keys",
    "11: an index equal to the number of keys",
    "11: an index one above the number of keys",
    "11: index 255",
    "11: index 256, with 256 keys",
    "11: an index 256 above a key's",
    "11: an index 65,536 above a key's",
    "11: index 4,294,967,295",
    "11: a zero mint",
    "11: the only row",
    "11: the first of several rows",
    "11: the last of several rows",
    "11: a row between others",
    "11: every one of several rows",
];

impl Coverage {
    pub fn note_balances(&mut self, case: &Case, reply: &Reply) {
        let Some((keys, rows)) = by_starts(&case.pack) else { return };
        let strays: Vec<_> = (0..rows.len()).filter(|at| number(rows[*at], 0) >= keys).collect();
        if strays.is_empty() {
            return;
        }
        let answer = &reply.answer;
        if answer.number != 11 {
            return self.note(&format!("{} {} and 11", answer.number, answer.place));
        }
        match without(case) {
            0 => self.note("11 alone"),
            number => self.note(&format!("11 and {number}")),
        }
        self.note_if("11: no keys", keys == 0);
        let all = rows.len() > 1 && strays.len() == rows.len();
        self.note_if("11: every one of several rows", all);
        if let [only] = strays[..] {
            self.note_only(keys, &rows, only);
        }
    }

    /// The only row that names no key, by its place among all rows.
    fn note_only(&mut self, keys: usize, rows: &[&[u8]], at: usize) {
        let (index, mint) = (number(rows[at], 0), &rows[at][4..]);
        let above = |more: usize| index.checked_sub(more).is_some_and(|cut| cut < keys);
        self.note_if("11: an index equal to the number of keys", index == keys);
        self.note_if("11: an index one above the number of keys", index == keys + 1);
        self.note_if("11: index 255", index == 255);
        self.note_if("11: index 256, with 256 keys", index == 256 && keys == 256);
        self.note_if("11: an index 256 above a key's", above(256));
        self.note_if("11: an index 65,536 above a key's", above(65_536));
        self.note_if("11: index 4,294,967,295", index == 4_294_967_295);
        self.note_if("11: a zero mint", mint == [0; 32]);
        self.note(match (at, rows.len() - 1 - at) {
            (0, 0) => "11: the only row",
            (0, _) => "11: the first of several rows",
            (_, 0) => "11: the last of several rows",
            _ => "11: a row between others",
        });
    }
}

/// The number of keys and the whole balance rows, by where the trailer has their sections start,
/// whatever else is wrong with the pack.
fn by_starts(pack: &[u8]) -> Option<(usize, Vec<&[u8]>)> {
    let (body, trailer) = pack.split_at(pack.len().checked_sub(TRAILER)?);
    let (start, end) = (number(trailer, 4), number(trailer, 8));
    Some((start / KEY_ROW, body.get(start..end)?.chunks_exact(BALANCE_ROW).collect()))
}

fn number(bytes: &[u8], at: usize) -> usize {
    u32::from_le_bytes(bytes[at..at + 4].try_into().expect("four bytes")) as usize
}

/// The number of the answer, were the rows that name no key not there.
fn without(case: &Case) -> u32 {
    let mut pack = pack::read(&case.pack).expect("a pack that is refused with 11 can be read");
    let keys = pack.keys.len();
    pack.balances.retain(|balance| (balance.account as usize) < keys);
    let bytes = pack.write().expect("its rows name keys");
    reply(&case.names, &bytes, &case.lengths).answer.number
}
