//! Right answers and records with one thing changed, each of which has to be noticed.

use crate::generate::{case, Case};
use crate::oracle::{fit, Reply};
use crate::stored;
use mbelaguy::WIDTHS;

/// The most bytes of a record that the program `replay` can hold.
const LONGEST: usize = 393_216;

/// The shortest of some calls whose answer has rows in all tables.
pub fn rows_in_all_tables() -> (Case, Reply) {
    let calls = (0..1_000).map(|seed| {
        let (case, examined) = case(seed);
        let reply = fit(&examined, &case.lengths);
        (case, reply)
    });
    let filled = calls.filter(|(_, reply)| reply.answer.counts.iter().all(|count| *count > 0));
    let shortest = filled.min_by_key(|(case, reply)| stored::write(case, reply).len());
    shortest.expect("some of the first packs have rows in all tables")
}

/// An answer with one of its numbers changed, or the first or the last byte of a table's rows; and
/// what differs. Each kind of difference comes once before any comes again.
pub fn answers(reply: &Reply) -> Vec<(Reply, String)> {
    let mut all = Vec::new();
    let mut add = |what: &str, damage: &dyn Fn(&mut Reply)| {
        let mut damaged = reply.clone();
        damage(&mut damaged);
        all.push((damaged, what.to_string()));
    };
    let numbers = "other numbers";
    let table = |t: usize| format!("another table {t}");
    add(numbers, &|reply| reply.answer.number ^= 1);
    for t in 0..5 {
        add(&table(t), &|reply| reply.tables[t][0] ^= 1);
    }
    add(numbers, &|reply| reply.answer.place ^= 1);
    add(numbers, &|reply| reply.answer.passes ^= 1 << 31);
    add(numbers, &|reply| reply.answer.tests ^= 256);
    for (t, width) in WIDTHS.into_iter().enumerate() {
        let last = reply.answer.counts[t] as usize * width - 1;
        add(numbers, &|reply| reply.answer.counts[t] -= 1);
        add(&table(t), &|reply| reply.tables[t][last] ^= 128);
    }
    all
}

/// Records that `replay` has to tell of, and what it says of each: those of damaged answers, and those
/// that it cannot take. The first is too long, and what follows shows where it ends; the last is cut
/// off, and nothing can follow.
pub fn records() -> Vec<(Vec<u8>, String)> {
    let (case, reply) = rows_in_all_tables();
    let right = stored::write(&case, &reply);
    let unfit = |record: Vec<u8>| (record, "cut off, or too long for this program".to_string());
    let mut all = vec![unfit(too_long(right.clone()))];
    for (damaged, what) in answers(&reply) {
        all.push((stored::write(&case, &damaged), what));
    }
    // The lengths of names, pack and tables.
    for at in (4..32).step_by(4) {
        let mut longer = right.clone();
        longer[at..at + 4].fill(255);
        all.push(unfit(longer));
    }
    all.push(unfit(right[..right.len() - 1].to_vec()));
    all
}

/// The record with zeros behind it, a byte longer than the longest.
fn too_long(mut record: Vec<u8>) -> Vec<u8> {
    let length = LONGEST + 1;
    record[..4].copy_from_slice(&(length as u32).to_le_bytes());
    record.resize(4 + length, 0);
    record
}
