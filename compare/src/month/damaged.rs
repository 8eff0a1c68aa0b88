//! Right answers and records with one thing changed, each of which has to be noticed.

use super::generate::Month;
use super::{answered, stored, Call, Reply, ROW};

/// The most bytes of a record that the program `month_replay` can hold.
const LONGEST: usize = 196_608;

/// What the program says of a difference, and of a record that it cannot take.
const NUMBERS: &str = "other numbers";
const REPORT: &str = "another report";
const UNFIT: &str = "cut off, or too long for this program";

/// The shortest of some calls that leave rows, and a byte behind them.
pub fn rows_and_tail() -> (Call, Reply) {
    let calls = (0..500).flat_map(|seed| Month::of(seed).calls);
    let answered = calls.map(|call| {
        let reply = answered(&call);
        (call, reply)
    });
    let filled = answered.filter(|(_, Reply { answer, report })| {
        answer.number == 0 && answer.rows > 1 && report.len() > answer.rows as usize * ROW
    });
    filled.min_by_key(|(call, _)| call.report.len()).expect("some of the first months have both")
}

/// An answer with one of its numbers changed, or a byte of the report: the first, the last of the
/// rows, the last of all; and what differs.
pub fn answers(reply: &Reply) -> Vec<(Reply, &'static str)> {
    let mut all = Vec::new();
    let mut add = |what: &'static str, damage: &dyn Fn(&mut Reply)| {
        let mut damaged = reply.clone();
        damage(&mut damaged);
        all.push((damaged, what));
    };
    add(NUMBERS, &|reply| reply.answer.number = 9);
    add(NUMBERS, &|reply| reply.answer.place = 1);
    add(NUMBERS, &|reply| reply.answer.rows ^= 1 << 63);
    add(NUMBERS, &|reply| reply.answer.fed ^= 1);
    let used = reply.answer.rows as usize * ROW;
    for at in [0, used - 1, reply.report.len() - 1] {
        add(REPORT, &|reply| reply.report[at] ^= 128);
    }
    all
}

/// Records that `month_replay` has to tell of, and what it says of each. The last is cut off, and
/// nothing can follow.
pub fn records() -> Vec<(Vec<u8>, &'static str)> {
    let (call, reply) = rows_and_tail();
    let right = stored::write(&call, &reply);
    let mut all: Vec<(Vec<u8>, &'static str)> = answers(&reply)
        .into_iter()
        .map(|(damaged, what)| (stored::write(&call, &damaged), what))
        .collect();
    let mut shorter = right[..right.len() - 1].to_vec();
    shorter[..4].copy_from_slice(&(right.len() as u32 - 5).to_le_bytes());
    all.push((shorter, REPORT));
    // The lengths of the buffer and of the table.
    for at in [4, 8] {
        let mut longer = right.clone();
        longer[at..at + 4].fill(255);
        all.push((longer, UNFIT));
    }
    // The program reads no more of one that is too long than its length.
    all.push(((LONGEST as u32 + 1).to_le_bytes().to_vec(), UNFIT));
    all.push((right[..right.len() - 1].to_vec(), UNFIT));
    all
}
