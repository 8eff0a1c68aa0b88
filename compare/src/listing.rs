//! The listing that the program `routes` prints.

use crate::oracle::{reply, Reply};
use mbelaguy::WIDTHS;
use std::fmt::Write;

/// Rows that `routes` and `tree` lend in tables 0 to 4.
pub const ROOM: [usize; 5] = [256, 1_024, 400, 250, 500];

/// What their standard input, 88 bytes of names and then a pack, is answered.
pub fn call(input: &[u8]) -> Reply {
    let (names, pack) = input.split_at(input.len().min(88));
    let lengths = std::array::from_fn(|t| ROOM[t] * WIDTHS[t]);
    reply(names, pack, &lengths)
}

/// What `routes` prints for its standard input.
pub fn listing(input: &[u8]) -> String {
    let Reply { answer, tables } = call(input);
    if answer.number != 0 {
        return format!("refused {} {}\n", answer.number, answer.place);
    }
    let counts = answer.counts.map(|count| count.to_string()).join(" ");
    let mut text = format!("ok {counts} passes {} tests {}\n", answer.passes, answer.tests);
    for row in tables[1].chunks_exact(WIDTHS[1]).take(answer.counts[1] as usize) {
        let number =
            |at: usize| u32::from_le_bytes(row[at..at + 4].try_into().expect("four bytes"));
        let optional = |flag: usize| match row[flag] {
            0 => "-".to_string(),
            _ => number(flag + 1).to_string(),
        };
        let (inner, height) = (optional(4), optional(9));
        let (outer, end, parent) = (number(0), number(14), number(23));
        let (bits, reason) = (row[18], row[27]);
        writeln!(text, "{outer} {inner} {height} {end} {bits} {parent} {reason}")
            .expect("a string takes every line");
    }
    text
}
