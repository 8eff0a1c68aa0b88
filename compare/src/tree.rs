//! The tree that the program `tree` prints, by the parents of the oracle's rows.

use crate::listing::call;
use crate::oracle::Reply;
use mbelaguy::WIDTHS;
use std::fmt::Write;

/// What `tree` prints for its standard input: 88 bytes of names, then a pack.
pub fn tree(input: &[u8]) -> String {
    let Reply { answer, tables } = call(input);
    if answer.number != 0 {
        return format!("refused {} {}\n", answer.number, answer.place);
    }
    let rows: Vec<&[u8]> =
        tables[1].chunks_exact(WIDTHS[1]).take(answer.counts[1] as usize).collect();
    let number = |row: &[u8], at: usize| {
        u32::from_le_bytes(row[at..at + 4].try_into().expect("four bytes")) as usize
    };
    let mut children = vec![Vec::new(); rows.len()];
    for (i, row) in rows.iter().enumerate() {
        if let Some(parent) = number(row, 23).checked_sub(1) {
            children[parent].push(i);
        }
    }
    let mut text = format!("ok {}\n", rows.len());
    for (row, children) in rows.iter().zip(&children) {
        write!(text, "{} {} {}", number(row, 14), row[18] % 4, children.len())
            .expect("a string takes every line");
        for child in children {
            write!(text, " {child}").expect("a string takes every number");
        }
        text.push('\n');
    }
    text
}
