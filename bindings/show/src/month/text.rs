//! The month as plain text.

use super::{Cell, Columns, Ledger, NOTE, UNKNOWN};
use crate::keys::Texts;
use crate::words::grouped;
use crate::Keys;

/// The month as lines of text.
pub fn text(ledger: &Ledger, keys: Keys) -> String {
    let texts = ledger.texts(keys);
    let [packs, counts @ ..] = ledger.counts();
    let mut lines = vec![format!("month of {packs}: {}", counts.join(", "))];
    lines.extend(ledger.missing());
    lines.push(NOTE.to_string());
    for columns in ledger.columns() {
        lines.extend([String::new(), columns.title.to_string()]);
        lines.extend(aligned(&columns, &texts));
    }
    lines.iter().map(|line| format!("{}\n", line.trim_end())).collect()
}

/// Rows below their headings, numbers to the right; a word where there are none.
fn aligned(columns: &Columns, texts: &Texts) -> Vec<String> {
    let Some(first) = columns.rows.first() else { return vec!["  none".to_string()] };
    let headings = columns.headings.iter().map(|heading| heading.to_string()).collect();
    let row = |row: &Vec<Cell>| row.iter().map(|cell| self::cell(cell, texts)).collect();
    let mut rows: Vec<Vec<String>> = vec![headings];
    rows.extend(columns.rows.iter().chain(&columns.foot).map(row));
    let width = |k: usize| rows.iter().map(|row| row[k].len()).max().unwrap_or(0);
    let widths: Vec<_> = (0..first.len()).map(width).collect();
    let line = |row: &Vec<String>| {
        let cells = first.iter().zip(row).zip(&widths).map(|((kind, text), width)| match kind {
            Cell::Number(_) => format!("  {text:>width$}"),
            _ => format!("  {text:width$}"),
        });
        cells.collect()
    };
    rows.iter().map(line).collect()
}

fn cell(cell: &Cell, texts: &Texts) -> String {
    match cell {
        Cell::Mint(None) => UNKNOWN.to_string(),
        Cell::Mint(Some(key)) | Cell::Account(key) => texts.get(key),
        Cell::Number(number) => grouped(*number),
        Cell::Marks(ways) => ways.words().map(|(_, words)| words).collect::<Vec<_>>().join(", "),
        Cell::Words(words) => words.to_string(),
    }
}
