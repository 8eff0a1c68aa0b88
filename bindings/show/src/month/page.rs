//! The month as one HTML page, in the manner of a pack's.

use super::{Cell, Columns, Ledger, NOTE, UNKNOWN};
use crate::page::{escaped, filled, known, sheet, Page};
use crate::words::grouped;
use crate::Keys;

const STYLE: &str = include_str!("month.css");

/// The page of a month.
pub fn page(title: &str, ledger: &Ledger, keys: Keys) -> String {
    let mut page = Page::new(ledger.texts(keys));
    let counts: String = ledger.counts().iter().map(|count| format!("<li>{count}</li>")).collect();
    let tables: String = ledger.columns().iter().map(|columns| page.columns(columns)).collect();
    let body = format!(
        "<ul class=\"counts\">{counts}</ul>\n{}<p class=\"pack\">{NOTE}</p>\n\
         <main>\n{tables}{}</main>\n",
        left_out(ledger),
        page.keys_in_full()
    );
    sheet(title, STYLE, &body)
}

/// The files that are not counted, each with the reason.
fn left_out(ledger: &Ledger) -> String {
    let Some(missing) = ledger.missing() else { return String::new() };
    let mut html = format!("<div class=\"refusal\"><p>{missing}</p>\n<ul>\n");
    for left in &ledger.left_out {
        html += &format!("<li>{}: {}</li>\n", escaped(&left.file), escaped(&left.why));
    }
    html + "</ul></div>\n"
}

impl Page {
    fn columns(&mut self, columns: &Columns) -> String {
        // A heading stands as the cells below it do.
        let headings = columns.headings.iter().zip(columns.rows.iter().flatten());
        let headings = headings.map(|(name, below)| format!("<th{}>{name}</th>", class(below)));
        let headings: String = headings.collect();
        let rows: String = columns.rows.iter().map(|row| self.row(row)).collect();
        let foot = columns.foot.iter().map(|row| format!("<tfoot>\n{}</tfoot>\n", self.row(row)));
        let table = format!(
            "<div class=\"wide\"><table>\n<thead><tr>{headings}</tr></thead>\n\
             <tbody>\n{rows}</tbody>\n{}</table></div>",
            foot.collect::<String>()
        );
        let table = filled(&rows, &table);
        format!("<section>\n<h2>{}</h2>\n{table}\n</section>\n", columns.title)
    }

    fn row(&mut self, cells: &[Cell]) -> String {
        let cells: String = cells.iter().map(|cell| self.cell(cell)).collect();
        format!("<tr>{cells}</tr>\n")
    }

    fn cell(&mut self, cell: &Cell) -> String {
        let shown = match cell {
            Cell::Mint(None) => format!("<span class=\"none\">{UNKNOWN}</span>"),
            Cell::Mint(Some(key)) | Cell::Account(key) => self.key(key),
            Cell::Number(number) => grouped(*number),
            Cell::Marks(ways) => {
                let marks = ways.words().map(|(way, words)| known(&way, &words));
                marks.collect::<Vec<_>>().join(" ")
            }
            Cell::Words(words) => words.to_string(),
        };
        format!("<td{}>{shown}</td>", class(cell))
    }
}

fn class(cell: &Cell) -> &'static str {
    match cell {
        Cell::Number(_) => " class=\"sum\"",
        _ => "",
    }
}
