//! The report as plain text.

use crate::keys::Texts;
use crate::report::{Node, Report};
use crate::words::{self, Part};
use crate::Keys;

/// Levels of the tree that are drawn; what lies deeper stands below the last one with its depth.
const DRAWN: usize = 12;

/// The report as lines of text.
pub fn text(report: &Report, keys: Keys) -> String {
    let texts = Texts::of(report.keys(), keys);
    let mut lines = vec![words::pack(report), words::counts(report).join(", ")];
    lines.extend([String::new(), "Mints".to_string()]);
    lines.extend(mints(report, &texts));
    lines.extend(words::doubt(report).map(|note| format!("  {note}")));
    lines.extend([String::new(), "Invocations".to_string()]);
    lines.extend(tree(&report.nodes, &texts));
    lines.iter().map(|line| format!("{}\n", line.trim_end())).collect()
}

fn mints(report: &Report, texts: &Texts) -> Vec<String> {
    let rows: Vec<_> = words::mints(report)
        .into_iter()
        .map(|(account, mint)| {
            (texts.get(&account), texts.get(&mint.key().unwrap_or_default()), mint)
        })
        .collect();
    if rows.is_empty() {
        return vec!["  none".to_string()];
    }
    let account = rows.iter().map(|row| row.0.len()).max().unwrap_or(0);
    let mint = rows.iter().map(|row| row.1.len()).max().unwrap_or(0);
    let line = |(a, m, known)| format!("  {a:account$}  {m:mint$}  {known}");
    rows.into_iter().map(line).collect()
}

fn tree(nodes: &[Node], texts: &Texts) -> Vec<String> {
    if nodes.is_empty() {
        return vec!["  none".to_string()];
    }
    let width = (nodes.len() - 1).to_string().len();
    // For each level above the current node, whether its line goes on.
    let mut going_on: Vec<bool> = Vec::new();
    let mut lines = Vec::new();
    for (number, node) in nodes.iter().enumerate() {
        going_on.truncate(node.depth);
        let guides: String = going_on.iter().skip(1).take(DRAWN).map(|on| guide(*on)).collect();
        let branch = match (node.depth, node.has_next) {
            (0, _) => "",
            (_, true) => "├─ ",
            (_, false) => "└─ ",
        };
        let depth = match node.depth {
            ..=DRAWN => String::new(),
            depth => format!("(depth {depth}) "),
        };
        let program = phrase(&[words::program(node)], texts);
        let mut about = vec![words::position(&node.invocation)];
        about.extend(words::notes(&node.invocation));
        let about = about.join(", ");
        lines.push(format!("  {number:width$}  {guides}{branch}{depth}{program}  [{about}]"));
        going_on.push(node.has_next);
        let holds = nodes.get(number + 1).is_some_and(|next| next.depth > node.depth);
        let below: String = going_on.iter().skip(1).take(DRAWN).map(|on| guide(*on)).collect();
        let stem = guide(holds);
        for deed in &node.deeds {
            for line in words::deed(deed) {
                lines.push(format!("  {:width$}  {below}{stem}  {}", "", phrase(&line, texts)));
            }
        }
    }
    lines
}

fn guide(goes_on: bool) -> &'static str {
    if goes_on {
        "│  "
    } else {
        "   "
    }
}

fn phrase(parts: &[Part], texts: &Texts) -> String {
    let part = |part: &Part| match part {
        Part::Words(words) | Part::Title(words) => words.clone(),
        Part::Key(key) => texts.get(key),
        Part::Known(mint) => format!("({mint})"),
    };
    parts.iter().map(part).collect::<Vec<_>>().join(" ")
}
