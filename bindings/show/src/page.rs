//! The report as one HTML page that needs nothing else: no script, no font, no picture. A shortened
//! key leads to its full form at the page's end. What pages have in common stands here too.

use crate::keys::Texts;
use crate::report::{Deed, Node, Report};
use crate::words::{self, Part};
use crate::Keys;
use mbelaguy::rows::{Lack, Mark, Mint};
use mbelaguy::{base58, ids, Key, Refusal};
use std::collections::BTreeSet;

const STYLE: &str = include_str!("page.css");

/// Levels by which the page indents; deeper ones are told by number.
const INDENTED: usize = 8;

/// The page of a report, or of the refusal in its place.
pub fn page(title: &str, report: &Result<Report, Refusal>, keys: Keys) -> String {
    let body = match report {
        Ok(report) => shown(report, keys),
        Err(refusal) => format!("<p class=\"refusal\">{}</p>\n", escaped(&refusal.to_string())),
    };
    sheet(title, "", &body)
}

/// A whole page with this body. The style is what it needs besides that of all pages.
pub fn sheet(title: &str, style: &str, body: &str) -> String {
    let title = escaped(title);
    format!(
        "<!DOCTYPE html>\n<html lang=\"en\">\n<head>\n<meta charset=\"utf-8\">\n\
         <meta name=\"viewport\" content=\"width=device-width, initial-scale=1\">\n\
         <title>{title}</title>\n<style>\n{STYLE}{style}</style>\n</head>\n<body>\n<h1>{title}</h1>\n\
         {body}</body>\n</html>\n"
    )
}

fn shown(report: &Report, keys: Keys) -> String {
    let mut page = Page::new(Texts::of(report.keys(), keys));
    let counts: String =
        words::counts(report).iter().map(|count| format!("<li>{count}</li>")).collect();
    let tree: String =
        report.nodes.iter().enumerate().map(|(n, node)| page.node(n, node)).collect();
    let mints = words::mints(report);
    let mints: String = mints.iter().map(|(account, mint)| page.mint(account, mint)).collect();
    let tree = filled(&tree, &format!("<ol class=\"tree\">\n{tree}</ol>"));
    let mints = filled(
        &mints,
        &format!(
            "<table>\n<thead><tr><th>account</th><th>mint</th><th>mark</th></tr></thead>\n\
             <tbody>\n{mints}</tbody>\n</table>"
        ),
    );
    let doubt = words::doubt(report).map(|note| format!("<p class=\"note\">{note}</p>\n"));
    let doubt = doubt.unwrap_or_default();
    format!(
        "<p class=\"pack\">{}</p>\n<ul class=\"counts\">{counts}</ul>\n<main>\n\
         <section>\n<h2>Invocations</h2>\n{tree}\n</section>\n\
         <section>\n<h2>Mints</h2>\n{mints}\n{doubt}</section>\n{}</main>\n",
        words::pack(report),
        page.keys_in_full()
    )
}

/// What is to be shown, or a word where there is nothing.
pub fn filled(rows: &str, shown: &str) -> String {
    if rows.is_empty() {
        "<p class=\"none\">none</p>".to_string()
    } else {
        shown.to_string()
    }
}

/// The page being written, with the keys met so far in the order in which they were.
pub struct Page {
    texts: Texts,
    met: Vec<Key>,
    seen: BTreeSet<Key>,
}

impl Page {
    pub fn new(texts: Texts) -> Self {
        Page { texts, met: Vec::new(), seen: BTreeSet::new() }
    }

    fn node(&mut self, number: usize, node: &Node) -> String {
        let class = if node.invocation.skipped { " class=\"skipped\"" } else { "" };
        let mut html = format!(
            "<li{class} style=\"--depth:{}\"><div class=\"call\">\
             <span class=\"number\">{number}</span><p><span class=\"program\">{}</span> \
             <span class=\"position\">{}</span>",
            node.depth,
            self.phrase(&[words::program(node)]),
            words::position(&node.invocation)
        );
        let deep = (node.depth > INDENTED).then(|| format!("depth {}", node.depth));
        for note in deep.into_iter().chain(words::notes(&node.invocation)) {
            html += &format!(" <span class=\"note\">{note}</span>");
        }
        html += "</p></div>";
        for deed in &node.deeds {
            let kind = match deed {
                Deed::Leg(_) => "leg",
                Deed::Transfer(_) => "transfer",
                Deed::Native(_) => "native",
            };
            let phrases = words::deed(deed);
            let lines: String =
                phrases.iter().map(|phrase| format!("<p>{}</p>", self.phrase(phrase))).collect();
            html += &format!("<div class=\"deed {kind}\">{lines}</div>");
        }
        html + "</li>\n"
    }

    fn mint(&mut self, account: &Key, mint: &Mint) -> String {
        format!(
            "<tr><td>{}</td><td>{}</td><td>{}</td></tr>\n",
            self.key(account),
            self.key(&mint.key().unwrap_or_default()),
            known(mint, &mint.to_string())
        )
    }

    fn phrase(&mut self, parts: &[Part]) -> String {
        let part = |part: &Part| match part {
            Part::Words(words) => escaped(words),
            Part::Title(words) => format!("<b>{}</b>", escaped(words)),
            Part::Key(key) => self.key(key),
            Part::Known(mint) => known(mint, &mint.to_string()),
        };
        parts.iter().map(part).collect::<Vec<_>>().join(" ")
    }

    pub fn key(&mut self, key: &Key) -> String {
        let shown = self.texts.get(key);
        if *key == ids::SYSTEM {
            return format!("<span class=\"none\">{shown}</span>");
        }
        let shown = match ids::name(key) {
            Some(_) => shown,
            None => format!("<code>{shown}</code>"),
        };
        if !self.texts.are_short() {
            return shown;
        }
        if self.seen.insert(*key) {
            self.met.push(*key);
        }
        format!("<a href=\"#{}\">{shown}</a>", base58::encode(key))
    }

    /// The keys that were shortened or named, in full.
    pub fn keys_in_full(&self) -> String {
        if self.met.is_empty() {
            return String::new();
        }
        let mut html = String::from("<section class=\"keys\">\n<h2>Keys in full</h2>\n<dl>\n");
        for key in &self.met {
            let (name, full) = (self.texts.get(key), base58::encode(key));
            html +=
                &format!("<div id=\"{full}\"><dt>{name}</dt><dd><code>{full}</code></dd></div>\n");
        }
        html + "</dl>\n</section>\n"
    }
}

/// Words on how a mint is known, set apart by how sure that is.
pub fn known(mint: &Mint, words: &str) -> String {
    let class = match mint {
        Mint::Marked { mark: Mark::Recorded, .. } => "recorded",
        Mint::Marked { mark: Mark::FilledIn, .. } => "filled-in",
        Mint::Marked { mark: Mark::InDoubt, .. } => "in-doubt",
        Mint::Named { lack: Lack::NoEvidence, .. } => "named",
        Mint::Unknown(Lack::NoEvidence) => "no-evidence",
        Mint::Named { lack: Lack::Contradictory, .. } | Mint::Unknown(Lack::Contradictory) => {
            "contradictory"
        }
    };
    format!("<span class=\"mark {class}\">{words}</span>")
}

pub fn escaped(text: &str) -> String {
    text.replace('&', "&amp;").replace('<', "&lt;").replace('>', "&gt;").replace('"', "&quot;")
}
