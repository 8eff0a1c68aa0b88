//! The refusals of a call, their order and their places stand in one definition. What the format, the C
//! header and the crate tell of them is held to it.

use mbelaguy::{Refusal, Section, Table};

const DEFINED: &str = include_str!("../../../crates/route/specs/Refusals.antt");
const FORMAT: &str = include_str!("../../../docs/FORMAT.md");
const HEADER: &str = include_str!("../../c/mbelaguy.h");
const CRATE: &str = include_str!("../src/refusal.rs");

/// A number, and the places that it comes with.
type Row = (u32, Vec<u32>);

/// The definition has a line for each, as `entry 11 (1 ∷ []) ...`.
fn defined() -> Vec<Row> {
    let lines = DEFINED.lines().filter_map(|line| line.trim().strip_prefix("entry "));
    let lines = lines.filter(|line| line.starts_with(|letter: char| letter.is_ascii_digit()));
    let row = |line: &str| {
        let (number, rest) = line.split_once(" (").expect("places behind the number");
        let (places, _) = rest.split_once(" ∷ [])").expect("an end of the places");
        (parsed(number), places.split(" ∷ ").map(parsed).collect())
    };
    lines.map(row).collect()
}

fn parsed(number: &str) -> u32 {
    number.parse().unwrap_or_else(|_| panic!("{number:?} is no number"))
}

fn between<'a>(text: &'a str, start: &str, end: &str) -> &'a str {
    let (_, rest) = text.split_once(start).unwrap_or_else(|| panic!("no {start:?}"));
    rest.split_once(end).unwrap_or_else(|| panic!("no {end:?} behind {start:?}")).0
}

/// What stands before the first space, comma or bracket.
fn word(text: &str) -> &str {
    text.split([' ', ',', '(']).next().unwrap_or(text)
}

fn sections() -> Vec<u32> {
    Section::ALL.map(|section| section as u32).to_vec()
}

fn tables() -> Vec<u32> {
    Table::ALL.map(|table| table as u32).to_vec()
}

#[test]
fn the_format_lists_them() {
    let row = |line: &str| {
        let cells: Vec<_> = line.trim_matches('|').split('|').map(str::trim).collect();
        let [number, _, place] = cells[..] else { panic!("no three cells in {line}") };
        let places = match place {
            "the lowest such section" => sections(),
            "the lowest such table" => tables(),
            place => vec![parsed(place)],
        };
        (parsed(number), places)
    };
    let lines = between(FORMAT, "\n## Refusals\n", "\n## ").lines();
    let rows = lines.filter(|line| line.starts_with('|'));
    // Behind the heading and the line below it.
    assert_eq!(rows.skip(2).map(row).collect::<Vec<_>>(), defined());
}

/// The comment behind a number tells its place where that is not 0.
#[test]
fn the_header_lists_them() {
    let list = between(HEADER, "/* Of a pack.", "/* Of a feed.");
    let number = |name| parsed(word(between(HEADER, &format!("\n#define {name} "), "\n")));
    let row = |definition| {
        let places = match str::split_once(definition, "/* place: ") {
            None => vec![0],
            Some((_, place)) if place.starts_with("the lowest section ") => sections(),
            Some((_, place)) if place.starts_with("the lowest table ") => tables(),
            Some((_, place)) => vec![number(word(place))],
        };
        (number(word(definition)), places)
    };
    let rows: Vec<_> = list.split("\n#define ").skip(1).map(row).collect();
    assert_eq!(rows, defined());
    let told = between(list, "the one that stands first here is given: ", ". */");
    assert!(told.split(", ").map(parsed).eq(rows.iter().map(|(number, _)| *number)), "{told}");
}

/// Each with these places, and with no other. What the crate knows besides is of a feed.
#[test]
fn the_crate_knows_them() {
    use Refusal::{Limit, Report, ReportRows, TransferTable, Unknown};
    let table = defined();
    let of_a_feed = [TransferTable, Report, ReportRows, Limit];
    for (number, place) in (0..100).flat_map(|number| (0..100).map(move |place| (number, place))) {
        let refusal = Refusal::of(number, place);
        assert_eq!((refusal.number(), refusal.place()), (number, place));
        let known = refusal != Unknown { number, place } && !of_a_feed.contains(&refusal);
        let listed = table.iter().any(|row| row.0 == number && row.1.contains(&place));
        assert_eq!(known, listed, "number {number}, place {place}");
    }
}

/// The enum has a line for each, as `/// 11: ...`, and behind it the variant.
#[test]
fn the_crate_lists_them() {
    let mut listed = Vec::new();
    let mut number = None;
    for line in between(CRATE, "pub enum Refusal {\n", "\n}\n").lines().map(str::trim) {
        if let Some(words) = line.strip_prefix("/// ") {
            number = number.or_else(|| words.split_once(": ")?.0.parse().ok());
        } else if let Some(number) = number.take() {
            listed.push((number, word(line).to_string()));
        }
    }
    let variant = |(number, places): Row| {
        let shown = format!("{:?}", Refusal::of(number, places[0]));
        (number, word(&shown).to_string())
    };
    assert_eq!(listed, defined().into_iter().map(variant).collect::<Vec<_>>());
}
