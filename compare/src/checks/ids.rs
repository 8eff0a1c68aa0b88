//! The fourteen ids, decoded by two programs in two languages and held to the bytes that crates/ids
//! has: the constant of its code, and the list of its definition.

use super::{hold, same, Outcome};
use mbelaguy::base58;
use std::fs;
use std::io::ErrorKind;
use std::process::Command;

/// The bytes of a table, out of the text of its file.
type Reader = fn(&str) -> Option<Vec<u8>>;

/// The files of crates/ids that hold the table.
const TABLES: [(&str, Reader); 2] = [("src/lib.rt", constant), ("specs/Ids.antt", list)];

/// The bytes of the constant in the code: `\x` and two digits each, over several lines.
fn constant(text: &str) -> Option<Vec<u8>> {
    let literal = between(text, "static IDS: [u8; 448] = *b\"", "\";")?;
    let bytes: String = literal.split("\\\n").map(str::trim_start).collect();
    let byte = |digits: &str| u8::from_str_radix(digits, 16).ok().filter(|_| digits.len() == 2);
    bytes.strip_prefix("\\x")?.split("\\x").map(byte).collect()
}

/// The bytes of the list in the definition: numbers, each with `∷` behind it.
fn list(text: &str) -> Option<Vec<u8>> {
    let numbers = between(text, "\nids =\n", "[]")?.trim_end().strip_suffix('∷')?;
    numbers.split('∷').map(|number| number.trim().parse().ok()).collect()
}

/// What stands between an opening, which the text holds once, and the first closing behind it.
fn between<'a>(text: &'a str, opening: &str, closing: &str) -> Option<&'a str> {
    let (_, rest) = text.split_once(opening)?;
    let (inside, _) = rest.split_once(closing)?;
    (!rest.contains(opening)).then_some(inside)
}

/// A line of hex digits for each 32 bytes.
fn lines_of(bytes: &[u8]) -> String {
    let hex = |id: &[u8]| id.iter().map(|byte| format!("{byte:02x}")).collect::<String>();
    bytes.chunks(32).map(|id| hex(id) + "\n").collect()
}

/// The ids as lines of hex digits, from the original's own constants.
pub fn lines() -> String {
    lines_of(&original::ids().concat())
}

/// Such lines are those of both tables of crates/ids, row by row; there is no fifteenth.
fn held(lines: &str) -> Outcome {
    for (file, bytes) in TABLES {
        let path = format!("{}/../crates/ids/{file}", env!("CARGO_MANIFEST_DIR"));
        let text = fs::read_to_string(&path).map_err(|error| format!("{path}: {error}"))?;
        let table = lines_of(&bytes(&text).ok_or(format!("{path}: no table of ids"))?);
        for row in 0..=14 {
            let what = format!("{file}, row {row}");
            same(&what, table.lines().nth(row), lines.lines().nth(row))?;
        }
    }
    Ok(())
}

/// The original's constants, by the decoder of the bindings.
pub fn decoded() -> Outcome {
    held(&lines())
}

/// The original's literals, by the Python program. Without Python there is nothing to hold.
pub fn decoded_again() -> Option<Outcome> {
    let script = concat!(env!("CARGO_MANIFEST_DIR"), "/ids.py");
    match Command::new("python3").arg(script).env("MBELAGUY_RUST_SRC", original::SOURCE).output() {
        Err(error) if error.kind() == ErrorKind::NotFound => None,
        Err(error) => Some(Err(error.to_string())),
        Ok(output) => {
            let errors = String::from_utf8_lossy(&output.stderr).into_owned();
            let printed = String::from_utf8_lossy(&output.stdout).into_owned();
            Some(same("ids.py complains", errors, String::new()).and(held(&printed)))
        }
    }
}

/// The ids that the bindings give; their names are the original's.
pub fn bindings() -> Outcome {
    held(&lines_of(&mbelaguy::ids::NAMED.map(|(id, _)| id).concat()))?;
    same("names", mbelaguy::Names::ORIGINAL.bytes(), original::names::real())
}

/// No two ids are equal, none is zero, and each is what its text decodes to.
pub fn distinct() -> Outcome {
    let mut ids = original::ids().to_vec();
    for id in &ids {
        same("decoded again", base58::decode(&base58::encode(id)), Some(*id))?;
    }
    ids.push([0; 32]);
    ids.sort();
    ids.dedup();
    hold("fifteen different keys", ids.len() == 15)
}
