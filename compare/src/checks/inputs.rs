//! The inputs in crates/routes_cases and crates/tree are those that the program makes, and the text beside them is the oracle's.

use super::{hold, same, Outcome};
use crate::inputs::{drawn, files};
use crate::tree::tree;
use std::fs;

/// Every file, byte for byte, and none beside them in data/; and what the program `tree` is run on.
pub fn committed() -> Outcome {
    let folder = format!("{}/../crates/routes_cases", env!("CARGO_MANIFEST_DIR"));
    let files = files()?;
    for (name, bytes) in &files {
        let path = format!("{folder}/{name}");
        let found = fs::read(&path).map_err(|error| format!("{path}: {error}"))?;
        hold(name, found == *bytes)?;
    }
    let input = drawn()?;
    for (name, bytes) in [("stdin", &input[..]), ("stdout", tree(&input).as_bytes())] {
        let path = format!("{folder}/../tree/{name}");
        let found = fs::read(&path).map_err(|error| format!("{path}: {error}"))?;
        hold(&path, found == bytes)?;
    }
    let data = fs::read_dir(format!("{folder}/data")).map_err(|error| error.to_string())?;
    same("files of data/", data.count(), files.len() - 2)
}
