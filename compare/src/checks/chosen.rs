//! The stored answers in crates/replay are those that the program chooses, and each deliberate break is
//! noticed by one of them.

use super::{hold, mutants, Outcome};
use crate::chosen::files;
use crate::oracle::reply;
use crate::stored;
use std::{fs, iter};

/// Both files, byte for byte.
pub fn committed() -> Outcome {
    for (name, bytes) in files() {
        hold(name, found(name)? == bytes)?;
    }
    Ok(())
}

/// For each deliberate break, by name, the first stored answer that notices it. A damaged answer is not
/// the oracle's and does not count.
pub fn first_noticed() -> Result<Vec<(&'static str, Option<u64>)>, String> {
    let bytes = found("stdin")?;
    let mut rest = &bytes[..];
    let records = iter::from_fn(|| {
        let (case, stored, following) = stored::read(rest)?;
        rest = following;
        Some((case, stored))
    });
    let numbered = (0..).zip(records).map(|(number, (case, stored))| (number, case, stored));
    let right = numbered
        .filter(|(_, case, stored)| reply(&case.names, &case.pack, &case.lengths) == *stored);
    Ok(mutants::first_of(right))
}

fn found(name: &str) -> Result<Vec<u8>, String> {
    let path = format!("{}/../crates/replay/{name}", env!("CARGO_MANIFEST_DIR"));
    fs::read(&path).map_err(|error| format!("{path}: {error}"))
}
