//! The sample in examples/ is the one that the program makes.

use super::{same, Outcome};
use crate::sample::{files, NAME};
use std::fs;

/// Every file of the sample, byte for byte.
pub fn committed() -> Outcome {
    for (ending, bytes) in files()? {
        let path = format!("{}/../examples/{NAME}.{ending}", env!("CARGO_MANIFEST_DIR"));
        let found = fs::read(&path).map_err(|error| format!("{path}: {error}"))?;
        same(ending, String::from_utf8_lossy(&found), String::from_utf8_lossy(&bytes))?;
        same(ending, found.len(), bytes.len())?;
    }
    Ok(())
}
