//! Writes the inputs of crates/routes_cases, and what it has to print, into a folder: `inputs FOLDER`.

use compare::inputs::files;
use std::path::Path;
use std::process::ExitCode;
use std::{env, fs};

fn main() -> ExitCode {
    let Some(folder) = env::args_os().nth(1) else {
        eprintln!("usage: inputs FOLDER");
        return ExitCode::FAILURE;
    };
    let folder = Path::new(&folder);
    let written = files().and_then(|files| {
        files.into_iter().try_for_each(|(name, bytes)| {
            let path = folder.join(name);
            fs::write(&path, bytes).map_err(|error| format!("{}: {error}", path.display()))
        })
    });
    match written {
        Ok(()) => ExitCode::SUCCESS,
        Err(error) => {
            eprintln!("inputs: {error}");
            ExitCode::FAILURE
        }
    }
}
