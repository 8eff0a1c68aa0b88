//! Writes the sample of examples/ into a folder: `sample FOLDER`.

use compare::sample::{files, NAME};
use std::path::Path;
use std::process::ExitCode;
use std::{env, fs};

fn main() -> ExitCode {
    let Some(folder) = env::args_os().nth(1) else {
        eprintln!("usage: sample FOLDER");
        return ExitCode::FAILURE;
    };
    let folder = Path::new(&folder);
    let written = files().and_then(|files| {
        files.into_iter().try_for_each(|(ending, bytes)| {
            let path = folder.join(format!("{NAME}.{ending}"));
            fs::write(&path, bytes).map_err(|error| format!("{}: {error}", path.display()))
        })
    });
    match written {
        Ok(()) => ExitCode::SUCCESS,
        Err(error) => {
            eprintln!("sample: {error}");
            ExitCode::FAILURE
        }
    }
}
