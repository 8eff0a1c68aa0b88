//! Writes generated packs to files, each behind its names as `show` and `routes` read them:
//! `packs FOLDER FIRST COUNT` makes FOLDER and in it SEED.bin for COUNT seeds from FIRST on. Seeds
//! whose names are not 88 bytes long are left out, since a file has no other way to end them.

use compare::generate::case;
use mbelaguy::Names;
use std::path::Path;
use std::process::ExitCode;
use std::{env, fs, io};

fn main() -> ExitCode {
    let words: Vec<String> = env::args().skip(1).collect();
    let [folder, first, count] = &words[..] else { return usage() };
    let (Ok(first), Ok(count)) = (first.parse(), count.parse()) else { return usage() };
    match write(Path::new(folder), first, count) {
        Ok(()) => ExitCode::SUCCESS,
        Err(error) => {
            eprintln!("packs: {folder}: {error}");
            ExitCode::FAILURE
        }
    }
}

fn usage() -> ExitCode {
    eprintln!("usage: packs FOLDER FIRST COUNT");
    ExitCode::FAILURE
}

fn write(folder: &Path, first: u64, count: u64) -> io::Result<()> {
    fs::create_dir_all(folder)?;
    for seed in first..first.saturating_add(count) {
        let (case, _) = case(seed);
        if case.names.len() == Names::BYTES {
            fs::write(folder.join(format!("{seed}.bin")), [case.names, case.pack].concat())?;
        }
    }
    Ok(())
}
