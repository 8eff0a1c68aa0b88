//! Stores calls with the oracle's answers, in the form that `stored` describes. `answers FROM TO`
//! writes those of some seeds, TO not included, to standard output; `answers chosen FOLDER` writes the
//! ones that crates/replay has, and what `replay` prints then, into a folder; `answers months FOLDER`
//! the calls of month totals that crates/month_replay has, and what `month_replay` prints.

use compare::generate::case;
use compare::oracle::fit;
use compare::{chosen, month, stored};
use std::io::{self, BufWriter, Write};
use std::path::Path;
use std::process::ExitCode;
use std::{env, fs};

fn main() -> ExitCode {
    let words: Vec<String> = env::args().skip(1).collect();
    let written = match &words[..] {
        [word, folder] if word == "chosen" => write_files(folder, chosen::files()),
        [word, folder] if word == "months" => write_files(folder, month::chosen::files()),
        [from, to] => match (from.parse(), to.parse()) {
            (Ok(from), Ok(to)) => write_answers(from, to),
            _ => return usage(),
        },
        _ => return usage(),
    };
    match written {
        Ok(()) => ExitCode::SUCCESS,
        Err(error) => {
            eprintln!("answers: {error}");
            ExitCode::FAILURE
        }
    }
}

fn usage() -> ExitCode {
    eprintln!("usage: answers FROM TO, or answers chosen|months FOLDER");
    ExitCode::FAILURE
}

fn write_answers(from: u64, to: u64) -> io::Result<()> {
    let mut out = BufWriter::new(io::stdout().lock());
    for seed in from..to {
        let (case, examined) = case(seed);
        let reply = fit(&examined, &case.lengths);
        out.write_all(&stored::write(&case, &reply))?;
    }
    out.flush()
}

fn write_files(folder: &str, files: [(&str, Vec<u8>); 2]) -> io::Result<()> {
    let folder = Path::new(folder);
    files.into_iter().try_for_each(|(name, bytes)| fs::write(folder.join(name), bytes))
}
