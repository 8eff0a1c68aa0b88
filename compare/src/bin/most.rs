//! Writes on standard output a pack of as many invocations as there may be, for compare/stack: `most deepest` or `most widest`.

use compare::inputs::most;
use std::io::Write;
use std::process::ExitCode;
use std::{env, io};

fn main() -> ExitCode {
    let Some(name) = env::args().nth(1) else {
        eprintln!("usage: most deepest|widest");
        return ExitCode::FAILURE;
    };
    let written = most(&name).and_then(|input| {
        io::stdout().write_all(&input).map_err(|error| format!("standard output: {error}"))
    });
    match written {
        Ok(()) => ExitCode::SUCCESS,
        Err(error) => {
            eprintln!("most: {error}");
            ExitCode::FAILURE
        }
    }
}
