//! `show FILE` prints the five tables of a pack for a person, `show month FILE...` the totals of many
//! packs; usage.txt tells how they are called.

mod files;
mod month;
mod one;

use show::Keys;
use std::env;
use std::process::ExitCode;

const USAGE: &str = include_str!("../usage.txt");

/// Exit statuses.
const SHOWN: u8 = 0;
const REFUSED: u8 = 1;
const WRONG: u8 = 2;

/// What is asked for.
enum Asked {
    Help,
    One(String, Options),
    Month(Vec<String>, Options),
}

struct Options {
    keys: Keys,
    page: Option<String>,
    csv: Option<String>,
}

fn main() -> ExitCode {
    let words = env::args_os().skip(1).map(|word| word.to_string_lossy().into_owned());
    let done = match asked(words) {
        Some(Asked::One(file, options)) => one::show(&file, &options),
        Some(Asked::Month(files, options)) => month::show(&files, &options),
        Some(Asked::Help) => files::print(USAGE).map(|()| SHOWN),
        None => {
            eprint!("{USAGE}");
            Ok(WRONG)
        }
    };
    ExitCode::from(done.unwrap_or_else(|error| {
        eprintln!("show: {error}");
        WRONG
    }))
}

fn asked(words: impl Iterator<Item = String>) -> Option<Asked> {
    let mut words = words.peekable();
    let month = words.next_if(|word| word == "month").is_some();
    let mut files = Vec::new();
    let mut options = Options { keys: Keys::Short, page: None, csv: None };
    while let Some(word) = words.next() {
        match word.as_str() {
            "-h" | "--help" => return Some(Asked::Help),
            "--full" => options.keys = Keys::Full,
            "--html" => options.page = Some(words.next()?),
            "--csv" if month => options.csv = Some(words.next()?),
            name if name == "-" || !name.starts_with('-') => files.push(word),
            _ => return None,
        }
    }
    match (month, files.len()) {
        (true, 1..) => Some(Asked::Month(files, options)),
        (false, 1) => files.pop().map(|file| Asked::One(file, options)),
        _ => None,
    }
}
