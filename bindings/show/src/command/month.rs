//! `show month FILE...`.

use crate::files::{named, print, read, title, write};
use crate::{Options, REFUSED, SHOWN};
use mbelaguy::{pack, Names};
use show::grouped;
use show::month::{csv, page, text, Count, LeftOut};
use std::collections::BTreeSet;
use std::path::{Path, PathBuf};
use std::time::{Duration, Instant};
use std::{fs, io};

/// Shows what the transfers of the packs add up to, and says which are left out, and why.
pub fn show(words: &[String], options: &Options) -> io::Result<u8> {
    let files = files(words)?;
    let mut count = Count::default();
    let mut left_out = Vec::new();
    let mut progress = Progress { all: files.len(), said: Instant::now() };
    for (done, file) in (1..).zip(&files) {
        if let Err(why) = add(&mut count, file) {
            eprintln!("show: {}: {why}", file.display());
            left_out.push(LeftOut { file: file.display().to_string(), why });
        }
        progress.tell(done);
    }
    let ledger = count.close(left_out).map_err(io::Error::other)?;
    if let Some(path) = &options.csv {
        write(path, &csv(&ledger))?;
    }
    if let Some(path) = &options.page {
        write(path, &page(&title(path), &ledger, options.keys))?;
    }
    if options.csv.is_none() && options.page.is_none() {
        print(&text(&ledger, options.keys))?;
    }
    Ok(if ledger.left_out.is_empty() { SHOWN } else { REFUSED })
}

/// Counts a file, or says why not.
fn add(count: &mut Count, file: &Path) -> Result<(), String> {
    let input = read(file).map_err(|error| error.to_string())?;
    let (names, pack) = input.split_at(input.len().min(Names::BYTES));
    count.add(names, pack).map_err(|refusal| match pack::read(&input) {
        Ok(_) => format!("{refusal}; it is a pack without names, which have to stand before it"),
        Err(_) => refusal.to_string(),
    })
}

/// The files that the words stand for. One that is named twice is counted once.
fn files(words: &[String]) -> io::Result<Vec<PathBuf>> {
    let mut files = Vec::new();
    for word in words {
        if word == "-" {
            for line in io::stdin().lines() {
                files.extend(files_of(&line?)?);
            }
        } else {
            files.extend(files_of(word)?);
        }
    }
    if files.is_empty() {
        return Err(io::Error::other("the list on standard input is empty"));
    }
    let mut met = BTreeSet::new();
    files.retain(|file| {
        let new = met.insert(file.canonicalize().unwrap_or(file.clone()));
        if !new {
            eprintln!("show: {} is named more than once, and counted once", file.display());
        }
        new
    });
    Ok(files)
}

/// A file, or those of a folder but for hidden ones.
fn files_of(name: &str) -> io::Result<Vec<PathBuf>> {
    let here = |error| named(name, error);
    if !fs::metadata(name).map_err(here)?.is_dir() {
        return Ok(vec![PathBuf::from(name)]);
    }
    let mut files = Vec::new();
    for entry in fs::read_dir(name).map_err(here)? {
        let entry = entry.map_err(here)?;
        if !entry.file_name().as_encoded_bytes().starts_with(b".") {
            files.push(entry.path());
        }
    }
    if files.is_empty() {
        return Err(io::Error::other(format!("{name} is a folder without files")));
    }
    files.sort();
    Ok(files)
}

/// Says on standard error how far a month is that takes its time.
struct Progress {
    all: usize,
    said: Instant,
}

impl Progress {
    const PAUSE: Duration = Duration::from_secs(1);

    fn tell(&mut self, done: usize) {
        if done < self.all && self.said.elapsed() >= Self::PAUSE {
            eprintln!("show: {} of {} packs done", grouped(done as u64), grouped(self.all as u64));
            self.said = Instant::now();
        }
    }
}
