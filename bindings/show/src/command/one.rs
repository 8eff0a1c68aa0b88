//! `show FILE`.

use crate::files::{named, print, read, read_from, title, write};
use crate::{Options, REFUSED, SHOWN};
use mbelaguy::{pack, route, Names, Tables};
use show::{page, text, Report};
use std::io;
use std::path::Path;

/// Shows the pack, or says why it is refused.
pub fn show(file: &str, options: &Options) -> io::Result<u8> {
    let input = match file {
        "-" => read_from(io::stdin()),
        _ => read(Path::new(file)),
    };
    let input = input.map_err(|error| named(file, error))?;
    if input.is_empty() {
        let what = "is empty: it has to hold 88 bytes of names, then a pack";
        return Err(io::Error::other(format!("{file} {what}")));
    }
    let (names, pack) = input.split_at(input.len().min(Names::BYTES));
    let mut tables = Tables::for_pack(pack);
    let report =
        route(names, pack, &mut tables).and_then(|answer| Report::new(pack, &answer, &tables));
    if let Some(path) = &options.page {
        write(path, &page(&title(file), &report, options.keys))?;
    }
    match report {
        Ok(report) if options.page.is_none() => print(&text(&report, options.keys))?,
        Ok(_) => {}
        Err(refusal) => {
            let next = if pack::read(&input).is_ok() { WITHOUT_NAMES } else { OTHERWISE };
            eprintln!("show: {file}: {refusal}");
            eprintln!("show: {}", next.replace("FILE", file));
            return Ok(REFUSED);
        }
    }
    Ok(SHOWN)
}

/// What is said besides of an input that is refused: of one that is a pack from its first byte on, and
/// of others.
const OTHERWISE: &str = "docs/FORMAT.md tells byte by byte what names and packs are";
const WITHOUT_NAMES: &str = "FILE is a pack without names, which have to stand before it; \
                             with those of the original:
  { head -c 88 examples/aggregator_swap.bin; cat 'FILE'; } | ./show -";
