//! Compares the library with the oracle over the grids. Of packs that differ, the shortest instruction
//! that differs alone is told. That the grids meet every reason is looked at in the end. The last line
//! says how many packs passed and failed.

use compare::checks::grids::{all_met, meet, Met};
use compare::close;
use compare::generate::Case;
use compare::grids::{alone, shares, Share};
use compare::library::{Library, Verdict};
use compare::oracle::{examine, fit};
use compare::shares::walk;
use std::path::Path;
use std::process::ExitCode;

const REPLAY: &str = concat!(env!("CARGO_MANIFEST_DIR"), "/../crates/replay/out/replay");

fn main() -> ExitCode {
    if cfg!(not(feature = "link")) && !Path::new(REPLAY).exists() {
        println!("{REPLAY} is missing: nothing was compared");
        return close(0, 1);
    }
    let mut found: Found = walk(&shares(), Found::share, Found::with);
    match all_met(&found.seen.met) {
        Ok(()) => found.passed += 1,
        Err(wrong) => {
            println!("{wrong}");
            found.failed += 1;
        }
    }
    let rows = found.seen.rows;
    println!("{} instructions, {} rows", rows[1], rows.map(|n| n.to_string()).join(" "));
    close(found.passed, found.failed)
}

/// Packs, and what the oracle answered.
#[derive(Default)]
struct Found {
    passed: usize,
    failed: usize,
    seen: Seen,
}

/// Rows of the five tables, and the reasons among them.
#[derive(Default)]
struct Seen {
    rows: [usize; 5],
    met: Met,
}

impl Found {
    fn share(&mut self, share: &Share) {
        if let Err(error) = self.compare(*share) {
            println!("{share:?}: {error}");
            self.failed += 1;
        }
    }

    fn compare(&mut self, share: Share) -> Result<(), String> {
        let cases = share.cases();
        let verdict = call(&cases, &mut self.seen)?;
        for (number, what) in &verdict.told {
            println!("{share:?}, pack {number}: {what}");
        }
        if let Some((number, _)) = verdict.told.first() {
            tell_shortest(cases.get(*number).ok_or("replay told of a call that was not made")?)?;
        }
        self.failed += verdict.different;
        self.passed += verdict.answers.saturating_sub(verdict.different);
        Ok(())
    }

    fn with(mut self, other: Found) -> Found {
        self.passed += other.passed;
        self.failed += other.failed;
        self.seen.rows = std::array::from_fn(|t| self.seen.rows[t] + other.seen.rows[t]);
        self.seen.met.extend(other.seen.met);
        self
    }
}

/// Calls the library with every case and the oracle's answer to it. All cases are packs that succeed.
fn call(cases: &[Case], seen: &mut Seen) -> Result<Verdict, String> {
    let mut library = Library::start()?;
    for case in cases {
        let examined = examine(&case.names, &case.pack);
        let reply = fit(&examined, &case.lengths);
        match &examined {
            Ok(examined) if reply.answer.number == 0 => meet(&mut seen.met, examined)?,
            _ => return Err(format!("the oracle refuses a pack: {:?}", reply.answer)),
        }
        let counts = reply.answer.counts;
        seen.rows = std::array::from_fn(|t| seen.rows[t] + counts[t] as usize);
        library.call(case, &reply)?;
    }
    let verdict = library.end()?;
    if verdict.answers == cases.len() {
        Ok(verdict)
    } else {
        Err(format!("{} calls were made and {} answered", cases.len(), verdict.answers))
    }
}

/// Prints the shortest instruction of a pack that differs alone.
fn tell_shortest(case: &Case) -> Result<(), String> {
    let cases = alone(case);
    let verdict = call(&cases, &mut Seen::default())?;
    match verdict.told.first() {
        Some((number, what)) => {
            let pack = mbelaguy::pack::read(&cases[*number].pack);
            let outer = pack.map(|pack| pack.outer).map_err(|refusal| format!("{refusal:?}"))?;
            println!("alone, {what}: {outer:?}");
        }
        None => println!("no instruction of the pack differs alone"),
    }
    Ok(())
}
