//! Compares the library with the oracle over the packs of some seeds: `against FROM TO`, TO not
//! included. Each pack is called with the room of its seed, with ample and with exact room and one row
//! short, and with its evidence in another order; some also with all room. That damaged answers are
//! noticed is tried at the end. The last line says how many answers are the same and how many are not.

use compare::calls::Calls;
use compare::checks::damaged;
use compare::close;
use compare::library::Library;
use compare::shares::{cut, seeds, walk};
use std::ops::Range;
use std::process::ExitCode;

const SEEDS_AT_ONCE: u64 = 500;

fn main() -> ExitCode {
    let Some(seeds) = seeds("against") else {
        return ExitCode::FAILURE;
    };
    let mut found: Found = walk(&cut(seeds.clone(), SEEDS_AT_ONCE), Found::share, Found::with);
    match damaged::noticed() {
        Ok(()) => found.passed += 1,
        Err(wrong) => {
            println!("damaged answers: {wrong}");
            found.failed += 1;
        }
    }
    if let Some(smallest) = found.wrong.iter().min_by_key(|wrong| wrong.bytes) {
        println!("the smallest pack: {} bytes, seed {}", smallest.bytes, smallest.seed);
    }
    println!("{} packs, {} calls", seeds.count(), found.calls);
    close(found.passed, found.failed)
}

/// Answers and orders that are right and wrong, and the wrong ones that were told of.
#[derive(Default)]
struct Found {
    calls: usize,
    passed: usize,
    failed: usize,
    wrong: Vec<Wrong>,
}

struct Wrong {
    seed: u64,
    bytes: usize,
}

impl Found {
    fn share(&mut self, seeds: &Range<u64>) {
        if let Err(error) = self.compare(seeds.clone()) {
            println!("seeds {} to {}: {error}", seeds.start, seeds.end);
            self.failed += 1;
        }
    }

    fn compare(&mut self, seeds: Range<u64>) -> Result<(), String> {
        let mut library = Library::start()?;
        let mut made = Vec::new();
        for seed in seeds {
            let Calls { calls, order } = Calls::of(seed);
            for call in &calls {
                library.call(&call.case, &call.reply)?;
                made.push((call.what, seed, call.case.pack.len()));
            }
            match order {
                Some(Err(wrong)) => self.tell(("order", seed, calls[0].case.pack.len()), &wrong),
                Some(Ok(())) => self.passed += 1,
                None => {}
            }
        }
        let verdict = library.end()?;
        for (number, what) in &verdict.told {
            let call = *made.get(*number).ok_or("replay told of a call that was not made")?;
            self.tell(call, what);
        }
        let told = verdict.told.len();
        self.failed += verdict.different - told.min(verdict.different);
        self.calls += made.len();
        self.passed += verdict.answers.saturating_sub(verdict.different);
        if verdict.answers == made.len() {
            Ok(())
        } else {
            Err(format!("{} calls were made and {} answered", made.len(), verdict.answers))
        }
    }

    fn tell(&mut self, (call, seed, bytes): (&str, u64, usize), what: &str) {
        println!("seed {seed}, {bytes} bytes, {call}: {what}");
        self.failed += 1;
        self.wrong.push(Wrong { seed, bytes });
    }

    fn with(mut self, other: Found) -> Found {
        self.calls += other.calls;
        self.passed += other.passed;
        self.failed += other.failed;
        self.wrong.extend(other.wrong);
        self
    }
}
