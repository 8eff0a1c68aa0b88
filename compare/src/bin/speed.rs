//! How long the original and the library take for the same packs, both in this process: `speed` prints
//! a line for each pack. `speed PACK SIDE CALLS` makes so many calls of one side (`original`, `exact`,
//! `room` or `full`) and prints nothing: for a counter of instructions, which is not disturbed by what
//! else the machine does.
//!
//! The original starts from a decoded transaction, the library from the bytes of a pack. Its tables
//! have exactly the rows that the pack needs (`exact`) or all that any pack can need (`full`); it
//! clears them in each call. `room` is what a user does who keeps nothing: asks the library how much
//! room suffices, allocates the tables, and makes the call.

use compare::oracle::examine;
use compare::oracle::feed::{fed, Fed};
use compare::speed::{packs, Timed};
use mbelaguy::{Names, Tables, MOST_ROWS, WIDTHS};
use std::env;
use std::hint::black_box;
use std::process::ExitCode;
use std::time::{Duration, Instant};

/// Batches of calls; the fastest one counts. They are short, so that some are not interrupted.
const BATCHES: Duration = Duration::from_millis(500);
const BATCH: Duration = Duration::from_millis(1);

fn main() -> ExitCode {
    let words: Vec<String> = env::args().skip(1).collect();
    let packs = packs();
    match &words[..] {
        [] => {
            println!("pack original exact ratio room ratio full ratio (nanoseconds a call)");
            packs.iter().map(Sides::of).for_each(|pack| pack.print_times());
            ExitCode::SUCCESS
        }
        [names] if names == "names" => {
            let packs = packs.iter().map(Sides::of);
            packs.for_each(|pack| println!("{} {}", pack.name, pack.about));
            ExitCode::SUCCESS
        }
        [name, side, calls] => {
            match (packs.iter().find(|pack| pack.name == *name), calls.parse()) {
                (Some(pack), Ok(calls)) => Sides::of(pack).run(side, calls),
                _ => usage(),
            }
        }
        _ => usage(),
    }
}

fn usage() -> ExitCode {
    eprintln!("usage: speed [names | PACK original|exact|room|full CALLS]");
    ExitCode::FAILURE
}

/// A pack as each side reads it.
struct Sides {
    name: String,
    about: String,
    names: Vec<u8>,
    bytes: Vec<u8>,
    fed: Fed,
    exact: Lent,
    full: Lent,
}

/// The bytes of five tables.
type Lent = [Vec<u8>; 5];

fn room(rows: [usize; 5]) -> Lent {
    std::array::from_fn(|t| vec![0; rows[t] * WIDTHS[t]])
}

impl Sides {
    fn of(timed: &Timed) -> Self {
        let names = Names::ORIGINAL.bytes().to_vec();
        let bytes = timed.pack.write().expect("the packs fit");
        let examined = examine(&names, &bytes).expect("the packs are not refused");
        Sides {
            name: timed.name.clone(),
            about: format!(
                "{} bytes, {} keys, {} invocations, rows {:?}, {} passes",
                bytes.len(),
                timed.pack.keys.len(),
                examined.facts.invocations.len(),
                examined.needs,
                examined.mints.passes
            ),
            fed: fed(&timed.pack),
            exact: room(examined.needs),
            full: room(MOST_ROWS),
            names,
            bytes,
        }
    }

    fn original(&self) {
        let (transaction, meta, graduated) = &self.fed;
        original::work(black_box(transaction), black_box(meta), black_box(graduated));
    }

    fn library(&self, tables: &mut Lent) {
        let lent = tables.each_mut().map(Vec::as_mut_slice);
        let answer = mbelaguy::route_into(black_box(&self.names), black_box(&self.bytes), lent);
        assert_eq!(black_box(answer).number, 0, "the packs are not refused");
    }

    fn in_room(&self) {
        let mut tables = Tables::for_pack(black_box(&self.bytes));
        let answer = mbelaguy::route(black_box(&self.names), &self.bytes, &mut tables);
        black_box(answer).expect("the packs are not refused");
    }

    fn run(&self, side: &str, calls: usize) -> ExitCode {
        let mut tables = match side {
            "exact" | "original" | "room" => self.exact.clone(),
            "full" => self.full.clone(),
            _ => return usage(),
        };
        for _ in 0..calls {
            match side {
                "original" => self.original(),
                "room" => self.in_room(),
                _ => self.library(&mut tables),
            }
        }
        ExitCode::SUCCESS
    }

    fn print_times(&self) {
        let (mut exact, mut full) = (self.exact.clone(), self.full.clone());
        let original = nanoseconds(|| self.original());
        let exact = nanoseconds(|| self.library(&mut exact));
        let room = nanoseconds(|| self.in_room());
        let full = nanoseconds(|| self.library(&mut full));
        println!(
            "{} {original:.0} {exact:.0} {:.2} {room:.0} {:.2} {full:.0} {:.2}",
            self.name,
            exact / original,
            room / original,
            full / original
        );
    }
}

/// A call's time, by the fastest of the batches.
fn nanoseconds(mut call: impl FnMut()) -> f64 {
    let mut batch = || {
        let (start, mut calls) = (Instant::now(), 0u32);
        while start.elapsed() < BATCH {
            call();
            calls += 1;
        }
        start.elapsed().as_nanos() as f64 / f64::from(calls)
    };
    let (start, mut fastest) = (Instant::now(), batch());
    while start.elapsed() < BATCHES {
        fastest = fastest.min(batch());
    }
    fastest
}
