//! How long the library takes for a month, beside plain Rust with a map of lines (a BTreeMap), both in
//! this process: `month_speed` prints a line for each month and way of feeding it. Each time is from
//! rows of transfers to the bytes of the report, the median of some runs, in which the two sides take
//! turns. `month_speed fast` leaves out what takes minutes.
//!
//! `ample` has room for three new lines a transfer, `tight` the rows that are needed in the end. In one
//! call plain Rust does what the library does, refusals included. From call to call the library finds
//! its lines in the report, which it reads and checks each time; plain Rust keeps its map between the
//! calls and writes the report once, at the end.

use compare::month::plain::month;
use compare::month::speed::{kept, transfers, PACK};
use compare::month::{ROW, TRANSFER};
use mbelaguy::month_into;
use std::env;
use std::hint::black_box;
use std::process::ExitCode;
use std::time::{Duration, Instant};

const SEED: u64 = 1;

/// Runs of a month in one call, and of one fed in parts, which takes longer.
const RUNS: usize = 15;
const RUNS_IN_PARTS: usize = 3;

fn main() -> ExitCode {
    let words: Vec<String> = env::args().skip(1).collect();
    let fast = words == ["fast"];
    if !fast && !words.is_empty() {
        eprintln!("usage: month_speed [fast]");
        return ExitCode::FAILURE;
    }
    println!("Where a month takes several calls, plain Rust keeps its map between them.");
    println!("transfers lines transfers-a-call room plain library ratio (milliseconds a month)");
    for room in [Room::Ample, Room::Tight] {
        for count in [12_500, 25_000, 50_000, 100_000] {
            Timed::new(count, 10_000).print(count, room, RUNS);
        }
        for lines in [2_500, 5_000, 20_000] {
            Timed::new(50_000, lines).print(50_000, room, RUNS);
        }
    }
    let parts = if fast { &[5_000, 1_000][..] } else { &[5_000, 1_000, 100, PACK][..] };
    for &part in parts {
        Timed::new(50_000, 10_000).print(part, Room::Ample, RUNS_IN_PARTS);
    }
    if !fast {
        for (count, lines) in [(12_500, 10_000), (25_000, 10_000), (50_000, 2_500), (50_000, 5_000)]
        {
            Timed::new(count, lines).print(PACK, Room::Ample, RUNS_IN_PARTS);
        }
    }
    ExitCode::SUCCESS
}

#[derive(Clone, Copy)]
enum Room {
    Ample,
    Tight,
}

/// A month, and how many lines it has in the end.
struct Timed {
    transfers: Vec<u8>,
    lines: usize,
}

impl Timed {
    fn new(count: usize, lines: usize) -> Self {
        let transfers = transfers(count, lines, SEED);
        let mut report = vec![0; 3 * count * ROW];
        let lines = kept(&mut report, &transfers, count);
        Timed { transfers, lines }
    }

    fn print(&self, part: usize, room: Room, runs: usize) {
        let count = self.transfers.len() / TRANSFER;
        let (name, rows) = match room {
            Room::Ample => ("ample", self.lines + 3 * part),
            Room::Tight => ("tight", self.lines),
        };
        let mut report = vec![0; rows * ROW];
        let (mut plain, mut library) = (Vec::new(), Vec::new());
        for _ in 0..runs {
            let start = Instant::now();
            let ours = if part < count {
                kept(&mut report, black_box(&self.transfers), part)
            } else {
                month(&mut report, 0, 0, black_box(&self.transfers)).rows as usize
            };
            plain.push(start.elapsed());
            let expected = black_box(&report).clone();
            let start = Instant::now();
            let (mut used, mut fed) = (0, 0);
            for table in self.transfers.chunks(part * TRANSFER) {
                let answer = month_into(&mut report, used, fed, black_box(table));
                assert_eq!(answer.number, 0, "the months are not refused");
                (used, fed) = (answer.rows as usize, answer.fed);
            }
            library.push(start.elapsed());
            assert!(ours == used && report == expected, "both sides have the same report");
        }
        let (plain, library) = (milliseconds(plain), milliseconds(library));
        let lines = self.lines;
        println!("{count} {lines} {part} {name} {plain:.2} {library:.2} {:.2}", library / plain);
    }
}

/// The median.
fn milliseconds(mut times: Vec<Duration>) -> f64 {
    times.sort();
    times[times.len() / 2].as_secs_f64() * 1_000.0
}
