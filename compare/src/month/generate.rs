//! Months by seed: calls one after the other, each with the report that the one before left, and
//! reports that never came from a call. What occurs among them is counted by `coverage`.

use super::plain::{count, feed, read};
use super::transfers::World;
use super::{answered, reports, transfers, Call, Reply, ROW, TRANSFER};
use crate::generate::rng::Rng;

/// The calls of a seed.
#[derive(Default)]
pub struct Month {
    pub calls: Vec<Call>,
    /// The tables that were fed and not refused, from an empty report on, with the last report in a
    /// buffer that holds nothing else. None where the report was forged.
    pub whole: Option<(Vec<Vec<u8>>, Vec<u8>)>,
}

#[derive(Clone, Copy)]
enum Kind {
    Feeds,
    Forged,
    Limit,
    Wrong,
    Large,
}

/// One seed in so many has a table with one of these numbers of new lines, and is called with all
/// rooms: the library takes new lines together, as many as 1,024 transfers can bring.
const EDGE: u64 = 250;
const EDGES: [usize; 8] = [1_023, 1_024, 1_025, 3_071, 3_072, 3_073, 6_144, 6_145];

impl Month {
    pub fn of(seed: u64) -> Self {
        let rng = &mut Rng::new(seed);
        if seed.is_multiple_of(EDGE) {
            return edge(EDGES[(seed / EDGE) as usize % EDGES.len()], rng);
        }
        let kind = rng.weigh(&[
            (400, Kind::Feeds),
            (350, Kind::Forged),
            (80, Kind::Limit),
            (155, Kind::Wrong),
            (15, Kind::Large),
        ]);
        match kind {
            Kind::Feeds => feeds(&World::small(rng), 7, rng),
            Kind::Forged => forged(rng),
            Kind::Limit => limit(rng),
            Kind::Wrong => wrong(rng),
            Kind::Large => large(rng),
        }
    }

    /// The call, and, each in so many of a hundred cases, with the least room, a row less, a byte
    /// less, room for three lines a transfer, a row less than that, and some bytes more.
    fn in_rooms(&mut self, call: Call, percent: usize, rng: &mut Rng) {
        let held = call.report.len() / ROW;
        if let Some(mut lines) = read(&call.report, call.rows.min(held), call.fed) {
            feed(&mut lines, &call.transfers);
            let (least, three) = (lines.len(), call.rows.min(held) + 3 * count(&call.transfers));
            let odd = rng.below(ROW);
            for length in [
                least * ROW,
                (least * ROW).saturating_sub(ROW),
                (least * ROW).saturating_sub(1),
                three * ROW,
                (three * ROW).saturating_sub(ROW),
                least * ROW + odd,
            ] {
                if length != call.report.len() && rng.chance(percent) {
                    self.calls.push(in_buffer(&call, length, rng));
                }
            }
        }
        self.calls.push(call);
    }
}

/// Not every room each time.
const SOME: usize = 60;

/// The call with a buffer of another length: the first bytes are the same, other bytes follow.
fn in_buffer(call: &Call, length: usize, rng: &mut Rng) -> Call {
    let mut report = call.report.clone();
    report.truncate(length);
    let more = length - report.len();
    report.extend(rest(more, rng));
    Call { report, ..call.clone() }
}

/// Bytes behind the used rows: zeros, as a call leaves them, or others.
fn rest(length: usize, rng: &mut Rng) -> Vec<u8> {
    match rng.below(3) {
        0 => vec![0; length],
        1 => vec![165; length],
        _ => rng.bytes(length),
    }
}

/// A buffer with some rows in use, and room for some transfers more.
fn buffer(mut used: Vec<u8>, transfers: usize, rng: &mut Rng) -> Vec<u8> {
    let more = 3 * transfers * ROW + rng.below(2 * ROW);
    used.extend(rest(more, rng));
    used
}

/// How many transfers a table has.
fn few(rng: &mut Rng) -> usize {
    let some = rng.between(4, 60);
    rng.weigh(&[(15, 0), (25, 1), (20, 2), (15, 3), (25, some)])
}

/// Tables one after the other, refused ones in between.
fn feeds(world: &World, most: usize, rng: &mut Rng) -> Month {
    let tables = (0..rng.between(1, most)).map(|_| few(rng)).collect::<Vec<_>>();
    feeds_of(world, &tables, rng)
}

fn feeds_of(world: &World, counts: &[usize], rng: &mut Rng) -> Month {
    let mut month = Month::default();
    let (mut used, mut rows, mut fed) = (Vec::new(), 0, 0);
    let mut tables = Vec::new();
    for &count in counts {
        let table = world.table(count, rng);
        let report = buffer(used, count, rng);
        let call = Call { report, rows, fed, transfers: table.clone() };
        if rng.chance(40) {
            month.calls.push(refused(&call, rng));
        }
        let Reply { answer, report } = answered(&call);
        month.in_rooms(call, SOME, rng);
        rows = answer.rows as usize;
        fed = answer.fed;
        used = report[..rows * ROW].to_vec();
        tables.push(table);
    }
    month.whole = Some((tables, used));
    month
}

/// The call with its table, its report, its room or the transfers fed made wrong.
fn refused(call: &Call, rng: &mut Rng) -> Call {
    let mut call = call.clone();
    match rng.below(4) {
        0 => call.transfers = transfers::damaged(call.transfers, rng),
        1 => call.rows = reports::damaged(&mut call.report, call.rows, call.fed, rng),
        2 => call = in_buffer(&call, call.rows * ROW, rng),
        _ => call.fed = near_limit(count(&call.transfers), rng),
    }
    call
}

/// So many transfers fed that a table of some passes the limit, or just does not.
fn near_limit(count: usize, rng: &mut Rng) -> u32 {
    let last = u32::MAX - count as u32;
    let some = u32::MAX - rng.below(count + 2) as u32;
    rng.pick(&[last, last.saturating_sub(1), last.saturating_add(1), some, u32::MAX])
}

/// A forged report in order, a table fed into it, and one more into what that leaves.
fn forged(rng: &mut Rng) -> Month {
    let world = World::small(rng);
    let some = rng.next() as u32;
    let fed = rng.pick(&[0, 1, 40, some]);
    let most = rng.pick(&[0, 1, 3, 20]);
    let used = reports::forged(&world, most, fed, rng);
    let mut month = Month::default();
    let (mut used, mut rows, mut fed) = (used.clone(), used.len() / ROW, fed);
    for _ in 0..2 {
        let count = few(rng);
        let report = buffer(used, count, rng);
        let call = Call { report, rows, fed, transfers: world.table(count, rng) };
        let Reply { answer, report } = answered(&call);
        month.in_rooms(call, SOME, rng);
        rows = answer.rows as usize;
        fed = answer.fed;
        used = report[..rows * ROW].to_vec();
    }
    month
}

/// Transfers fed near the limit, with room and without.
fn limit(rng: &mut Rng) -> Month {
    let world = World::small(rng);
    let count = few(rng);
    let fed = near_limit(count, rng);
    let used = reports::forged(&world, 5, fed, rng);
    let rows = used.len() / ROW;
    let report = buffer(used, count, rng);
    let mut month = Month::default();
    month.in_rooms(Call { report, rows, fed, transfers: world.table(count, rng) }, SOME, rng);
    month
}

/// One to four things wrong at once, for the order of refusals.
fn wrong(rng: &mut Rng) -> Month {
    let world = World::small(rng);
    let (count, some) = (few(rng), rng.below(1_000) as u32);
    let limit = near_limit(count, rng);
    let fed = rng.pick(&[some, some, limit]);
    let used = reports::forged(&world, 8, fed, rng);
    let rows = used.len() / ROW;
    let mut call =
        Call { report: buffer(used, count, rng), rows, fed, transfers: world.table(count, rng) };
    if rng.chance(40) {
        call = in_buffer(&call, rows * ROW + rng.below(ROW), rng);
    }
    if rng.chance(60) {
        call.rows = reports::damaged(&mut call.report, rows, fed, rng);
    }
    if rng.chance(30) {
        call.transfers = transfers::damaged(call.transfers, rng);
    }
    Month { calls: vec![call], whole: None }
}

/// Thousands of transfers in a call, over many lines or few, after a small or a large report.
fn large(rng: &mut Rng) -> Month {
    let (mints, accounts) =
        rng.pick(&[(1, 2), (1, 2), (3, 100), (40, 400), (2, 4_000), (3_000, 4_000)]);
    let world = World::new(mints, accounts, rng);
    let some = rng.between(1_026, 5_000);
    let count = rng.pick(&[1_023, 1_024, 1_025, 2_048, 2_049, 3_073, some, some]);
    let before = rng.pick(&[0, 0, 1, 30, 1_500]);
    feeds_of(&world, &[before, count], rng)
}

/// A table with so many new lines, one for each transfer: all are of different mints, and counted
/// apart.
fn edge(lines: usize, rng: &mut Rng) -> Month {
    let mut mints = transfers::keys(lines, rng);
    rng.shuffle(&mut mints);
    let mut table = Vec::new();
    for mint in mints {
        let mut row = [0; TRANSFER];
        row[100..133].copy_from_slice(&transfers::flagged(1, mint));
        table.extend(row);
    }
    let report = buffer(Vec::new(), lines, rng);
    let mut month = Month::default();
    month.in_rooms(Call { report, rows: 0, fed: 0, transfers: table }, 100, rng);
    month
}

/// The transfers of some tables in another order, cut otherwise.
pub fn otherwise(tables: &[Vec<u8>], rng: &mut Rng) -> Vec<Vec<u8>> {
    let all = tables.concat();
    let mut rows: Vec<&[u8]> = all.chunks(TRANSFER).collect();
    rng.shuffle(&mut rows);
    let mut cut = Vec::new();
    let mut left = &rows[..];
    while !left.is_empty() {
        let (table, more) = left.split_at(rng.between(1, left.len()));
        cut.push(table.concat());
        left = more;
    }
    cut
}

/// What stands in a report's buffer after some tables, with room for all, or the number of the first
/// refusal.
pub fn fed_all(tables: &[Vec<u8>], length: usize) -> Result<Vec<u8>, u32> {
    let mut call = Call { report: vec![165; length], rows: 0, fed: 0, transfers: Vec::new() };
    for table in tables {
        call.transfers = table.clone();
        let Reply { answer, report } = answered(&call);
        if answer.number != 0 {
            return Err(answer.number);
        }
        call = Call { report, rows: answer.rows as usize, fed: answer.fed, transfers: Vec::new() };
    }
    Ok(call.report)
}
