//! What occurs among the calls of generated months. Each feature has a name; it is judged by the
//! bytes of a call and its answer alone, never by what the generator meant.

use super::plain::{count, feed, is_table, line, passes_limit, read, Line, Lines, Transfer};
use super::plain::{Sums, SUM_LIMIT};
use super::{Call, Reply, ROW, TRANSFER};
use std::collections::{BTreeMap, BTreeSet};

/// The features that must occur.
pub const FEATURES: &[&str] = &[
    "19: part of a row",
    "19: a mint flag of 2",
    "19: a mint flag of 255",
    "19: a fee flag of 2",
    "19: a fee flag of 255",
    "19: only the last row's flag",
    "19 and 20",
    "19 and no room",
    "19 and 10",
    "20: a row too many",
    "20: rows whose bytes wrap",
    "20: the most rows",
    "20: a mint flag of 2",
    "20: an account flag of 2",
    "20: a flag of 255",
    "20: equal lines",
    "20: lines that fall",
    "20: lines that fall by their last byte",
    "20: debits of 2 to the 96th",
    "20: credits of 2 to the 96th",
    "20: fees of 2 to the 96th",
    "20: a sum far above",
    "20: a count one above the transfers fed",
    "20: the last row only",
    "20: a sum that an earlier feed has passed",
    "20 and no room",
    "20 and 10",
    "9: a row short",
    "9: a byte short",
    "9: no room at all",
    "9: over 1,024 transfers",
    "9: over 1,024 new lines",
    "9: 3,072 new lines, a row short",
    "9: 3,073 new lines, a row short",
    "9: over 3,072 new lines",
    "9: a tail that is not zero",
    "9 and 10",
    "10: one too many",
    "10: many too many",
    "10: a tail that is not zero",
    "empty table",
    "empty table, a tail that is not zero",
    "empty table at the limit",
    "empty report",
    "empty report, transfers fed",
    "empty report and table",
    "no buffer",
    "a tail that is not zero",
    "a buffer that becomes full",
    "a buffer with part of a row",
    "room for three lines a transfer",
    "a row less than three lines a transfer",
    "the last transfer of all",
    "no new line",
    "a new line before the first",
    "a new line between",
    "a new line behind the last",
    "a new line before the first and one behind the last",
    "a line that was there",
    "a line touched over 100 times",
    "source and destination the same",
    "fee absent",
    "fee absent, bytes behind the flag",
    "fee 0",
    "fee equal to the amount",
    "fee one above the amount",
    "fee one below the amount",
    "amount 0",
    "amount 0, fee absent",
    "the greatest amount",
    "the greatest amount and fee",
    "mint absent",
    "mint absent, bytes behind the flag",
    "mint absent, with bytes and without",
    "mint of zeros",
    "mint absent and mint of zeros",
    "account of zeros",
    "account that is a mint",
    "two mints of one account",
    "only transfers counted apart",
    "lines that differ in the last byte only",
    "lines that differ in the first byte of the account only",
    "lines that differ in the first byte of the mint only",
    "a report's line with bytes behind a mint flag of 0",
    "a report's line with bytes behind an account flag of 0",
    "a carry in debits",
    "a carry in credits",
    "a carry in fees",
    "a sum of 2 to the 96th less 1",
    "a sum that passes 2 to the 96th",
    "a count equal to the transfers fed",
    "1,024 transfers",
    "over 1,024 transfers",
    "over 1,024 transfers, no room to spare",
    "over 1,024 transfers, few lines",
    "over 1,024 new lines",
    "over 1,024 new lines, no room to spare",
    "3,072 new lines, no room to spare",
    "3,073 new lines, no room to spare",
    "6,144 new lines, no room to spare",
    "over 3,072 new lines",
    "over 3,072 new lines, no room to spare",
    "over 1,024 lines before",
    "over 1,024 transfers counted apart",
];

/// The features that one call shows.
pub fn shown(call: &Call, reply: &Reply) -> BTreeSet<&'static str> {
    let mut shown = Shown(BTreeSet::new());
    match reply.answer.number {
        19 => shown.table(call),
        20 => shown.report(call),
        9 => shown.room(call),
        10 => shown.limit(call),
        _ => {
            shown.accepted(call, reply);
            shown.transfers(call);
        }
    }
    shown.0
}

struct Shown(BTreeSet<&'static str>);

/// Whether bytes behind the used rows are not all zero.
fn dirty(call: &Call) -> bool {
    let used = call.rows.saturating_mul(ROW).min(call.report.len());
    call.report[used..].iter().any(|byte| *byte != 0)
}

impl Shown {
    fn note(&mut self, feature: &'static str, occurs: bool) {
        if occurs {
            self.0.insert(feature);
        }
    }

    fn table(&mut self, call: &Call) {
        let rows: Vec<&[u8]> = call.transfers.chunks_exact(TRANSFER).collect();
        let whole = call.transfers.len() % TRANSFER == 0;
        let all_flags = |at: usize, flag: u8| whole && rows.iter().any(|row| row[at] == flag);
        self.note("19: part of a row", !whole && is_table(&rows.concat()));
        self.note("19: a mint flag of 2", all_flags(100, 2));
        self.note("19: a mint flag of 255", all_flags(100, 255));
        self.note("19: a fee flag of 2", all_flags(141, 2));
        self.note("19: a fee flag of 255", all_flags(141, 255));
        let before = rows.len().saturating_sub(1);
        let last = whole && before > 0 && is_table(&rows[..before].concat());
        self.note("19: only the last row's flag", last);
        let ordered = read(&call.report, call.rows, call.fed).is_some();
        self.note("19 and 20", !ordered);
        let held = call.report.len() / ROW;
        self.note("19 and no room", call.rows == held && ordered && !rows.is_empty());
        self.note("19 and 10", passes_limit(call.fed, &call.transfers) && ordered);
    }

    fn report(&mut self, call: &Call) {
        let held = call.report.len() / ROW;
        self.note("20: a row too many", call.rows == held + 1);
        let wraps = call.rows.checked_mul(ROW).is_none();
        self.note("20: rows whose bytes wrap", wraps && call.rows.wrapping_mul(ROW) < ROW);
        self.note("20: the most rows", call.rows == usize::MAX);
        self.note("20 and no room", held == 0);
        self.note("20 and 10", passes_limit(call.fed, &call.transfers));
        if call.rows > held {
            return;
        }
        let rows: Vec<&[u8]> = call.report.chunks_exact(ROW).take(call.rows).collect();
        let flag = |at: usize, flag: u8| rows.iter().any(|row| row[at] == flag);
        self.note("20: a mint flag of 2", flag(0, 2));
        self.note("20: an account flag of 2", flag(33, 2));
        self.note("20: a flag of 255", flag(0, 255) || flag(33, 255));
        let pairs = || rows.windows(2).map(|pair| (&pair[0][..66], &pair[1][..66]));
        self.note("20: equal lines", pairs().any(|(one, next)| one == next));
        self.note("20: lines that fall", pairs().any(|(one, next)| one > next));
        let by_last = pairs().any(|(one, next)| one[..65] == next[..65] && one[65] > next[65]);
        self.note("20: lines that fall by their last byte", by_last);
        let sum = |row: &[u8], at: usize| {
            u128::from_le_bytes(row[at..at + 16].try_into().expect("16 bytes"))
        };
        let at_limit = |at: usize| rows.iter().any(|row| sum(row, at) == SUM_LIMIT);
        self.note("20: debits of 2 to the 96th", at_limit(66));
        self.note("20: credits of 2 to the 96th", at_limit(82));
        self.note("20: fees of 2 to the 96th", at_limit(98));
        let sums = || rows.iter().flat_map(|row| [66, 82, 98].map(|at| sum(row, at)));
        self.note("20: a sum far above", sums().any(|sum| sum > SUM_LIMIT << 8));
        let passed = |sum: u128| sum > SUM_LIMIT && sum < SUM_LIMIT + (1 << 70);
        let tail = call.report[call.rows * ROW..].iter().all(|byte| *byte == 0);
        self.note("20: a sum that an earlier feed has passed", tail && sums().any(passed));
        let count = |row: &&[u8]| u32::from_le_bytes(row[114..].try_into().expect("4 bytes"));
        let one_more = |row: &&[u8]| Some(count(row)) == call.fed.checked_add(1);
        self.note("20: a count one above the transfers fed", rows.iter().any(|row| one_more(&row)));
        let before = rows.len().saturating_sub(1);
        let last = before > 0 && read(&call.report, before, call.fed).is_some();
        self.note("20: the last row only", last);
    }

    fn room(&mut self, call: &Call) {
        let held = call.report.len() / ROW;
        let before = read(&call.report, call.rows, call.fed).expect("in order");
        let mut after = before.clone();
        feed(&mut after, &call.transfers);
        self.note("9: a row short", held + 1 == after.len() && held > 0);
        self.note("9: a byte short", call.report.len() + 1 == after.len() * ROW);
        self.note("9: no room at all", held == 0);
        self.note("9: over 1,024 transfers", count(&call.transfers) > 1_024);
        let (new, short) = (after.len() - before.len(), held + 1 == after.len());
        self.note("9: over 1,024 new lines", new > 1_024);
        self.note("9: 3,072 new lines, a row short", new == 3_072 && short);
        self.note("9: 3,073 new lines, a row short", new == 3_073 && short);
        self.note("9: over 3,072 new lines", new > 3_072);
        self.note("9: a tail that is not zero", dirty(call));
        self.note("9 and 10", passes_limit(call.fed, &call.transfers));
    }

    fn limit(&mut self, call: &Call) {
        let over = call.fed as usize + count(&call.transfers) - u32::MAX as usize;
        self.note("10: one too many", over == 1);
        self.note("10: many too many", over > 10);
        self.note("10: a tail that is not zero", dirty(call));
    }

    fn accepted(&mut self, call: &Call, reply: &Reply) {
        let before = read(&call.report, call.rows, call.fed).expect("in order");
        let mut after = before.clone();
        feed(&mut after, &call.transfers);
        let (held, fed) = (call.report.len() / ROW, count(&call.transfers));
        let (new, dirty) = (after.len() - before.len(), dirty(call));
        self.note("empty table", fed == 0);
        self.note("empty table, a tail that is not zero", fed == 0 && dirty);
        self.note("empty table at the limit", fed == 0 && call.fed == u32::MAX);
        self.note("empty report", call.rows == 0 && fed > 0);
        self.note("empty report, transfers fed", call.rows == 0 && call.fed > 0);
        self.note("empty report and table", call.rows == 0 && fed == 0);
        self.note("no buffer", call.report.is_empty());
        self.note("a tail that is not zero", dirty && fed > 0);
        self.note("a buffer that becomes full", after.len() * ROW == call.report.len() && new > 0);
        self.note("a buffer with part of a row", call.report.len() % ROW != 0);
        self.note("room for three lines a transfer", held == call.rows + 3 * fed && fed > 0);
        self.note("a row less than three lines a transfer", held + 1 == call.rows + 3 * fed);
        self.note("the last transfer of all", reply.answer.fed == u32::MAX && fed > 0);
        self.lines(call, &before, &after);
        self.sums(call, &before, &after);
        self.note("1,024 transfers", fed == 1_024);
        let (many, tight) = (fed > 1_024, held == after.len());
        self.note("over 1,024 transfers", many);
        self.note("over 1,024 transfers, no room to spare", many && tight);
        self.note("over 1,024 transfers, few lines", many && after.len() < 32);
        self.note("over 1,024 new lines", new > 1_024);
        self.note("over 1,024 new lines, no room to spare", new > 1_024 && tight);
        self.note("3,072 new lines, no room to spare", new == 3_072 && tight);
        self.note("3,073 new lines, no room to spare", new == 3_073 && tight);
        self.note("6,144 new lines, no room to spare", new == 6_144 && tight);
        self.note("over 3,072 new lines", new > 3_072);
        self.note("over 3,072 new lines, no room to spare", new > 3_072 && tight);
        self.note("over 1,024 lines before", before.len() > 1_024 && fed > 0);
    }

    /// Where new lines stand among those before, and what lines look like.
    fn lines(&mut self, call: &Call, before: &Lines, after: &Lines) {
        let new = || after.keys().filter(|line| !before.contains_key(*line));
        self.note("no new line", new().next().is_none() && !call.transfers.is_empty());
        let (first, last) = (before.keys().next(), before.keys().next_back());
        let front = first.is_some_and(|first| new().any(|line| line < first));
        let end = last.is_some_and(|last| new().any(|line| line > last));
        let inside = |line: &Line| first.is_some_and(|first| line > first) && Some(line) < last;
        self.note("a new line before the first", front);
        self.note("a new line between", new().any(inside));
        self.note("a new line behind the last", end);
        self.note("a new line before the first and one behind the last", front && end);
        let behind = |line: &Line, flag: usize| {
            line[flag] == 0 && line[flag + 1..flag + 33].iter().any(|byte| *byte != 0)
        };
        let mint = before.keys().any(|line| behind(line, 0));
        self.note("a report's line with bytes behind a mint flag of 0", mint);
        let account = before.keys().any(|line| behind(line, 33));
        self.note("a report's line with bytes behind an account flag of 0", account);
        let neighbours = || after.keys().zip(after.keys().skip(1));
        let alike = |at: usize| {
            neighbours().any(|(one, next)| {
                one[..at] == next[..at] && one[at] != next[at] && one[at + 1..] == next[at + 1..]
            })
        };
        self.note("lines that differ in the last byte only", alike(65));
        self.note("lines that differ in the first byte of the account only", alike(34));
        let by_mint = after.keys().any(|line| {
            let mut other = *line;
            other[1] = other[1].wrapping_add(1);
            line[0] == 1 && after.contains_key(&other)
        });
        self.note("lines that differ in the first byte of the mint only", by_mint);
    }

    fn sums(&mut self, call: &Call, before: &Lines, after: &Lines) {
        let was = |line: &Line| before.get(line).copied().unwrap_or_default();
        let carried = |of: fn(&Sums) -> u128| {
            after.iter().any(|(line, sums)| of(sums) >> 64 > of(&was(line)) >> 64)
        };
        self.note("a carry in debits", carried(|sums| sums.0));
        self.note("a carry in credits", carried(|sums| sums.1));
        self.note("a carry in fees", carried(|sums| sums.2));
        let greatest = |sums: &Sums| [sums.0, sums.1, sums.2].into_iter().max().unwrap_or(0);
        let most = before.values().any(|sums| greatest(sums) == SUM_LIMIT - 1);
        self.note("a sum of 2 to the 96th less 1", most);
        let passes = after.values().any(|sums| greatest(sums) >= SUM_LIMIT);
        self.note("a sum that passes 2 to the 96th", passes);
        let equal = |sums: &Sums| sums.3 == u64::from(call.fed) && sums.3 > 0;
        self.note("a count equal to the transfers fed", before.values().any(equal));
    }

    fn transfers(&mut self, call: &Call) {
        let before = read(&call.report, call.rows, call.fed).expect("in order");
        let rows: Vec<&[u8]> = call.transfers.chunks_exact(TRANSFER).collect();
        let all: Vec<Transfer> = rows.iter().map(|row| Transfer::of(row)).collect();
        let summed = |one: &Transfer| one.fee.is_some_and(|fee| fee <= one.amount);
        let apart = all.iter().filter(|one| !summed(one)).count();
        self.note("only transfers counted apart", !all.is_empty() && apart == all.len());
        self.note("over 1,024 transfers counted apart", apart > 1_024);
        let mut touched = BTreeMap::new();
        let mut mints_of = BTreeMap::new();
        for (one, row) in all.iter().zip(&rows) {
            let Transfer { mint, source, destination, amount, fee } = one;
            *touched.entry(line(mint, None)).or_insert(0) += 1;
            if summed(one) {
                *touched.entry(line(mint, Some(source))).or_insert(0) += 1;
                *touched.entry(line(mint, Some(destination))).or_insert(0) += 1;
                mints_of.entry(source).or_insert_with(BTreeSet::new).insert(mint);
                mints_of.entry(destination).or_insert_with(BTreeSet::new).insert(mint);
                self.note("source and destination the same", source == destination);
                self.note("account of zeros", *source == [0; 32] || *destination == [0; 32]);
                self.note("account that is a mint", mint[0] == 1 && mint[1..] == source[..]);
            }
            self.note("fee absent", fee.is_none());
            let behind = row[142..].iter().any(|byte| *byte != 0);
            self.note("fee absent, bytes behind the flag", fee.is_none() && behind);
            self.note("fee 0", *fee == Some(0));
            self.note("fee equal to the amount", *fee == Some(*amount) && *amount > 0);
            let above = amount.checked_add(1);
            self.note("fee one above the amount", fee.is_some() && *fee == above);
            let below = amount.checked_sub(1);
            self.note("fee one below the amount", fee.is_some() && *fee == below);
            self.note("amount 0", *amount == 0 && summed(one));
            self.note("amount 0, fee absent", *amount == 0 && fee.is_none());
            self.note("the greatest amount", *amount == u64::MAX && summed(one));
            let both = *amount == u64::MAX && *fee == Some(u64::MAX);
            self.note("the greatest amount and fee", both);
        }
        let absent = |behind: bool| {
            rows.iter().any(|row| row[100] == 0 && (row[101..133] != [0; 32]) == behind)
        };
        let zeros = all.iter().any(|one| one.mint == super::transfers::flagged(1, [0; 32]));
        self.note("mint absent", absent(false));
        self.note("mint absent, bytes behind the flag", absent(true));
        self.note("mint absent, with bytes and without", absent(true) && absent(false));
        self.note("mint of zeros", zeros);
        self.note("mint absent and mint of zeros", zeros && absent(false));
        self.note("two mints of one account", mints_of.values().any(|mints| mints.len() > 1));
        self.note("a line that was there", touched.keys().any(|line| before.contains_key(line)));
        self.note("a line touched over 100 times", touched.values().any(|times| *times > 100));
    }
}
