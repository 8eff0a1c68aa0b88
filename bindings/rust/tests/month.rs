//! Months through the library, held to a plain computation; refusals, which leave everything as it was.

use mbelaguy::{
    month_into, Key, Month, MonthAnswer, MonthLine, Refusal, Totals, MAX_FED, REPORT_ROW,
};
use std::collections::BTreeMap;

/// A row of table 2, what is behind a flag of 0 included.
#[derive(Clone, Copy)]
struct Row {
    source: Key,
    destination: Key,
    mint: (bool, Key),
    amount: u64,
    fee: (bool, u64),
}

impl Row {
    const BYTES: usize = 150;

    fn bytes(&self) -> Vec<u8> {
        let (mint, fee) = (self.mint, self.fee);
        let ends = [[7; 32], self.source, self.destination].concat();
        let amount = self.amount.to_le_bytes();
        [
            &[9; 4],
            &ends[..],
            &[mint.0.into()],
            &mint.1,
            &amount,
            &[fee.0.into()],
            &fee.1.to_le_bytes(),
        ]
        .concat()
    }
}

/// From account 1 to account 2, a mint of 3s, no fee.
const PLAIN: Row = Row {
    source: [1; 32],
    destination: [2; 32],
    mint: (true, [3; 32]),
    amount: 1_000,
    fee: (true, 0),
};

fn table(rows: &[Row]) -> Vec<u8> {
    rows.iter().flat_map(Row::bytes).collect()
}

/// The same from the sentences of the format, line by line, with no library.
#[derive(Default)]
struct Plain(BTreeMap<(Option<Key>, Option<Key>), Totals>);

impl Plain {
    fn of(rows: &[Row]) -> Self {
        let mut plain = Plain::default();
        for row in rows {
            let mint = row.mint.0.then_some(row.mint.1);
            let (amount, fee) = (u128::from(row.amount), u128::from(row.fee.1));
            if !row.fee.0 || fee > amount {
                plain.line(mint, None).apart += 1;
                continue;
            }
            plain.line(mint, Some(row.source)).debits += amount;
            plain.line(mint, Some(row.destination)).credits += amount - fee;
            plain.line(mint, Some(row.destination)).fees += fee;
            plain.line(mint, None).debits += amount;
            plain.line(mint, None).credits += amount - fee;
            plain.line(mint, None).fees += fee;
        }
        plain
    }

    fn line(&mut self, mint: Option<Key>, account: Option<Key>) -> &mut Totals {
        self.0.entry((mint, account)).or_default()
    }

    /// In the order of the report: `None` comes before all keys.
    fn lines(&self) -> Vec<MonthLine> {
        let line = |(&(mint, account), sums): (&(Option<Key>, Option<Key>), &Totals)| MonthLine {
            mint,
            account,
            debits: sums.debits,
            credits: sums.credits,
            fees: sums.fees,
            apart: sums.apart as u32,
        };
        self.0.iter().map(line).collect()
    }

    fn bytes(&self) -> Vec<u8> {
        let flagged = |key: Option<Key>| key.map_or(vec![0; 33], |key| [&[1][..], &key].concat());
        let row = |line: MonthLine| {
            let sums = [line.debits, line.credits, line.fees].map(u128::to_le_bytes).concat();
            let apart = line.apart.to_le_bytes();
            [&flagged(line.mint), &flagged(line.account), &sums, &apart[..]].concat()
        };
        self.lines().into_iter().flat_map(row).collect()
    }
}

/// Numbers that look random.
struct Random(u64);

impl Random {
    fn next(&mut self) -> u64 {
        self.0 = self.0.wrapping_add(0x9e37_79b9_7f4a_7c15);
        let mixed = (self.0 ^ self.0 >> 30).wrapping_mul(0xbf58_476d_1ce4_e5b9);
        (mixed ^ mixed >> 27).wrapping_mul(0x94d0_49bb_1331_11eb) >> 8
    }

    fn below(&mut self, bound: usize) -> usize {
        (self.next() % bound as u64) as usize
    }

    /// One of so many keys, which differ in their first or in their last byte.
    fn key(&mut self, keys: usize) -> Key {
        let (number, mut key) = (self.below(keys), [200; 32]);
        key[..2].copy_from_slice(&((number / 3) as u16).to_be_bytes());
        key[31] = (number % 3) as u8;
        key
    }

    fn amount(&mut self) -> u64 {
        match self.below(4) {
            0 => u64::MAX,
            1 => self.below(3) as u64,
            _ => self.next(),
        }
    }

    fn row(&mut self, keys: usize) -> Row {
        let amount = self.amount();
        let fee = match self.below(4) {
            0 => amount,
            1 => self.amount(),
            _ => self.next() % 1_000,
        };
        Row {
            source: self.key(keys),
            destination: self.key(keys),
            mint: (self.below(5) > 0, [[0; 32], self.key(keys), self.key(3)][self.below(3)]),
            amount,
            fee: (self.below(5) > 0, fee),
        }
    }

    fn rows(&mut self, count: usize, keys: usize) -> Vec<Row> {
        (0..count).map(|_| self.row(keys)).collect()
    }

    fn shuffle<T>(&mut self, values: &mut [T]) {
        for last in (1..values.len()).rev() {
            values.swap(last, self.below(last + 1));
        }
    }
}

fn month(rows: &[Row]) -> Month {
    let mut month = Month::new();
    month.feed(&table(rows)).unwrap();
    month
}

fn lines(rows: &[Row]) -> Vec<MonthLine> {
    month(rows).lines().collect()
}

#[test]
fn a_transfer_stands_on_three_lines() {
    let row = Row { amount: 1_000, fee: (true, 30), ..PLAIN };
    let none =
        MonthLine { mint: Some([3; 32]), account: None, debits: 0, credits: 0, fees: 0, apart: 0 };
    let expected = [
        MonthLine { debits: 1_000, credits: 970, fees: 30, ..none },
        MonthLine { account: Some([1; 32]), debits: 1_000, ..none },
        MonthLine { account: Some([2; 32]), credits: 970, fees: 30, ..none },
    ];
    assert_eq!(lines(&[row]), expected);
    let month = month(&[row, row]);
    assert_eq!((month.fed(), month.bytes().len()), (2, 3 * REPORT_ROW));
    let totals = Totals { debits: 2_000, credits: 1_940, fees: 60, apart: 0 };
    assert_eq!(month.totals(), totals);
    assert_eq!(month.mints().count(), 1);
    assert_eq!(month.accounts().map(|line| line.debits).collect::<Vec<_>>(), [2_000, 0]);
}

#[test]
fn edges() {
    // To itself: one line takes all three. The whole amount as fee: a credit of 0.
    let itself = lines(&[Row { destination: [1; 32], fee: (true, 1_000), ..PLAIN }]);
    let own = itself[1];
    assert_eq!((itself.len(), own.debits, own.credits, own.fees), (2, 1_000, 0, 1_000));
    // Fee above the amount, or unknown: counted on the mint's line alone.
    let above = Row { fee: (true, 1_001), ..PLAIN };
    let unknown = Row { fee: (false, 0), ..PLAIN };
    let apart = lines(&[above, unknown, unknown]);
    assert_eq!((apart.len(), apart[0].debits, apart[0].apart), (1, 0, 3));
    // What is behind a flag of 0 is no mint and no fee; a mint of zeroes is one.
    let mints = [(false, [9; 32]), (false, [8; 32]), (true, [0; 32])];
    let rows = mints.map(|mint| Row { mint, fee: (false, 5), ..PLAIN });
    let mints: Vec<_> = lines(&rows).iter().map(|line| (line.mint, line.apart)).collect();
    assert_eq!(mints, [(None, 2), (Some([0; 32]), 1)]);
    // Beyond 64 bits.
    let most = [Row { amount: u64::MAX, fee: (true, u64::MAX / 2), ..PLAIN }; 5];
    assert_eq!(month(&most).totals().debits, 5 * u128::from(u64::MAX));
}

#[test]
fn any_transfers_cut_anywhere_in_any_order() {
    for seed in 0..200 {
        let random = &mut Random(seed);
        let (count, keys) = (random.below(120), 1 + random.below(40));
        let mut rows = random.rows(count, keys);
        let plain = Plain::of(&rows);
        let once = month(&rows);
        assert!(once.bytes() == plain.bytes(), "seed {seed}");
        assert!(once.lines().eq(plain.lines()), "seed {seed}");
        assert_eq!(once.fed() as usize, count);

        random.shuffle(&mut rows);
        let mut cut = Month::new();
        let mut rest = &rows[..];
        while !rest.is_empty() {
            let (now, later) = rest.split_at(random.below(rest.len() + 1));
            cut.feed(&table(now)).unwrap();
            rest = later;
        }
        assert!(cut == once, "seed {seed}");
    }
}

#[test]
fn totals_are_those_of_the_transfers() {
    for seed in 0..50 {
        let rows = Random(seed).rows(100, 20);
        let (summed, apart): (Vec<Row>, Vec<Row>) =
            rows.iter().partition(|row| row.fee.0 && row.fee.1 <= row.amount);
        let sum = |field: fn(&Row) -> u64| summed.iter().map(|row| u128::from(field(row))).sum();
        let expected = Totals {
            debits: sum(|row| row.amount),
            credits: sum(|row| row.amount - row.fee.1),
            fees: sum(|row| row.fee.1),
            apart: apart.len() as u64,
        };
        let month = month(&rows);
        assert_eq!(month.totals(), expected, "seed {seed}");
        assert_eq!(expected.debits, expected.credits + expected.fees);
        // The accounts' lines sum up to the same, but for the transfers counted apart.
        let sum = |field: fn(MonthLine) -> u128| month.accounts().map(field).sum::<u128>();
        let sums = [sum(|line| line.debits), sum(|line| line.credits), sum(|line| line.fees)];
        assert_eq!(sums, [expected.debits, expected.credits, expected.fees], "seed {seed}");
        assert!(month.accounts().all(|line| line.apart == 0));
        assert_eq!(month.mints().count() + month.accounts().count(), month.lines().len());
    }
}

/// 4,096 transfers are handed to the library at once.
#[test]
fn large_feeds() {
    let rows = Random(1).rows(10_000, 9_000);
    for count in [4_095, 4_096, 4_097, 10_000] {
        let (month, plain) = (month(&rows[..count]), Plain::of(&rows[..count]));
        assert!(month.bytes() == plain.bytes() && month.fed() as usize == count, "{count} rows");
    }
}

/// As many rows as are needed, and a byte less: the library has to count the new ones.
#[test]
fn room_that_just_suffices() {
    for count in [1, 30, 500, 2_000] {
        let rows = Random(5).rows(2 * count, 9_000);
        let (first, second) = (month(&rows[..count]), table(&rows[count..]));
        let (used, plain) = (first.lines().len(), Plain::of(&rows).bytes());
        let mut report = [first.bytes(), &vec![255; plain.len() - first.bytes().len()]].concat();
        let short = &report[..plain.len() - 1];
        assert_eq!(refused(short, used, first.fed(), &second), Some(Refusal::ReportRows));
        let answer = month_into(&mut report, used, first.fed(), &second);
        assert_eq!((answer.number, answer.fed as usize), (0, 2 * count));
        assert!(report == plain, "{count} rows");
    }
}

/// A bad row far behind, or a partial one at the end: nothing of what stands before it is fed.
#[test]
fn an_error_leaves_the_month_as_it_was() {
    let rows = Random(2).rows(10_000, 20);
    let before = month(&rows[..50]);
    for count in [1, 4_096, 4_097, 10_000] {
        let mut month = before.clone();
        let mut bad = table(&rows[..count]);
        for flag in [100, 141] {
            let at = (count - 1) * Row::BYTES + flag;
            let good = std::mem::replace(&mut bad[at], 2);
            assert_eq!(month.feed(&bad), Err(Refusal::TransferTable));
            bad[at] = good;
        }
        bad.pop();
        assert_eq!(month.feed(&bad), Err(Refusal::TransferTable));
        assert!(month == before, "{count} rows");
    }
}

#[test]
fn a_month_has_a_limit() {
    let kept = month(&[PLAIN]).bytes().to_vec();
    let mut full = Month::read(kept.clone(), MAX_FED - 2).unwrap();
    assert_eq!(full.feed(&table(&[PLAIN; 3])), Err(Refusal::Limit));
    assert_eq!(full, Month::read(kept.clone(), MAX_FED - 2).unwrap());
    assert_eq!(full.feed(&table(&[PLAIN; 2])), Ok(()));
    assert_eq!((full.fed(), full.totals().debits), (MAX_FED, 3_000));
    assert_eq!(full.feed(&table(&[PLAIN])), Err(Refusal::Limit));
    assert_eq!(full.feed(&[]), Ok(()));

    // Passed in the middle of a large feed; a bad row comes before it, though it stands behind.
    let before = Month::read(kept, MAX_FED - 5_000).unwrap();
    let (mut full, mut rows) = (before.clone(), table(&[PLAIN; 10_000]));
    assert_eq!(full.feed(&rows), Err(Refusal::Limit));
    assert_eq!(full, before);
    rows[9_999 * Row::BYTES + 100] = 2;
    assert_eq!(full.feed(&rows), Err(Refusal::TransferTable));
    assert_eq!(full, before);
    assert_eq!(full.feed(&rows[..5_000 * Row::BYTES]), Ok(()));
    assert_eq!(full.fed(), MAX_FED);
}

#[test]
fn a_kept_month_goes_on() {
    let rows = Random(3).rows(300, 20);
    let first = month(&rows[..100]);
    let mut kept = Month::read(first.bytes().to_vec(), first.fed()).unwrap();
    assert_eq!(kept, first);
    kept.feed(&table(&rows[100..])).unwrap();
    assert_eq!(kept, month(&rows));
}

/// Sums that no transfers have: they pass 2 to the 96th in the first part, and the second finds them so.
#[test]
fn a_kept_month_with_false_sums_is_refused() {
    let mut bytes = month(&[PLAIN]).bytes().to_vec();
    bytes[66..78].fill(255);
    let before = Month::read(bytes, 1).unwrap();
    let mut month = before.clone();
    assert_eq!(month.feed(&table(&[PLAIN; 10_000])), Err(Refusal::Report));
    assert_eq!(month, before);
    assert_eq!(month.feed(&table(&[PLAIN])), Ok(()));
    assert_eq!(month.feed(&table(&[PLAIN])), Err(Refusal::Report));
    assert_eq!(month.fed(), 2);
}

/// What is read as a month is what the library takes for a report.
#[test]
fn reading_refuses_what_the_library_refuses() {
    let random = &mut Random(4);
    let mut refused = 0;
    for _ in 0..3_000 {
        let (count, keys) = (random.below(6), 1 + random.below(4));
        let month = month(&random.rows(count, keys));
        let (mut bytes, mut fed) = (month.bytes().to_vec(), month.fed());
        if !bytes.is_empty() {
            let row = random.below(bytes.len() / REPORT_ROW) * REPORT_ROW;
            match random.below(5) {
                0 => bytes[row + [0, 33][random.below(2)]] = random.below(3) as u8,
                1 => bytes[row + 66 + random.below(48)] = random.next() as u8,
                2 => bytes[row + 114] = random.below(8) as u8,
                3 => fed = random.below(6) as u32,
                _ => bytes.rotate_left(row),
            }
        }
        let rows = bytes.len() / REPORT_ROW;
        let answer = month_into(&mut bytes.clone(), rows, fed, &[]);
        let read = Month::read(bytes.clone(), fed);
        assert_eq!(read.as_ref().err().copied(), answer.refusal());
        refused += usize::from(read.is_err());
        bytes.push(0);
        assert_eq!(Month::read(bytes, fed), Err(Refusal::Report));
    }
    assert!((300..2_700).contains(&refused), "{refused} of them refused");
}

/// A call that is refused: the answer, and the report as it was.
fn refused(report: &[u8], rows: usize, fed: u32, transfers: &[u8]) -> Option<Refusal> {
    let mut lent = report.to_vec();
    let answer = month_into(&mut lent, rows, fed, transfers);
    assert_eq!(lent, report);
    assert_eq!((answer.place, answer.rows, answer.fed), (0, rows as u64, fed));
    answer.refusal()
}

#[test]
fn refusals_of_the_library() {
    let (report, more) =
        (month(&[PLAIN]).bytes().to_vec(), table(&[Row { source: [4; 32], ..PLAIN }]));
    let with_tail = [&report[..], &[255; REPORT_ROW - 1]].concat();
    let some = |refusal| Some(refusal);

    for length in [1, 149, 151, 299] {
        let partial = vec![0; length];
        assert_eq!(refused(&with_tail, 3, 1, &partial), some(Refusal::TransferTable));
    }
    for flag in [100, 141] {
        let mut bad = more.clone();
        bad[flag] = 2;
        assert_eq!(refused(&with_tail, 3, 1, &bad), some(Refusal::TransferTable));
    }

    for rows in [4, 5, usize::MAX / REPORT_ROW + 2, usize::MAX] {
        assert_eq!(refused(&with_tail, rows, 1, &more), some(Refusal::Report));
    }
    assert_eq!(refused(&[], 1, 0, &[]), some(Refusal::Report));
    let bad: [fn(&mut Vec<u8>); 8] = [
        |report| report[0] = 2,
        |report| report[2 * REPORT_ROW + 33] = 2,
        |report| report.copy_within(..REPORT_ROW, REPORT_ROW),
        |report| report.rotate_left(REPORT_ROW),
        |report| report[66 + 12] = 1,
        |report| report[82 + 15] = 1,
        |report| report[REPORT_ROW + 98 + 12] = 255,
        |report| report[114] = 2,
    ];
    for spoil in bad {
        let mut report = report.clone();
        spoil(&mut report);
        assert_eq!(refused(&[&report[..], &[1; 400]].concat(), 3, 1, &more), some(Refusal::Report));
    }

    assert_eq!(refused(&with_tail, 3, 1, &more), some(Refusal::ReportRows));
    assert_eq!(refused(&[], 0, 0, &more), some(Refusal::ReportRows));
    let room = [&report[..], &[255; REPORT_ROW + 5]].concat();
    assert_eq!(refused(&room, 3, MAX_FED, &more), some(Refusal::Limit));
}

#[test]
fn refusals_come_in_their_order() {
    let report = month(&[PLAIN]).bytes().to_vec();
    let good = table(&[Row { source: [4; 32], ..PLAIN }]);
    let (mut bad, mut spoilt) = (good.clone(), report.clone());
    bad[141] = 9;
    spoilt[0] = 9;
    let room = |report: &[u8]| [report, &[0; REPORT_ROW]].concat();
    assert_eq!(refused(&spoilt, 3, MAX_FED, &bad), Some(Refusal::TransferTable));
    assert_eq!(refused(&spoilt, 3, MAX_FED, &good), Some(Refusal::Report));
    assert_eq!(refused(&report, 3, MAX_FED, &good), Some(Refusal::ReportRows));
    assert_eq!(refused(&room(&report), 3, MAX_FED, &good), Some(Refusal::Limit));
}

#[test]
fn bytes_behind_the_last_row_become_0() {
    let plain = Plain::of(&[PLAIN]).bytes();
    for length in [3 * REPORT_ROW, 3 * REPORT_ROW + 1, 5 * REPORT_ROW] {
        let mut report = vec![255; length];
        let expected = MonthAnswer { number: 0, place: 0, rows: 3, fed: 8 };
        assert_eq!(month_into(&mut report, 0, 7, &table(&[PLAIN])), expected);
        let zeroed = [&plain[..], &vec![0; length - plain.len()]].concat();
        assert_eq!(report, zeroed);
        report[plain.len()..].fill(255);
        assert_eq!(month_into(&mut report, 3, 8, &[]), expected);
        assert_eq!(report, zeroed);
    }
    let mut report = [255; 117];
    assert_eq!(
        month_into(&mut report, 0, 5, &[]),
        MonthAnswer { fed: 5, ..MonthAnswer::default() }
    );
    assert_eq!(report, [0; 117]);
    assert_eq!(month_into(&mut [], 0, 0, &[]), MonthAnswer::default());
}
