//! A month as text, page and comma-separated values, held to sums that are made here one transfer after
//! the other.

use mbelaguy::pack::{Balance, Instruction, KeyRow, Pack};
use mbelaguy::rows::Transfer;
use mbelaguy::{base58, ids, route, Key, Names, Tables};
use show::month::{csv, page, text, Count, Ledger, LeftOut};
use show::Keys;
use std::collections::{BTreeMap, BTreeSet};

mod alone;

/// Numbers that look like chance (SplitMix64).
struct Chance(u64);

impl Chance {
    fn next(&mut self) -> u64 {
        self.0 = self.0.wrapping_add(0x9e37_79b9_7f4a_7c15);
        let z = (self.0 ^ (self.0 >> 30)).wrapping_mul(0xbf58_476d_1ce4_e5b9);
        let z = (z ^ (z >> 27)).wrapping_mul(0x94d0_49bb_1331_11eb);
        z ^ (z >> 31)
    }

    fn below(&mut self, end: usize) -> usize {
        (self.next() % end as u64) as usize
    }

    fn one<T: Copy>(&mut self, of: &[T]) -> T {
        of[self.below(of.len())]
    }
}

const ACCOUNTS: usize = 8;
const MINTS: [Key; 4] = [ids::WRAPPED_SOL, [201; 32], [202; 32], [203; 32]];

/// Ten transfers of every kind between eight accounts, of some of which a mint or two are recorded.
fn pack(chance: &mut Chance) -> Pack {
    let accounts: Vec<Key> =
        (0..ACCOUNTS).map(|k| [1 + 8 * chance.below(6) as u8 + k as u8; 32]).collect();
    let programs = [ids::SPL_TOKEN, ids::TOKEN_2022];
    let keys = accounts.iter().chain(&MINTS).chain(&programs).copied();
    let of = |account: usize| MINTS[account % MINTS.len()];
    let mut balances: Vec<_> =
        (0..ACCOUNTS).map(|k| Balance { account: k as u32, mint: of(k) }).collect();
    balances.retain(|_| chance.below(3) == 0);
    if chance.below(4) == 0 {
        balances.push(Balance { account: chance.below(ACCOUNTS) as u32, mint: chance.one(&MINTS) });
    }
    let outer = (0..10).map(|_| transfer(chance)).collect();
    let keys = keys.map(|key| KeyRow { whole: true, key }).collect();
    Pack { keys, balances, outer, ..Pack::default() }
}

fn transfer(chance: &mut Chance) -> Instruction {
    let [source, destination] = [0; 2].map(|_| chance.below(ACCOUNTS) as u8);
    let mint = (ACCOUNTS + usize::from(source) % MINTS.len()) as u8;
    let amount = match chance.below(4) {
        0 => u64::MAX,
        1 => chance.next(),
        _ => chance.next() % 1_000_000,
    };
    let fee = chance.one(&[0, amount, amount / 3, amount.saturating_add(1)]);
    let (amount, fee) = (amount.to_le_bytes(), fee.to_le_bytes());
    let plain = vec![source, destination, source];
    let checked = vec![source, mint, destination, source];
    let (spl_token, token_2022) = (ACCOUNTS + MINTS.len(), ACCOUNTS + MINTS.len() + 1);
    let either = chance.one(&[spl_token, token_2022]);
    let (program, accounts, data) = match chance.below(5) {
        0 | 1 => (either, plain, [&[3][..], &amount].concat()),
        2 => (either, checked, [&[12][..], &amount, &[6]].concat()),
        _ => (token_2022, checked, [&[26, 1][..], &amount, &[6], &fee].concat()),
    };
    Instruction { program: program as u32, accounts, data }
}

/// A month of packs, and their transfers.
fn month(packs: usize) -> (Ledger, Vec<Transfer>) {
    let mut chance = Chance(packs as u64);
    let (mut count, mut transfers) = (Count::default(), Vec::new());
    for _ in 0..packs {
        let pack = pack(&mut chance).write().unwrap();
        count.add(&Names::ORIGINAL.bytes(), &pack).unwrap();
        let mut tables = Tables::full();
        route(&Names::ORIGINAL.bytes(), &pack, &mut tables).unwrap();
        transfers.extend(tables.transfers());
    }
    (count.close(vec![]).unwrap(), transfers)
}

/// What a line has to say. How the mint is known is told on mints' lines alone.
#[derive(Clone, Default)]
struct Sums {
    debits: u128,
    credits: u128,
    fees: u128,
    transfers: u32,
    apart: u32,
    known: BTreeMap<String, u32>,
}

/// The lines by mint and account; without account the mint's own.
type Lines = BTreeMap<(Option<Key>, Option<Key>), Sums>;

fn added_up(transfers: &[Transfer]) -> Lines {
    let mut lines = Lines::new();
    for row in transfers {
        let mint = row.mint.key();
        let own = lines.entry((mint, None)).or_default();
        own.transfers += 1;
        *own.known.entry(row.mint.to_string()).or_default() += 1;
        let Some(fee) = row.fee.filter(|fee| *fee <= row.amount) else {
            own.apart += 1;
            continue;
        };
        let (amount, fee) = (u128::from(row.amount), u128::from(fee));
        for account in [None, Some(row.source)] {
            lines.entry((mint, account)).or_default().debits += amount;
        }
        for account in [None, Some(row.destination)] {
            let line = lines.entry((mint, account)).or_default();
            line.credits += amount - fee;
            line.fees += fee;
        }
    }
    lines
}

/// The sum of all mints' lines.
fn all_mints(lines: &Lines) -> Sums {
    let mut all = Sums::default();
    for (_, sums) in lines.iter().filter(|((_, account), _)| account.is_none()) {
        all.debits += sums.debits;
        all.credits += sums.credits;
        all.fees += sums.fees;
        all.transfers += sums.transfers;
        all.apart += sums.apart;
        for (known, transfers) in &sums.known {
            *all.known.entry(known.clone()).or_default() += transfers;
        }
    }
    all
}

fn with_commas(number: u128) -> String {
    match number {
        0..1_000 => number.to_string(),
        _ => format!("{},{:03}", with_commas(number / 1_000), number % 1_000),
    }
}

/// The cells of both tables for a person, with keys in full.
fn tables(lines: &Lines) -> [Vec<Vec<String>>; 2] {
    let name = |key: Key| ids::name(&key).map_or_else(|| base58::encode(&key), String::from);
    let mint_of = |mint: Option<Key>| mint.map_or("unknown".to_string(), name);
    let sums = |sums: &Sums| [sums.debits, sums.credits, sums.fees].map(with_commas);
    let totals = |first: String, line: &Sums| {
        let counts = [line.transfers, line.apart].map(|count| with_commas(count.into()));
        let words = ["recorded", "filled in", "in doubt", "no evidence", "contradictory evidence"];
        let known = words.iter().filter_map(|words| {
            let transfers = line.known.get(*words)?;
            Some(format!("{} {words}", with_commas(u128::from(*transfers))))
        });
        let known = known.collect::<Vec<_>>().join(", ");
        [vec![first], sums(line).to_vec(), counts.to_vec(), vec![known]].concat()
    };
    let (mut mints, mut accounts) = (vec![], vec![]);
    for ((mint, account), line) in lines {
        match account {
            None => mints.push(totals(mint_of(*mint), line)),
            Some(key) => {
                accounts.push([vec![mint_of(*mint), name(*key)], sums(line).to_vec()].concat())
            }
        }
    }
    mints.push(totals("all mints".to_string(), &all_mints(lines)));
    [mints, accounts]
}

const HEADINGS: [&[&str]; 2] = [
    &["mint", "debits", "credits", "fees", "transfers", "counted apart", "marks"],
    &["mint", "account", "debits", "credits", "fees"],
];

/// The month has everything that is to be told apart, and more transfers than one feed takes.
#[test]
fn a_month_of_every_kind() {
    let (ledger, transfers) = month(600);
    let lines = added_up(&transfers);
    let all = all_mints(&lines);
    assert_eq!((ledger.packs, transfers.len(), all.transfers), (600, 6_000, 6_000));
    let known: Vec<_> = all.known.keys().map(String::as_str).collect();
    let every = ["contradictory evidence", "filled in", "in doubt", "no evidence", "recorded"];
    assert_eq!(known, every);
    assert_eq!(all.debits, all.credits + all.fees);
    assert!(all.fees > u128::from(u64::MAX) && all.apart > 0);
    let has = |what: fn(&Transfer) -> bool| assert!(transfers.iter().any(what));
    has(|row| row.fee.is_none());
    has(|row| row.fee.is_some_and(|fee| fee > row.amount));
    has(|row| row.fee.is_some_and(|fee| fee == row.amount && fee > 0));
    has(|row| row.fee.is_some() && row.source == row.destination);
}

#[test]
fn the_text_is_what_the_transfers_add_up_to() {
    let (ledger, transfers) = month(600);
    let lines = added_up(&transfers);
    let accounts: BTreeSet<_> = lines.keys().filter_map(|(_, account)| *account).collect();
    let shown = text(&ledger, Keys::Full);
    let mut shown = shown.lines();
    let first =
        format!("month of 600 packs: 6,000 transfers, 4 mints, {} accounts", accounts.len());
    assert_eq!(shown.next(), Some(&first[..]));
    assert!(shown.next().is_some_and(|note| note.ends_with("is in no sum.")));
    for ((title, headings), expected) in
        ["Mints", "Accounts"].into_iter().zip(HEADINGS).zip(tables(&lines))
    {
        assert_eq!([shown.next(), shown.next()], [Some(""), Some(title)]);
        let cells = |line: &str| -> Vec<String> {
            let cells = line.split("  ").map(str::trim).filter(|cell| !cell.is_empty());
            cells.map(String::from).collect()
        };
        assert_eq!(shown.next().map(cells).unwrap(), headings);
        for row in expected {
            assert_eq!(shown.next().map(cells), Some(row));
        }
    }
    assert_eq!(shown.next(), None);
}

#[test]
fn the_page_is_what_the_transfers_add_up_to() {
    let (ledger, transfers) = month(600);
    let page = page("a", &ledger, Keys::Full);
    assert!(page.contains("<li>600 packs</li><li>6,000 transfers</li><li>4 mints</li>"));
    let shown: Vec<_> = page.split("<table>").skip(1).map(rows).collect();
    let expected = tables(&added_up(&transfers));
    assert_eq!(shown.len(), 2);
    for ((shown, headings), expected) in shown.iter().zip(HEADINGS).zip(expected) {
        assert_eq!(shown[0], headings);
        assert_eq!(shown[1..], expected);
    }
}

/// The cells of a table's rows, marks with commas between them.
fn rows(table: &str) -> Vec<Vec<String>> {
    let table = table.split("</table>").next().unwrap().replace("</span> <span", ", <span");
    let plain = |cell: &str| {
        let pieces =
            cell.split('<').map(|piece| piece.split_once('>').map_or(piece, |(_, text)| text));
        pieces.collect::<String>()
    };
    let cells = |row: &str| {
        let row = row.replace("<td", "<th").replace("</td", "</th");
        let cells = row.split("<th").skip(1).filter(|cell| !cell.starts_with("ead"));
        cells.map(|cell| plain(&format!("<{}", cell.split("</th>").next().unwrap()))).collect()
    };
    table.split("<tr>").skip(1).map(cells).collect()
}

#[test]
fn the_values_are_what_the_transfers_add_up_to() {
    let (ledger, transfers) = month(600);
    let written = records(&csv(&ledger));
    let heading = "row mint account debits credits fees counted_apart transfers filled_in in_doubt";
    assert_eq!(written[0], heading.split(' ').collect::<Vec<_>>());
    let mut expected = Vec::new();
    for ((mint, account), line) in added_up(&transfers) {
        let key = |key: Option<Key>| key.map(|key| base58::encode(&key));
        let mint = key(mint).unwrap_or("unknown".to_string());
        let sums = [line.debits, line.credits, line.fees].map(|sum| sum.to_string());
        let known = |words: &str| line.known.get(words).copied().unwrap_or(0);
        let told = [line.transfers, known("filled in"), known("in doubt")];
        let (row, told) = match account {
            None => ("mint", told.map(|count| count.to_string())),
            Some(_) => ("account", [""; 3].map(String::from)),
        };
        let keys = [row.to_string(), mint, key(account).unwrap_or_default()];
        expected.push([&keys[..], &sums, &[line.apart.to_string()], &told].concat());
    }
    assert_eq!(written[1..], expected);
    assert_eq!(expected.len(), ledger.month.lines().len());
    assert!(expected.iter().filter(|fields| fields[1] == "unknown").count() > 1);
}

/// The records of comma-separated values, by the letter of RFC 4180.
fn records(csv: &str) -> Vec<Vec<String>> {
    let (mut records, mut fields, mut field) = (vec![], vec![], String::new());
    let mut letters = csv.chars().peekable();
    while let Some(letter) = letters.next() {
        match letter {
            '"' if field.is_empty() => loop {
                match (letters.next().expect("the quote ends"), letters.peek()) {
                    ('"', Some('"')) => field.extend(letters.next()),
                    ('"', Some(',' | '\r')) => break,
                    ('"', _) => panic!("a quote inside {field}"),
                    (letter, _) => field.push(letter),
                }
            },
            ',' => fields.push(std::mem::take(&mut field)),
            '\r' => {
                assert_eq!(letters.next(), Some('\n'));
                fields.push(std::mem::take(&mut field));
                records.push(std::mem::take(&mut fields));
            }
            '"' | '\n' => panic!("{letter:?} without quotes in {field}"),
            letter => field.push(letter),
        }
    }
    assert!(field.is_empty() && fields.is_empty(), "the last line has its end");
    records
}

/// No field needs quotes, and a spreadsheet takes none for a formula.
#[test]
fn values_are_letters_and_digits() {
    assert_eq!(records("a,\"b,\"\"c\"\"\r\n\",\r\n"), [["a", "b,\"c\"\r\n", ""]]);
    let (ledger, _) = month(20);
    for field in records(&csv(&ledger)).concat() {
        assert!(field.chars().all(|letter| letter.is_ascii_alphanumeric() || letter == '_'));
    }
}

#[test]
fn an_empty_month() {
    let ledger = Count::default().close(vec![]).unwrap();
    let shown = text(&ledger, Keys::Short);
    assert!(shown.starts_with("month of 0 packs: 0 transfers, 0 mints, 0 accounts\n"));
    assert!(shown.ends_with("\nMints\n  none\n\nAccounts\n  none\n"));
    assert_eq!(records(&csv(&ledger)).len(), 1);
    assert_eq!(page("a", &ledger, Keys::Short).matches(">none<").count(), 2);
}

#[test]
fn a_pack_is_counted_whole_or_not_at_all() {
    let names = Names::ORIGINAL.bytes();
    let pack = pack(&mut Chance(1)).write().unwrap();
    let mut count = Count::default();
    count.add(&names, &pack).unwrap();
    assert!(count.add(&names, &pack[1..]).is_err());
    assert!(count.add(&names[1..], &pack).is_err());
    let left =
        |file: &str| LeftOut { file: file.to_string(), why: "<it> is \"spoiled\"".to_string() };
    let ledger = count.close(vec![left("a & b"), left("c")]).unwrap();
    assert_eq!((ledger.packs, ledger.month.fed()), (1, 10));
    let shown = text(&ledger, Keys::Short);
    assert_eq!(shown.lines().nth(1), Some("2 of 3 files are not counted"));
    let page = page("a", &ledger, Keys::Short);
    assert!(page.contains("<p>2 of 3 files are not counted</p>"));
    assert!(page.contains("<li>a &amp; b: &lt;it&gt; is &quot;spoiled&quot;</li>"));
}

#[test]
fn a_page_stands_alone() {
    let (ledger, _) = month(20);
    for keys in [Keys::Short, Keys::Full] {
        let page = page("<a>", &ledger, keys);
        assert!(page.contains("<title>&lt;a&gt;</title>"));
        alone::stands_alone(&page, keys);
    }
}
