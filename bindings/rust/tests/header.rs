//! The C header says what the crate says: numbers one by one, offsets by rows laid out as it tells.

use mbelaguy::pack::{self, Balance, Group, Inner, Instruction, KeyRow, Pack};
use mbelaguy::rows::{
    Action, Invocation, Lack, Leg, Mark, Mint, MintRow, Mode, Native, Protocol, Reason, Transfer,
};
use mbelaguy::{
    ids, Answer, Key, Month, MonthLine, Names, Refusal, Section, Table, Tables, MAX_FED,
    MAX_INVOCATIONS, MAX_KEYS, MAX_PASSES, REPORT_ROW, WIDTHS,
};
use std::collections::BTreeMap;

const HEADER: &str = include_str!("../../c/mbelaguy.h");

/// A field by its name in the header, and its bytes.
type Field<'a> = (&'a str, &'a [u8]);

/// The numbers that the header defines, by name without `MBELAGUY_`.
struct Header(BTreeMap<&'static str, usize>);

impl Header {
    fn read() -> Self {
        let number = |line: &'static str| {
            let mut words = line.strip_prefix("#define MBELAGUY_")?.split_whitespace();
            Some((words.next()?, words.next()?.parse().ok()?))
        };
        Header(HEADER.lines().filter_map(number).collect())
    }

    fn get(&self, name: &str) -> usize {
        *self.0.get(name).unwrap_or_else(|| panic!("the header has no number {name}"))
    }

    /// A row of a table with these fields.
    fn row(&self, table: &str, fields: &[Field<'_>]) -> Vec<u8> {
        self.lay_out(table, "ROW", fields)
    }

    /// Bytes with these fields, as many as the header says of the whole.
    fn lay_out(&self, kind: &str, whole: &str, fields: &[Field<'_>]) -> Vec<u8> {
        let mut bytes = vec![0; self.get(&format!("{kind}_{whole}"))];
        for (name, field) in fields {
            let at = self.get(&format!("{kind}_{name}"));
            bytes[at..at + field.len()].copy_from_slice(field);
        }
        bytes
    }
}

#[test]
fn numbers() {
    let header = Header::read();
    let expected = [
        ("MAX_KEYS", MAX_KEYS),
        ("MAX_INVOCATIONS", MAX_INVOCATIONS),
        ("MAX_PASSES", MAX_PASSES),
        ("MAX_FED", MAX_FED as usize),
        ("NAMES_BYTES", Names::BYTES),
        ("NAMES_SWAP_BASE_IN", Names::SWAP_BASE_IN),
        ("NAMES_SWAP_BASE_OUT", Names::SWAP_BASE_OUT),
        ("NAMES_BUY", Names::BUY),
        ("NAMES_STANDARD", Names::STANDARD),
        ("NAMES_REWARD", Names::REWARD),
        ("PACK_MAX", pack::MAX_BYTES),
        ("TRAILER_BYTES", pack::TRAILER),
        ("KEY_ROW", pack::KEY_ROW),
        ("BALANCE_ROW", pack::BALANCE_ROW),
        ("POOL_ROW", pack::POOL_ROW),
        ("SECTION_KEYS", Section::Keys as usize),
        ("SECTION_BALANCES", Section::Balances as usize),
        ("SECTION_OUTER", Section::Outer as usize),
        ("SECTION_INNER", Section::Inner as usize),
        ("SECTION_POOLS", Section::Pools as usize),
        ("TABLE_MINTS", Table::Mints as usize),
        ("TABLE_INVOCATIONS", Table::Invocations as usize),
        ("TABLE_TRANSFERS", Table::Transfers as usize),
        ("TABLE_LEGS", Table::Legs as usize),
        ("TABLE_NATIVES", Table::Natives as usize),
        ("MINT_ROW", WIDTHS[0]),
        ("INVOCATION_ROW", WIDTHS[1]),
        ("TRANSFER_ROW", WIDTHS[2]),
        ("LEG_ROW", WIDTHS[3]),
        ("NATIVE_ROW", WIDTHS[4]),
        ("REPORT_ROW", REPORT_ROW),
        ("MARK_RECORDED", Mark::Recorded as usize),
        ("MARK_FILLED_IN", Mark::FilledIn as usize),
        ("MARK_IN_DOUBT", Mark::InDoubt as usize),
        ("BIT_TRANSFERS_INSIDE", Invocation::TRANSFERS_INSIDE.into()),
        ("BIT_SWAPS_INSIDE", Invocation::SWAPS_INSIDE.into()),
        ("BIT_SKIPPED", Invocation::SKIPPED.into()),
        ("BIT_RESOLVED", Invocation::RESOLVED.into()),
        ("BIT_OWN_LEG", Invocation::OWN_LEG.into()),
        ("BIT_OWN_TRANSFER", Invocation::OWN_TRANSFER.into()),
        ("REASON_TRANSFER", 0),
        ("REASON_NOT_TOKEN", Reason::NotToken as usize),
        ("REASON_UNSUPPORTED_TAG", Reason::UnsupportedTag as usize),
        ("REASON_TOO_FEW_ACCOUNTS", Reason::TooFewAccounts as usize),
        ("REASON_DATA_TOO_SHORT", Reason::DataTooShort as usize),
        ("REASON_ZERO_KEY", Reason::ZeroKey as usize),
        ("PROTOCOL_PUMP_SWAP", Protocol::PumpSwap as usize),
        ("PROTOCOL_LAUNCH_LAB", Protocol::LaunchLab as usize),
        ("PROTOCOL_CPMM", Protocol::Cpmm as usize),
        ("PROTOCOL_AMM_V4", Protocol::AmmV4 as usize),
        ("PROTOCOL_CLMM", Protocol::Clmm as usize),
        ("PROTOCOL_ORCA", Protocol::Orca as usize),
        ("PROTOCOL_DLMM", Protocol::Dlmm as usize),
        ("PROTOCOL_PUMP_FUN", Protocol::PumpFun as usize),
        ("MODE_NONE", 0),
        ("MODE_STANDARD", Mode::Standard as usize),
        ("MODE_REWARD", Mode::Reward as usize),
    ];
    for (name, value) in expected {
        assert_eq!(header.get(name), value, "{name}");
    }
}

#[test]
fn refusals() {
    let header = Header::read();
    assert_eq!(header.get("ACCEPTED"), 0);
    let named = [
        ("NAMES", Refusal::Names),
        ("MARK", Refusal::Mark),
        ("STARTS", Refusal::Starts),
        ("SECTION", Refusal::Section(Section::Keys)),
        ("KEYS", Refusal::Keys),
        ("BALANCES", Refusal::Balances),
        ("INVOCATIONS", Refusal::Invocations),
        ("PASSES", Refusal::Passes),
        ("ROOM", Refusal::Room(Table::Mints)),
        ("TRANSFER_TABLE", Refusal::TransferTable),
        ("REPORT", Refusal::Report),
        ("REPORT_ROWS", Refusal::ReportRows),
        ("LIMIT", Refusal::Limit),
    ];
    for (name, refusal) in named {
        assert_eq!(header.get(&format!("REFUSED_{name}")), refusal.number() as usize, "{name}");
    }
}

#[test]
fn original_names() {
    let (_, list) = HEADER.split_once("NAMES_ORIGINAL {").expect("the header has the names");
    let (list, _) = list.split_once('}').expect("the list ends");
    let byte = |text: &str| {
        let digits = text.trim_matches(|c: char| c == '\\' || c.is_whitespace());
        u8::from_str_radix(digits.strip_prefix("0x").expect("hex digits"), 16).expect("a byte")
    };
    assert_eq!(list.split(',').map(byte).collect::<Vec<_>>(), Names::ORIGINAL.bytes());
}

#[test]
fn packs() {
    let header = Header::read();
    let keys = header.row("KEY", &[("FLAG", &[1]), ("KEY", &key(1))]);
    let balances = header.row("BALANCE", &[("ACCOUNT", &[2, 3, 4, 5]), ("MINT", &key(6))]);
    let fields: &[Field<'_>] = &[("PROGRAM", &[7, 8, 9, 10]), ("ACCOUNTS", &[2]), ("DATA", &[1])];
    let mut outer = header.lay_out("INSTRUCTION", "HEADER", fields);
    outer.extend([11, 12, 13]);
    let mut inner =
        header.lay_out("GROUP", "HEADER", &[("OUTER", &[14, 15, 16, 17]), ("COUNT", &[1])]);
    let height: &[Field<'_>] = &[("FLAG", &[1]), ("HEIGHT", &[18, 19, 20, 21])];
    inner.extend(header.lay_out("HEIGHT", "BYTES", height));
    inner.extend(&outer);
    let sections = [keys, balances, outer, inner, key(22).to_vec()];
    let starts = [0, 33, 69, 80, 102].map(u32::to_le_bytes).concat();
    let trailer = header.lay_out("TRAILER", "BYTES", &[("STARTS", &starts), ("MARK", b"RTP1")]);

    let instruction = Instruction { program: 0x0a09_0807, accounts: vec![11, 12], data: vec![13] };
    let inner = Inner { height: Some(0x1514_1312), instruction: instruction.clone() };
    let expected = Pack {
        keys: vec![KeyRow { whole: true, key: key(1) }],
        balances: vec![Balance { account: 0x0504_0302, mint: key(6) }],
        outer: vec![instruction],
        groups: vec![Group { outer: 0x1110_0f0e, instructions: vec![inner] }],
        pools: vec![key(22)],
    };
    assert_eq!(pack::read(&[sections.concat(), trailer].concat()), Ok(expected));
}

const fn key(fill: u8) -> Key {
    [fill; 32]
}

/// Tables with at most one row each.
fn tables(rows: [Vec<u8>; 5]) -> Tables {
    let counts = rows.each_ref().map(|row| u32::from(!row.is_empty()));
    let pack = Pack::default().write().unwrap();
    Tables::read(&Answer { counts, ..Answer::default() }, rows, &pack).unwrap()
}

/// A row of table 0, in doubt.
fn mint_row(account: Key, mint: Key) -> Vec<u8> {
    let mark = [Mark::InDoubt as u8];
    let fields: &[Field<'_>] = &[("ACCOUNT", &account), ("MINT", &mint), ("MARK", &mark)];
    Header::read().row("MINT", fields)
}

#[test]
fn mint_rows() {
    let read = tables([mint_row(key(1), key(2)), vec![], vec![], vec![], vec![]]);
    let expected = MintRow { account: key(1), mint: key(2), mark: Mark::InDoubt };
    assert_eq!(read.mints().next(), Some(expected));
}

#[test]
fn invocation_rows() {
    let row = Header::read().row(
        "INVOCATION",
        &[
            ("OUTER", &[1, 2, 3, 4]),
            ("INNER_FLAG", &[1]),
            ("INNER", &[5, 6, 7, 8]),
            ("HEIGHT_FLAG", &[1]),
            ("HEIGHT", &[9, 10, 11, 12]),
            ("END", &[13, 14, 15, 16]),
            ("BITS", &[1 + 4 + 16]),
            ("LEG", &[18, 18, 19, 20]),
            ("PARENT", &[22, 22, 23, 24]),
            ("REASON", &[Reason::DataTooShort as u8]),
        ],
    );
    let expected = Invocation {
        outer: 0x0403_0201,
        inner: Some(0x0807_0605),
        height: Some(0x0c0b_0a09),
        end: 0x100f_0e0d,
        transfers_inside: true,
        swaps_inside: false,
        skipped: true,
        resolved: false,
        own_transfer: false,
        leg: Some(0x1413_1211),
        parent: Some(0x1817_1615),
        reason: Some(Reason::DataTooShort),
    };
    let read = tables([vec![], row, vec![], vec![], vec![]]);
    assert_eq!(read.invocations().next(), Some(expected));
}

#[test]
fn transfer_rows() {
    let row = Header::read().row(
        "TRANSFER",
        &[
            ("INVOCATION", &[1, 2, 3, 4]),
            ("PROGRAM", &key(5)),
            ("SOURCE", &key(6)),
            ("DESTINATION", &key(7)),
            ("MINT_FLAG", &[1]),
            ("MINT", &key(8)),
            ("AMOUNT", &[9, 0, 0, 0, 0, 0, 0, 10]),
            ("FEE_FLAG", &[1]),
            ("FEE", &[11, 0, 0, 0, 0, 0, 0, 12]),
        ],
    );
    let expected = Transfer {
        invocation: 0x0403_0201,
        program: key(5),
        source: key(6),
        destination: key(7),
        mint: Mint::Marked { key: key(8), mark: Mark::InDoubt },
        amount: 0x0a00_0000_0000_0009,
        fee: Some(0x0c00_0000_0000_000b),
    };
    let read = tables([mint_row(key(6), key(8)), vec![], row, vec![], vec![]]);
    assert_eq!(read.transfers().next(), Some(expected));
}

#[test]
fn leg_rows() {
    let row = Header::read().row(
        "LEG",
        &[
            ("INVOCATION", &[1, 2, 3, 4]),
            ("PROTOCOL", &[Protocol::LaunchLab as u8]),
            ("PROGRAM", &key(5)),
            ("POOL", &key(6)),
            ("TRADER", &key(7)),
            ("INPUT", &key(8)),
            ("OUTPUT", &key(9)),
            ("INPUT_MINT_FLAG", &[1]),
            ("INPUT_MINT", &key(10)),
            ("OUTPUT_MINT_FLAG", &[1]),
            ("OUTPUT_MINT", &key(11)),
            ("EXACT_IN", &[1]),
            ("AMOUNT", &[12, 0, 0, 0, 0, 0, 0, 13]),
            ("THRESHOLD", &[14, 0, 0, 0, 0, 0, 0, 15]),
            ("MODE", &[Mode::Reward as u8]),
            ("GRADUATED", &[1]),
        ],
    );
    let expected = Leg {
        invocation: 0x0403_0201,
        protocol: Protocol::LaunchLab,
        program: key(5),
        pool: key(6),
        trader: key(7),
        input: key(8),
        output: key(9),
        input_mint: Mint::Named { key: key(10), lack: Lack::NoEvidence },
        output_mint: Mint::Marked { key: key(11), mark: Mark::InDoubt },
        exact_in: true,
        amount: 0x0d00_0000_0000_000c,
        threshold: 0x0f00_0000_0000_000e,
        mode: Some(Mode::Reward),
        graduated: true,
    };
    let read = tables([mint_row(key(9), key(11)), vec![], vec![], row, vec![]]);
    assert_eq!(read.legs().next(), Some(expected));
}

#[test]
fn native_rows() {
    let header = Header::read();
    let (invocation, account, lamports) = ([1, 2, 3, 4], key(5), [9, 0, 0, 0, 0, 0, 0, 10]);
    let fund = Action::Fund { source: key(6), lamports: 0x0a00_0000_0000_0009 };
    let close = Action::Close { destination: key(6), authority: key(7) };
    let kinds: [(&str, Action, &[Field<'_>]); 3] = [
        ("KIND_FUND", fund, &[("OTHER", &key(6)), ("LAMPORTS", &lamports)]),
        ("KIND_SYNC", Action::Sync, &[]),
        ("KIND_CLOSE", close, &[("OTHER", &key(6)), ("AUTHORITY", &key(7))]),
    ];
    for (name, action, more) in kinds {
        let kind = header.get(name) as u8;
        assert_eq!(kind, action.kind(), "{name}");
        let mut fields: Vec<Field<'_>> = vec![
            ("INVOCATION", &invocation),
            ("KIND", std::slice::from_ref(&kind)),
            ("ACCOUNT", &account),
        ];
        fields.extend(more);
        let mark = Mark::InDoubt;
        let expected = Native { invocation: 0x0403_0201, account, mark, action };
        let row = header.row("NATIVE", &fields);
        let read = tables([mint_row(account, ids::WRAPPED_SOL), vec![], vec![], vec![], row]);
        assert_eq!(read.natives().next(), Some(expected), "{name}");
    }
}

#[test]
fn report_rows() {
    let header = Header::read();
    let sum =
        |low: u8, high: u8| [[low, 0, 0, 0, 0, 0, 0, 0], [high, 0, 0, 0, 0, 0, 0, 0]].concat();
    let mint: &[Field<'_>] = &[
        ("MINT_FLAG", &[1]),
        ("MINT", &key(1)),
        ("DEBITS", &sum(2, 3)),
        ("CREDITS", &sum(4, 5)),
        ("FEES", &sum(6, 7)),
        ("APART", &[8, 9, 10, 11]),
    ];
    let account: &[Field<'_>] = &[("ACCOUNT_FLAG", &[1]), ("ACCOUNT", &key(12)), ("APART", &[0])];
    let account = [&mint[..2], account].concat();
    let line = MonthLine {
        mint: Some(key(1)),
        account: None,
        debits: (3 << 64) + 2,
        credits: (5 << 64) + 4,
        fees: (7 << 64) + 6,
        apart: 0x0b0a_0908,
    };
    let other =
        MonthLine { account: Some(key(12)), debits: 0, credits: 0, fees: 0, apart: 0, ..line };
    let report = [header.row("REPORT", mint), header.row("REPORT", &account)].concat();
    let month = Month::read(report, line.apart).unwrap();
    assert_eq!(month.lines().collect::<Vec<_>>(), [line, other]);
}
