//! The sample of examples/: a trader sells one coin for wrapped SOL and buys another with it, through
//! an aggregator, in one transaction. Programs and names are the real ones, all other keys made up.

use crate::listing::listing;
use crate::oracle::reply;
use mbelaguy::pack::{Balance, Group, Inner, Instruction, KeyRow, Pack};
use mbelaguy::{base58, ids, Key, Names, Tables, MOST_ROWS, WIDTHS};
use show::{page, text, Keys, Report};

/// What the sample's files are called, without their endings.
pub const NAME: &str = "aggregator_swap";

/// The sample's files by their endings: names and pack, what `routes` prints, what `show` prints, and
/// the page that it writes.
pub fn files() -> Result<[(&'static str, Vec<u8>); 4], String> {
    let pack = trades(1).write().map_err(|error| error.to_string())?;
    let names = Names::ORIGINAL.bytes();
    let input = [&names[..], &pack].concat();
    let lengths = std::array::from_fn(|t| MOST_ROWS[t] * WIDTHS[t]);
    let reply = reply(&names, &pack, &lengths);
    let tables =
        Tables::read(&reply.answer, reply.tables, &pack).map_err(|error| error.to_string())?;
    let report = Report::new(&pack, &reply.answer, &tables).map_err(|error| error.to_string())?;
    let listed = listing(&input).into_bytes();
    let shown = text(&report, Keys::Short).into_bytes();
    let page = page(NAME, &Ok(report), Keys::Short).into_bytes();
    Ok([("bin", input), ("listing", listed), ("txt", shown), ("html", page)])
}

/// An aggregator's program; nothing is known about it but its key.
const AGGREGATOR: &str = "JUP6LkbZbjS1jKKwapdHNy74zcZ3tLUZoi5QNyVTaV4";

/// How the aggregator's data and that of events begins.
const ROUTE: [u8; 8] = [0xe5, 0x17, 0xcb, 0x97, 0x7a, 0xe3, 0xad, 0x2a];
const EVENT: [u8; 8] = [0xe4, 0x45, 0xa5, 0x2e, 0x51, 0xcb, 0x9a, 0x1d];

/// The sample's transaction, with so many of its trades one after the other.
pub fn trades(count: usize) -> Pack {
    // The payer comes first.
    let mut keys = KeyTable(vec![key("trader")]);
    let before = [
        keys.instruction("Compute Budget", &[], &[&[2], &400_000u32.to_le_bytes()]),
        keys.instruction(
            "Associated Token",
            &["trader", "trader's wrapped SOL", "trader", "wrapped SOL", "System", "SPL Token"],
            &[&[1]],
        ),
        keys.instruction(
            "System",
            &["trader", "trader's wrapped SOL"],
            &[&[2, 0, 0, 0], &500_000_000u64.to_le_bytes()],
        ),
        keys.instruction("SPL Token", &["trader's wrapped SOL"], &[&[17]]),
    ];
    let trade = keys.aggregator();
    let after = [
        keys.instruction(
            "Token-2022",
            &["trader's bought coins", "savings", "trader"],
            &[&[3], &20_000_000_000u64.to_le_bytes()],
        ),
        keys.instruction("SPL Token", &["trader's wrapped SOL", "trader", "trader"], &[&[9]]),
        keys.instruction("Memo", &["trader"], &[b"sold and bought"]),
    ];
    let mut groups = vec![Group { outer: 1, instructions: keys.creation() }];
    let swaps = keys.swaps();
    groups.extend(
        (0..count).map(|k| Group { outer: (before.len() + k) as u32, instructions: swaps.clone() }),
    );
    // Before and after, for the accounts that the node reported; the wrapped SOL account exists only
    // in between, and of the savings account it told nothing.
    let balances = [
        ("trader's sold coins", "sold coin"),
        ("trader's bought coins", "bought coin"),
        ("first pool's coins", "sold coin"),
        ("first pool's wrapped SOL", "wrapped SOL"),
        ("second pool's coins", "bought coin"),
        ("second pool's wrapped SOL", "wrapped SOL"),
        ("fee receiver's wrapped SOL", "wrapped SOL"),
    ];
    let balances = balances.map(|(account, mint)| keys.balance(account, mint));
    Pack {
        balances: [balances, balances].concat(),
        outer: [&before[..], &vec![trade; count], &after].concat(),
        groups,
        pools: vec![key("first pool")],
        keys: keys.0.into_iter().map(|key| KeyRow { whole: true, key }).collect(),
    }
}

/// The key of a name: a program's or the mint's own, else 32 bytes mixed out of its letters.
fn key(name: &str) -> Key {
    let named = ids::NAMED.iter().find(|(_, id)| *id == name).map(|(id, _)| *id);
    let known = match name {
        "System" => Some(ids::SYSTEM),
        "aggregator" => base58::decode(AGGREGATOR),
        _ => named,
    };
    known.unwrap_or_else(|| {
        let mut state = name.bytes().fold(0xcbf2_9ce4_8422_2325u64, |state, letter| {
            (state ^ u64::from(letter)).wrapping_mul(0x0000_0100_0000_01b3)
        });
        std::array::from_fn(|_| {
            state = state.wrapping_mul(0x5851_f42d_4c95_7f2d).wrapping_add(0x1405_7b7e_f767_814f);
            (state >> 56) as u8
        })
    })
}

/// The transaction's keys, each once, in the order of their first use.
struct KeyTable(Vec<Key>);

impl KeyTable {
    fn index(&mut self, name: &str) -> u8 {
        let key = key(name);
        let found = self.0.iter().position(|known| *known == key);
        let index = found.unwrap_or_else(|| {
            self.0.push(key);
            self.0.len() - 1
        });
        u8::try_from(index).expect("the sample has few keys")
    }

    fn instruction(&mut self, program: &str, accounts: &[&str], data: &[&[u8]]) -> Instruction {
        Instruction {
            program: self.index(program).into(),
            accounts: accounts.iter().map(|name| self.index(name)).collect(),
            data: data.concat(),
        }
    }

    fn inner(&mut self, height: u32, program: &str, accounts: &[&str], data: &[&[u8]]) -> Inner {
        Inner { height: Some(height), instruction: self.instruction(program, accounts, data) }
    }

    fn balance(&mut self, account: &str, mint: &str) -> Balance {
        Balance { account: self.index(account).into(), mint: key(mint) }
    }

    /// The trader's wrapped SOL account is created.
    fn creation(&mut self) -> Vec<Inner> {
        let space = [&2_039_280u64.to_le_bytes()[..], &165u64.to_le_bytes()].concat();
        vec![
            self.inner(2, "SPL Token", &["wrapped SOL"], &[&[21, 7, 0]]),
            self.inner(
                2,
                "System",
                &["trader", "trader's wrapped SOL"],
                &[&[0; 4], &space, &ids::SPL_TOKEN],
            ),
            self.inner(2, "SPL Token", &["trader's wrapped SOL"], &[&[22]]),
            self.inner(
                2,
                "SPL Token",
                &["trader's wrapped SOL", "wrapped SOL"],
                &[&[18], &key("trader")],
            ),
        ]
    }

    fn aggregator(&mut self) -> Instruction {
        let accounts = [
            "SPL Token",
            "trader",
            "trader's sold coins",
            "trader's bought coins",
            "bought coin",
            "trader's wrapped SOL",
            "first pool",
            "second pool",
        ];
        let amounts = [900_000_000u64, 51_000_000_000].map(u64::to_le_bytes).concat();
        self.instruction("aggregator", &accounts, &[&ROUTE, &amounts, &[50, 0, 0]])
    }

    /// Sold on CPMM for wrapped SOL, bought with it on PumpSwap.
    fn swaps(&mut self) -> Vec<Inner> {
        let names = Names::ORIGINAL;
        let sell = [900_000_000u64, 1_180_000_000].map(u64::to_le_bytes).concat();
        let buy = [52_000_000_000u64, 1_700_000_000].map(u64::to_le_bytes).concat();
        vec![
            self.inner(2, "Raydium CPMM", &CPMM_ACCOUNTS, &[&names.swap_base_in, &sell]),
            self.checked(
                "SPL Token",
                ["trader's sold coins", "sold coin", "first pool's coins", "trader"],
                900_000_000,
                6,
            ),
            self.checked(
                "SPL Token",
                [
                    "first pool's wrapped SOL",
                    "wrapped SOL",
                    "trader's wrapped SOL",
                    "first pool's authority",
                ],
                1_203_456_789,
                9,
            ),
            self.inner(2, "PumpSwap", &PUMP_SWAP_ACCOUNTS, &[&names.buy, &buy, &[0]]),
            self.checked(
                "Token-2022",
                ["second pool's coins", "bought coin", "trader's bought coins", "second pool"],
                52_000_000_000,
                6,
            ),
            self.checked(
                "SPL Token",
                ["trader's wrapped SOL", "wrapped SOL", "second pool's wrapped SOL", "trader"],
                1_650_000_000,
                9,
            ),
            self.checked(
                "SPL Token",
                ["trader's wrapped SOL", "wrapped SOL", "fee receiver's wrapped SOL", "trader"],
                4_125_000,
                9,
            ),
            self.inner(3, "PumpSwap", &["PumpSwap's events"], &[&EVENT, &[0; 32]]),
            self.inner(2, "aggregator", &["aggregator's events"], &[&EVENT, &[0; 32]]),
        ]
    }

    /// A checked transfer one level below a swap: source, mint, destination, authority.
    fn checked(&mut self, program: &str, accounts: [&str; 4], amount: u64, decimals: u8) -> Inner {
        self.inner(3, program, &accounts, &[&[12], &amount.to_le_bytes(), &[decimals]])
    }
}

const CPMM_ACCOUNTS: [&str; 13] = [
    "trader",
    "first pool's authority",
    "first pool's settings",
    "first pool",
    "trader's sold coins",
    "trader's wrapped SOL",
    "first pool's coins",
    "first pool's wrapped SOL",
    "SPL Token",
    "SPL Token",
    "sold coin",
    "wrapped SOL",
    "first pool's observations",
];

const PUMP_SWAP_ACCOUNTS: [&str; 21] = [
    "second pool",
    "trader",
    "PumpSwap's settings",
    "bought coin",
    "wrapped SOL",
    "trader's bought coins",
    "trader's wrapped SOL",
    "second pool's coins",
    "second pool's wrapped SOL",
    "fee receiver",
    "fee receiver's wrapped SOL",
    "Token-2022",
    "SPL Token",
    "System",
    "Associated Token",
    "PumpSwap's events",
    "PumpSwap",
    "creator's wrapped SOL",
    "creator's authority",
    "volume of all",
    "volume of the trader",
];
