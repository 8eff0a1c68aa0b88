//! What was recorded about mints, how many passes it takes, how much room, which mark. The final
//! mints are the original's.

use mbelaguy::pack::Pack;
use original::facts::{Facts, Invocation, Key};
use std::collections::{BTreeMap, BTreeSet};

const ZERO: Key = [0; 32];

/// The mint side of a pack.
#[derive(Clone, Debug)]
pub struct Mints {
    /// Every account recorded, with its mint; none where two mints made it ambiguous.
    pub recorded: BTreeMap<Key, Option<Key>>,
    /// Plain transfers in invocation order, source and destination, zero keys left out.
    pub plain: Vec<(Key, Key)>,
    pub passes: usize,
    /// What the passes lead to by their definition; the original must agree.
    pub expected: BTreeMap<Key, Key>,
    /// Accounts recorded or filled in.
    pub room: usize,
    /// For each account that chains reach, the recorded mints they start with.
    pub reaching: BTreeMap<Key, BTreeSet<Key>>,
    /// The mark of every account that has a final mint.
    pub marks: BTreeMap<Key, u8>,
}

impl Mints {
    /// Of a pack whose balance rows all name a key.
    pub fn of(pack: &Pack, facts: &Facts) -> Self {
        let mut recorded = BTreeMap::new();
        let mut plain = Vec::new();
        for balance in &pack.balances {
            record(&mut recorded, pack.keys[balance.account as usize].key, balance.mint);
        }
        for invocation in &facts.invocations {
            let account = |index: usize| account(pack, invocation, index);
            match token(invocation) {
                Token::Initialise => record(&mut recorded, account(0), account(1)),
                Token::Checked => {
                    record(&mut recorded, account(0), account(1));
                    record(&mut recorded, account(2), account(1));
                }
                Token::Plain => plain.push((account(0), account(1))),
                Token::Other => {}
            }
        }
        plain.retain(|&(source, destination)| source != ZERO && destination != ZERO);
        let (passes, expected) = run_passes(&recorded, &plain);
        let filled = facts.mints.keys().filter(|account| !recorded.contains_key(*account)).count();
        let room = recorded.len() + filled;
        let reaching = reaching(&recorded, &plain);
        let mark = |account: &Key| mark(account, &recorded, &reaching);
        let marks = facts.mints.keys().map(|account| (*account, mark(account))).collect();
        Mints { recorded, plain, passes, expected, room, reaching, marks }
    }
}

/// What an instruction says to the mint table.
enum Token {
    Initialise,
    /// Checked, with or without fee: both ends have the named mint.
    Checked,
    Plain,
    Other,
}

fn token(invocation: &Invocation) -> Token {
    let [spl_token, token_2022, ..] = original::ids();
    if invocation.program != spl_token && invocation.program != token_2022 {
        return Token::Other;
    }
    let accounts = invocation.accounts.len();
    match (&invocation.data[..], invocation.data.len()) {
        ([1], _) | ([16 | 18, ..], 33) if accounts >= 2 => Token::Initialise,
        ([3, ..], 9..) if accounts >= 3 => Token::Plain,
        ([12, ..], 10..) if accounts >= 4 => Token::Checked,
        ([26, 1, ..], 19..) if accounts >= 4 && invocation.program == token_2022 => Token::Checked,
        _ => Token::Other,
    }
}

fn account(pack: &Pack, invocation: &Invocation, index: usize) -> Key {
    let row = invocation.accounts.get(index).and_then(|&at| pack.keys.get(usize::from(at)));
    row.map_or(ZERO, |row| row.key)
}

fn record(recorded: &mut BTreeMap<Key, Option<Key>>, account: Key, mint: Key) {
    if account == ZERO || mint == ZERO {
        return;
    }
    let known = recorded.entry(account).or_insert(Some(mint));
    if *known != Some(mint) {
        *known = None;
    }
}

/// Passes over the plain transfers until one adds nothing, and the mints known then.
fn run_passes(
    recorded: &BTreeMap<Key, Option<Key>>,
    plain: &[(Key, Key)],
) -> (usize, BTreeMap<Key, Key>) {
    let mut known = recorded.clone();
    let mut passes = 0;
    let mut adding = !recorded.is_empty();
    while adding {
        adding = false;
        passes += 1;
        for (source, destination) in plain {
            let (missing, mint) = match (known.get(source), known.get(destination)) {
                (Some(Some(mint)), None) => (destination, *mint),
                (None, Some(Some(mint))) => (source, *mint),
                _ => continue,
            };
            known.insert(*missing, Some(mint));
            adding = true;
        }
    }
    let one = |(account, mint): (Key, Option<Key>)| Some((account, mint?));
    (passes, known.into_iter().filter_map(one).collect())
}

/// The mints that chains bring to the accounts they reach. A chain runs along plain transfers, followed
/// either way, from an account with one recorded mint through accounts with nothing recorded.
fn reaching(
    recorded: &BTreeMap<Key, Option<Key>>,
    plain: &[(Key, Key)],
) -> BTreeMap<Key, BTreeSet<Key>> {
    let mut joined: BTreeMap<Key, Vec<Key>> = BTreeMap::new();
    for (source, destination) in plain {
        joined.entry(*source).or_default().push(*destination);
        joined.entry(*destination).or_default().push(*source);
    }
    let mut reaching: BTreeMap<Key, BTreeSet<Key>> = BTreeMap::new();
    for (start, mint) in recorded {
        let Some(mint) = mint else { continue };
        let mut reached = BTreeSet::new();
        let mut open = vec![*start];
        while let Some(account) = open.pop() {
            for next in joined.get(&account).into_iter().flatten() {
                if !recorded.contains_key(next) && reached.insert(*next) {
                    open.push(*next);
                }
            }
        }
        for account in reached {
            reaching.entry(account).or_default().insert(*mint);
        }
    }
    reaching
}

/// The mark of an account that has a mint: 0 recorded; 2 filled in, and chains reach it from two
/// accounts with different recorded mints; 1 any other filled in.
fn mark(
    account: &Key,
    recorded: &BTreeMap<Key, Option<Key>>,
    reaching: &BTreeMap<Key, BTreeSet<Key>>,
) -> u8 {
    if recorded.contains_key(account) {
        0
    } else if reaching.get(account).is_some_and(|mints| mints.len() > 1) {
        2
    } else {
        1
    }
}
