//! How keys are written: by name, shortened or in full.

use mbelaguy::base58::{self, ShortForms};
use mbelaguy::{ids, Key};

/// How keys are written that have no name.
#[derive(Clone, Copy, Debug, PartialEq, Eq)]
pub enum Keys {
    /// The first and last letters of their base58, as many as tell the keys apart.
    Short,
    /// All of it.
    Full,
}

/// The text of each key that is shown.
pub struct Texts {
    keys: Keys,
    short: ShortForms,
}

impl Texts {
    /// The ids are among the keys, so that no other key looks like one of them.
    pub fn of(shown: impl Iterator<Item = Key>, keys: Keys) -> Self {
        let named = ids::NAMED.map(|(id, _)| id);
        Texts { keys, short: ShortForms::of(shown.chain(named)) }
    }

    /// What stands for a key: its name, `none` for the zero key, else base58.
    pub fn get(&self, key: &Key) -> String {
        match (ids::name(key), self.keys) {
            (Some(name), _) => name.to_string(),
            (None, _) if *key == ids::SYSTEM => "none".to_string(),
            (None, Keys::Short) => self.short.get(key),
            (None, Keys::Full) => base58::encode(key),
        }
    }

    /// Whether keys are shortened, so that their full form stands elsewhere.
    pub fn are_short(&self) -> bool {
        self.keys == Keys::Short
    }
}
