//! Base58 of 32 bytes, both ways. Decoding is a constant function, so that keys can be constants.

use crate::Key;
use std::collections::BTreeMap;

const ALPHABET: &[u8; 58] = b"123456789ABCDEFGHJKLMNPQRSTUVWXYZabcdefghijkmnopqrstuvwxyz";

/// The value of each letter, `NONE` where it has none.
const DIGITS: [u8; 256] = digits();
const NONE: u8 = 255;

/// Five digits are the most that a step can take: 58 to the fifth still fits into 32 bits.
const STEP: u64 = 58u64.pow(5);

/// The 32 bytes of a text, if it is base58 of exactly 32 bytes.
///
/// ```
/// use mbelaguy::base58::{decode, encode};
///
/// let text = "TokenkegQfeZyiNwAJbNbGKPFXCWuBvf9Ss623VQ5DA";
/// assert_eq!(decode(text).map(|key| encode(&key)), Some(text.to_string()));
/// assert_eq!(decode("no key"), None);
/// ```
pub const fn decode(text: &str) -> Option<Key> {
    let text = text.as_bytes();
    // The number so far, its highest 32 bits first.
    let mut limbs = [0u32; 8];
    let mut ones = 0;
    let mut at = 0;
    while at < text.len() {
        let (mut value, mut scale) = (0, 1);
        while at < text.len() && scale < STEP {
            let digit = DIGITS[text[at] as usize];
            if digit == NONE {
                return None;
            }
            if digit == 0 && ones == at {
                ones += 1;
            }
            value = value * 58 + digit as u64;
            scale *= 58;
            at += 1;
        }
        let mut carry = value;
        let mut k = limbs.len();
        while k > 0 {
            k -= 1;
            carry += limbs[k] as u64 * scale;
            limbs[k] = carry as u32;
            carry >>= 32;
        }
        if carry != 0 {
            return None;
        }
    }
    let key = bytes(&limbs);
    if ones == leading_zeros(&key) {
        Some(key)
    } else {
        None
    }
}

/// The key of a text in this crate's own source.
pub(crate) const fn literal(text: &str) -> Key {
    match decode(text) {
        Some(key) => key,
        None => panic!("no base58 of 32 bytes"),
    }
}

/// The text of 32 bytes.
pub fn encode(key: &Key) -> String {
    let zeros = leading_zeros(key);
    let mut digits: Vec<u8> = Vec::with_capacity(44);
    for &byte in &key[zeros..] {
        let mut carry = u32::from(byte);
        for digit in &mut digits {
            carry += u32::from(*digit) << 8;
            *digit = (carry % 58) as u8;
            carry /= 58;
        }
        while carry > 0 {
            digits.push((carry % 58) as u8);
            carry /= 58;
        }
    }
    let ones = std::iter::repeat_n(0, zeros);
    ones.chain(digits.into_iter().rev())
        .map(|digit| char::from(ALPHABET[usize::from(digit)]))
        .collect()
}

/// The first and the last four letters of a key's text. Two keys may look alike so: [`ShortForms`] do
/// not.
pub fn short(key: &Key) -> String {
    shortened(&encode(key), FEWEST)
}

/// Letters at each end of a short form, where so many tell the keys apart.
const FEWEST: usize = 4;

fn shortened(text: &str, letters: usize) -> String {
    match text.len().checked_sub(letters) {
        Some(end) if end > letters + 2 => format!("{}..{}", &text[..letters], &text[end..]),
        _ => text.to_string(),
    }
}

/// Short forms of some keys, with more letters at both ends where two of them would look alike.
///
/// ```
/// use mbelaguy::base58::{decode, ShortForms};
///
/// let [one, other] = [
///     "So11111111111111111111111111111111111111112",
///     "So11111111111111111111111111111111111121112",
/// ]
/// .map(|text| decode(text).expect("a key"));
/// let forms = ShortForms::of([one, other]);
/// assert_eq!(forms.get(&one), "So111..11112");
/// assert_eq!(forms.get(&other), "So111..21112");
/// ```
#[derive(Clone, Debug, Default, PartialEq, Eq)]
pub struct ShortForms(BTreeMap<Key, String>);

impl ShortForms {
    /// The short forms of these keys.
    pub fn of(keys: impl IntoIterator<Item = Key>) -> Self {
        let mut alike: BTreeMap<Key, String> =
            keys.into_iter().map(|key| (key, encode(&key))).collect();
        let mut forms = BTreeMap::new();
        // Keys that differ by fewer letters differ by more, so that only those alike are looked at again.
        for letters in FEWEST.. {
            let mut by_form: BTreeMap<String, Vec<(Key, String)>> = BTreeMap::new();
            for (key, text) in alike {
                by_form.entry(shortened(&text, letters)).or_default().push((key, text));
            }
            let (one, more): (Vec<_>, Vec<_>) =
                by_form.into_iter().partition(|(_, keys)| keys.len() == 1);
            forms.extend(one.into_iter().map(|(form, keys)| (keys[0].0, form)));
            alike = more.into_iter().flat_map(|(_, keys)| keys).collect();
            if alike.is_empty() {
                break;
            }
        }
        ShortForms(forms)
    }

    /// The short form of a key, or all of it where it was not among the keys.
    pub fn get(&self, key: &Key) -> String {
        self.0.get(key).cloned().unwrap_or_else(|| encode(key))
    }
}

const fn digits() -> [u8; 256] {
    let mut digits = [NONE; 256];
    let mut value = 0;
    while value < ALPHABET.len() {
        digits[ALPHABET[value] as usize] = value as u8;
        value += 1;
    }
    digits
}

const fn bytes(limbs: &[u32; 8]) -> Key {
    let mut key = [0; 32];
    let mut k = 0;
    while k < 32 {
        key[k] = limbs[k / 4].to_be_bytes()[k % 4];
        k += 1;
    }
    key
}

const fn leading_zeros(key: &Key) -> usize {
    let mut count = 0;
    while count < 32 && key[count] == 0 {
        count += 1;
    }
    count
}
