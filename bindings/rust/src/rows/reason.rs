//! Why an invocation gave no transfer of tokens.

use std::fmt;

/// Why an invocation gave no transfer of tokens: the first of these tests that it failed, in this order;
/// 1 to 5 in a row. Its text is plain words for whoever looks for the transfer.
///
/// ```
/// # #[cfg(feature = "link")] {
/// use mbelaguy::pack::{Instruction, KeyRow, Pack};
/// use mbelaguy::rows::Reason;
/// use mbelaguy::{ids, route, Names, Tables};
///
/// // Three transfers from the first account: the data of one ends early, one goes to an account that the
/// // pack has no key of, and one is whole.
/// let transfer = |to: u8, data: &[u8]| Instruction {
///     program: 2,
///     accounts: vec![0, to, 0],
///     data: data.to_vec(),
/// };
/// let whole = [&[3][..], &7u64.to_le_bytes()].concat();
/// let pack = Pack {
///     keys: [[1; 32], [2; 32], ids::SPL_TOKEN].map(|key| KeyRow { whole: true, key }).to_vec(),
///     outer: vec![transfer(1, &whole[..8]), transfer(9, &whole), transfer(1, &whole)],
///     ..Pack::default()
/// };
/// let pack = pack.write().expect("few bytes");
/// let mut tables = Tables::for_pack(&pack);
/// route(&Names::ORIGINAL.bytes(), &pack, &mut tables).expect("accepted");
///
/// let reasons = tables.invocations().map(|row| row.reason);
/// assert!(reasons.eq([Some(Reason::DataTooShort), Some(Reason::ZeroKey), None]));
/// # }
/// ```
#[derive(Clone, Copy, Debug, PartialEq, Eq)]
pub enum Reason {
    /// Its program is neither SPL Token nor Token-2022, or is not resolved.
    NotToken = 1,
    /// Its data is empty, or its first byte is none of 3, 12 and 26: it is no transfer, or none that is
    /// read. 26 counts under Token-2022 alone, and with 1 for its second byte.
    UnsupportedTag,
    /// It names fewer accounts than this kind of transfer needs: 3 where the first byte is 3, else 4.
    TooFewAccounts,
    /// Its data is shorter than this kind of transfer needs: 9 bytes where the first is 3, 10 where it is
    /// 12, 19 where it is 26.
    DataTooShort,
    /// The key of its source or its destination is missing or zero, or, where the first byte is not 3,
    /// that of its mint.
    ZeroKey,
}

impl Reason {
    /// The reasons by their numbers, the first being 1.
    pub const ALL: [Self; 5] = [
        Self::NotToken,
        Self::UnsupportedTag,
        Self::TooFewAccounts,
        Self::DataTooShort,
        Self::ZeroKey,
    ];

    /// The reason of a number; none of 0, which stands for a transfer, and of numbers without meaning.
    ///
    /// ```
    /// use mbelaguy::rows::Reason;
    ///
    /// let reason = Reason::of(5).expect("1 to 5");
    /// assert_eq!(reason, Reason::ZeroKey);
    /// let text = "the key of source, destination or mint is missing or zero";
    /// assert_eq!(reason.to_string(), text);
    /// assert_eq!((Reason::of(0), Reason::of(6)), (None, None));
    /// ```
    pub fn of(number: u8) -> Option<Self> {
        Self::ALL.into_iter().find(|reason| reason.number() == number)
    }

    /// Its number in a row.
    pub fn number(self) -> u8 {
        self as u8
    }
}

/// The words that `mbelaguy_reason` of the C header gives.
impl fmt::Display for Reason {
    fn fmt(&self, f: &mut fmt::Formatter<'_>) -> fmt::Result {
        f.write_str(match self {
            Self::NotToken => "its program is neither SPL Token nor Token-2022",
            Self::UnsupportedTag => "another kind of instruction",
            Self::TooFewAccounts => "too few accounts for this kind of transfer",
            Self::DataTooShort => "data too short for this kind of transfer",
            Self::ZeroKey => "the key of source, destination or mint is missing or zero",
        })
    }
}
