//! Why a call is refused, by number and place.

use std::error::Error;
use std::fmt;

/// A refusal. Of those that apply, the one that stands first here is given.
///
/// ```
/// use mbelaguy::{Refusal, Section};
///
/// let refusal = Refusal::of(4, 2);
/// assert_eq!(refusal, Refusal::Section(Section::Outer));
/// assert_eq!(refusal.words(), "it ends inside an instruction");
/// let text = "refusal 4, place 2 (section of outer instructions): it ends inside an instruction";
/// assert_eq!(refusal.to_string(), text);
/// ```
#[derive(Clone, Copy, Debug, PartialEq, Eq)]
pub enum Refusal {
    /// 1: the names are not 88 bytes.
    Names,
    /// 2: the pack is too short or too long, or its mark is another.
    Mark,
    /// 3: the starts of the sections break their rule.
    Starts,
    /// 4: the lowest section with a partial row or item, a flag that is neither 0 nor 1, or a
    /// height without its flag.
    Section(Section),
    /// 5: over 256 keys.
    Keys,
    /// 11: a balance row whose account index is at or above the number of keys, whatever its mint is.
    Balances,
    /// 6: over 1,024 kept invocations.
    Invocations,
    /// 7: over 512 passes.
    Passes,
    /// 8: the lowest table that has fewer whole rows than are needed.
    Room(Table),
    /// 19, of a feed: the transfers end inside a row, or a flag is neither 0 nor 1.
    TransferTable,
    /// 20, of a feed: the report has fewer whole rows than are said to be used, a flag that is neither 0
    /// nor 1, rows that do not ascend, a sum of 2 to the 96th or more, or a count above the transfers
    /// fed.
    Report,
    /// 9, of a feed: the report has fewer whole rows than are needed.
    ReportRows,
    /// 10, of a feed: over 4,294,967,295 transfers in all.
    Limit,
    /// A number or place that this crate does not know: the library is of another release.
    Unknown {
        /// The number.
        number: u32,
        /// The place.
        place: u32,
    },
}

/// A section of a pack.
#[derive(Clone, Copy, Debug, PartialEq, Eq)]
pub enum Section {
    /// The account keys.
    Keys,
    /// The token balances.
    Balances,
    /// The transaction's own instructions.
    Outer,
    /// Groups of the instructions that those called.
    Inner,
    /// Graduated pools.
    Pools,
}

/// One of the five tables.
#[derive(Clone, Copy, Debug, PartialEq, Eq)]
pub enum Table {
    /// A mint for each token account.
    Mints,
    /// The invocations.
    Invocations,
    /// The token transfers.
    Transfers,
    /// The swap legs.
    Legs,
    /// The actions on wrapped SOL.
    Natives,
}

impl Section {
    /// The sections by their numbers.
    pub const ALL: [Self; 5] = [Self::Keys, Self::Balances, Self::Outer, Self::Inner, Self::Pools];
}

impl Table {
    /// The tables by their numbers.
    pub const ALL: [Self; 5] =
        [Self::Mints, Self::Invocations, Self::Transfers, Self::Legs, Self::Natives];
}

impl Refusal {
    /// The refusal of a number and place other than 0.
    pub fn of(number: u32, place: u32) -> Self {
        match (number, place) {
            (1, 0) => Self::Names,
            (2, 0) => Self::Mark,
            (3, 0) => Self::Starts,
            (4, 0..5) => Self::Section(Section::ALL[place as usize]),
            (5, 0) => Self::Keys,
            (11, 1) => Self::Balances,
            (6, 0) => Self::Invocations,
            (7, 0) => Self::Passes,
            (8, 0..5) => Self::Room(Table::ALL[place as usize]),
            (19, 0) => Self::TransferTable,
            (20, 0) => Self::Report,
            (9, 0) => Self::ReportRows,
            (10, 0) => Self::Limit,
            _ => Self::Unknown { number, place },
        }
    }

    /// Its number.
    pub fn number(self) -> u32 {
        match self {
            Self::Names => 1,
            Self::Mark => 2,
            Self::Starts => 3,
            Self::Section(_) => 4,
            Self::Keys => 5,
            Self::Balances => 11,
            Self::Invocations => 6,
            Self::Passes => 7,
            Self::Room(_) => 8,
            Self::TransferTable => 19,
            Self::Report => 20,
            Self::ReportRows => 9,
            Self::Limit => 10,
            Self::Unknown { number, .. } => number,
        }
    }

    /// The section or table that it is about, else 0.
    pub fn place(self) -> u32 {
        match self {
            Self::Section(section) => section as u32,
            Self::Balances => Section::Balances as u32,
            Self::Room(table) => table as u32,
            Self::Unknown { place, .. } => place,
            _ => 0,
        }
    }

    /// What is wrong, in words; those that `mbelaguy_refusal` of the C header gives.
    pub fn words(self) -> &'static str {
        match self {
            Self::Names => "the names are not 88 bytes",
            Self::Mark => {
                "the pack is shorter than 24 or longer than 61,440 bytes, or does not end in RTP1"
            }
            Self::Starts => {
                "the sections do not start at 0, one after the other, before the trailer"
            }
            Self::Section(Section::Keys) => "it ends inside a row, or a flag is neither 0 nor 1",
            Self::Section(Section::Balances | Section::Pools) => "it ends inside a row",
            Self::Section(Section::Outer) => "it ends inside an instruction",
            Self::Section(Section::Inner) => {
                "it ends inside a group or an instruction, a flag is neither 0 nor 1, or a height \
                 stands beside flag 0"
            }
            Self::Keys => "there are more than 256 keys",
            Self::Balances => "a row's account index is not below the number of keys",
            Self::Invocations => "there are more than 1,024 invocations",
            Self::Passes => "there would be more than 512 passes over the plain transfers",
            Self::Room(_) => "it has fewer whole rows than are needed",
            Self::TransferTable => {
                "the transfers end inside a row, or a flag is neither 0 nor 1"
            }
            Self::Report => {
                "the report has fewer whole rows than are said to be used, a flag is neither 0 nor 1, \
                 its rows do not ascend, a sum is 2 to the 96th or more, or a count is above the \
                 transfers fed"
            }
            Self::ReportRows => "the report has fewer whole rows than are needed",
            Self::Limit => "more than 4,294,967,295 transfers would be fed",
            Self::Unknown { .. } => "not known here; the library is of another release",
        }
    }
}

impl fmt::Display for Refusal {
    fn fmt(&self, f: &mut fmt::Formatter<'_>) -> fmt::Result {
        write!(f, "refusal {}, place {}", self.number(), self.place())?;
        match self {
            Self::Section(section) => write!(f, " (section of {section})")?,
            Self::Balances => write!(f, " (section of {})", Section::Balances)?,
            Self::Room(table) => write!(f, " (table of {table})")?,
            _ => {}
        }
        write!(f, ": {}", self.words())
    }
}

impl Error for Refusal {}

impl fmt::Display for Section {
    fn fmt(&self, f: &mut fmt::Formatter<'_>) -> fmt::Result {
        f.write_str(match self {
            Self::Keys => "keys",
            Self::Balances => "balances",
            Self::Outer => "outer instructions",
            Self::Inner => "inner instructions",
            Self::Pools => "graduated pools",
        })
    }
}

impl fmt::Display for Table {
    fn fmt(&self, f: &mut fmt::Formatter<'_>) -> fmt::Result {
        f.write_str(match self {
            Self::Mints => "mints",
            Self::Invocations => "invocations",
            Self::Transfers => "transfers",
            Self::Legs => "legs",
            Self::Natives => "native actions",
        })
    }
}
