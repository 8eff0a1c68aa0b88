//! Mbelaguy for Rust: which token did a Solana account hold, and who moved what?
//!
//! One transaction goes in as a *pack* ([`pack::Pack`], written from plain values), five tables come
//! out: a mint for each token account, the invocations, the token transfers, the swap legs, and the
//! actions on wrapped SOL. [`route`] fills them by the proved library; [`Tables`] holds them and
//! reads them as typed rows, each mint with its mark ([`rows::Mint`]). docs/FORMAT.md has all of it
//! byte by byte.
//!
//! A [`Month`] takes the transfers of many packs and sums them, by mint and by account, to the last unit.
//!
//! Whatever goes in, nothing here panics: what the library refuses is a [`Refusal`], what does not
//! fit into a pack a [`pack::DoesNotFit`], bytes that are no table a [`BadTable`].
//!
//! Only [`route`], [`room`] and [`Month::feed`] need the static library. Without the feature `link` the
//! rest stands by itself.
//!
//! A port of `transaction_route.rs` of sol-parser-sdk, under the original's MIT licence: see NOTICE.

#![deny(missing_docs)]

mod answer;
pub mod base58;
mod bytes;
pub mod ids;
#[cfg(feature = "link")]
mod library;
mod month;
mod names;
pub mod pack;
mod refusal;
pub mod rows;
mod tables;
mod version;

pub use answer::{Answer, MonthAnswer};
#[cfg(feature = "link")]
pub use library::{month_into, room, route, route_into};
pub use month::{Month, MonthLine, Totals, REPORT_ROW};
pub use names::Names;
pub use refusal::{Refusal, Section, Table};
pub use tables::{BadTable, Tables, MOST_ROWS, WIDTHS};
#[cfg(feature = "link")]
pub use version::version;
pub use version::VERSION;

/// A key, an account, a mint, a program: 32 bytes.
pub type Key = [u8; 32];

/// The most keys of a pack that is not refused.
pub const MAX_KEYS: usize = 256;

/// The most invocations that are kept.
pub const MAX_INVOCATIONS: usize = 1_024;

/// The most passes over the plain transfers. No pack comes near it.
pub const MAX_PASSES: usize = 512;

/// The most transfers that are fed into one [`Month`].
pub const MAX_FED: u32 = 4_294_967_295;
