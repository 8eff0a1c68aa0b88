//! The five tables of a pack for a person. `report` gathers what is to be shown, `words` says it in
//! phrases; `text` and `page` set the same phrases as plain text and as one HTML page. `month` does
//! the like for the totals of many packs.

mod keys;
#[cfg(feature = "link")]
pub mod month;
mod page;
mod report;
mod text;
mod words;

pub use keys::Keys;
pub use page::page;
pub use report::Report;
pub use text::text;
pub use words::grouped;
