//! Which catalogue cards of an archive match a FHIR R4 `_filter`.
//!
//! This crate is a safe interface to the proved library. A *sheet* says which parameters the cards have and of which
//! kind each is; a *card* holds a record number and search values; both are blocks of 512 bytes. None of them is
//! trusted: each call checks what it is given, and ends with an answer or with a [`Refusal`].
//!
//! ```
//! use sirophan::block::{Item, write_card};
//! use sirophan::sheet::{Parameter, Sheet};
//! use sirophan::{kind, select};
//!
//! let sheet = Sheet::write(vec![Parameter::new(kind::STRING, "title"), Parameter::new(kind::TOKEN, "code")]).unwrap();
//! let card = |record, title| write_card(record, &[Item::new(0, title)]).unwrap();
//! let cards = [card(7, "Ward book 4"), card(19, "Admissions, men")].concat();
//!
//! let mut list = [0; sirophan::RUN];
//! assert_eq!(select(&sheet.block, b"title co book", &cards, &mut list), Ok(1));
//! assert_eq!(list[0], 7);
//!
//! // What has no meaning is refused, and not answered with none.
//! let filter = b"title pr true or code gt 5";
//! let refusal = select(&sheet.block, filter, &cards, &mut list).unwrap_err();
//! assert_eq!(refusal.reason(), Some(sirophan::Reason::NoMeaning));
//! assert_eq!(
//!     refusal.render(filter),
//!     "title pr true or code gt 5\n                 ^\n\
//!      refused 16 at 17: The operator has no meaning for a parameter of this kind."
//! );
//! ```
//!
//! [`Archive`] goes through a file of any size, and [`Query`] takes what a registry sends. What answers and refuses is proved; this crate, which calls it, is plain Rust.

#![warn(clippy::pedantic)]

mod archive;
pub mod block;
mod engine;
mod explained;
mod ffi;
pub mod filter;
pub mod kind;
pub mod percent;
mod prepared;
pub mod query;
mod reason;
mod refusal;
pub mod sheet;
pub mod spelling;
mod texts;
mod words;

use ffi::call;

pub use archive::{Archive, Found, RUN, Unanswered};
pub use engine::{Engine, matches_by_text, select_by};
pub use explained::{Explained, Explanation, MOST_TESTS, Mark, explain, explain_into};
pub use prepared::{MOST_CELLS, Prepared, judge, prepare, prepare_into};
pub use query::{Query, QueryRefusal};
pub use reason::Reason;
pub use refusal::{Refusal, underline};
pub use texts::version;
pub use words::Words;

/// The record number of a card, whatever else is in it.
///
/// # Errors
///
/// What is not 512 bytes, with 20.
pub fn record(card: &[u8]) -> Result<u32, Refusal> {
    // the library answers a number of four bytes
    call!(sirophan_record: read card).into_result().map(|number| u32::try_from(number).unwrap_or(u32::MAX))
}

/// Writes the check sum into the last four bytes of a block, and answers it. The first 508 bytes stay, and so does what is refused.
///
/// # Errors
///
/// What is not 512 bytes, with 20.
pub fn seal(block: &mut [u8]) -> Result<u32, Refusal> {
    call!(sirophan_seal: write block).into_result().map(|sum| u32::try_from(sum).unwrap_or(u32::MAX))
}

/// Checks a filter against a sheet and answers how many tests the filter has.
///
/// If it passes, every test has a meaning on every card that fits the sheet.
///
/// # Errors
///
/// A sheet that is not sound (1 to 3), and a filter that has no meaning on it (10 to 18).
pub fn check(sheet: &[u8], filter: &[u8]) -> Result<usize, Refusal> {
    call!(sirophan_check: read sheet, read filter).into_result()
}

/// Answers whether the card matches the filter.
///
/// # Errors
///
/// What [`check`] refuses, and a card that is not sound or does not fit the sheet (20 to 23).
pub fn matches(sheet: &[u8], filter: &[u8], card: &[u8]) -> Result<bool, Refusal> {
    call!(sirophan_match: read sheet, read filter, read card).into_yes()
}

/// Selects from a run of 0 to 128 cards: writes the record numbers of those that match into the list, in card order
/// from its first cell on, and answers how many they are. Later cells stay, and a refusal leaves the whole list as it is.
///
/// # Errors
///
/// What [`check`] refuses, the first card at fault (21 to 23), what is no run (20), and a list that is too short (30): [`RUN`]
/// cells are always enough.
pub fn select(sheet: &[u8], filter: &[u8], cards: &[u8], list: &mut [u32]) -> Result<usize, Refusal> {
    call!(sirophan_select: read sheet, read filter, read cards, write list).into_result()
}

/// Checks a search string, such as `birthdate=ge1974&title=ward`, against a sheet and answers how many alternatives it has.
///
/// If it passes, every alternative has a meaning on every card that fits the sheet.
///
/// # Errors
///
/// A sheet that is not sound (1 to 3), and a string that has no meaning on it (10, 14, 16, 17, 50, 51).
pub fn check_search(sheet: &[u8], text: &[u8]) -> Result<usize, Refusal> {
    call!(sirophan_check_search: read sheet, read text).into_result()
}

/// Answers whether the card matches the search string.
///
/// # Errors
///
/// What [`check_search`] refuses, and a card that is not sound or does not fit the sheet (20 to 23).
pub fn matches_search(sheet: &[u8], text: &[u8], card: &[u8]) -> Result<bool, Refusal> {
    call!(sirophan_match_search: read sheet, read text, read card).into_yes()
}

/// Selects from a run of 0 to 128 cards by a search string, as [`select`] does by a filter.
///
/// # Errors
///
/// What [`check_search`] refuses, and then as [`select`] does.
pub fn select_search(sheet: &[u8], text: &[u8], cards: &[u8], list: &mut [u32]) -> Result<usize, Refusal> {
    call!(sirophan_select_search: read sheet, read text, read cards, write list).into_result()
}

/// Puts the plain spelling of a filter into the buffer, from the byte at the index `from` on, and answers its length. All
/// other bytes stay, and a refusal leaves the whole buffer as it is.
///
/// # Errors
///
/// A text that is no filter (10 to 13), and a buffer that is too short (32).
pub fn spell(filter: &[u8], buffer: &mut [u8], from: usize) -> Result<usize, Refusal> {
    call!(sirophan_spell: read filter, write buffer, value from).into_result()
}

/// The plain spelling of a filter: one space where one is needed, no bracket that can be spared, a bare word wherever the
/// value can be one. Two filters have the same exactly when they ask the same tests, joined, negated and grouped the same.
///
/// ```
/// let filed = sirophan::plain(b"  (title co \"book\")  and pages gt 12");
/// assert_eq!(filed.unwrap(), b"title co book and pages gt 12");
/// ```
///
/// # Errors
///
/// A text that is no filter (10 to 13).
pub fn plain(filter: &[u8]) -> Result<Vec<u8>, Refusal> {
    // it is never longer than the filter
    let mut buffer = vec![0; filter.len()];
    let length = spell(filter, &mut buffer, 0)?;
    buffer.truncate(length);
    Ok(buffer)
}

/// A row of a report, for one parameter.
#[repr(C)]
#[derive(Clone, Copy, Debug, Default, PartialEq, Eq, Hash)]
pub struct Tally {
    /// The cards of the run that have the parameter.
    pub cards: u32,
    /// The values under it, repeats counted. A bundle has none.
    pub values: u32,
}

/// What a report counts: the cards of the run that match the filter, and those that do not.
#[derive(Clone, Copy, Debug, Default, PartialEq, Eq, Hash)]
pub struct Counts {
    /// The cards that match,
    pub yes: usize,
    /// and those that do not.
    pub no: usize,
}

/// Reports on a run of 0 to 128 cards: counts those that match and those that do not, and writes a row for each parameter
/// of the sheet, in its order from the first row on. All cards of the run count in the rows, matching or not. Later rows
/// stay, and a refusal leaves all rows as they are; 31 says how many rows are needed.
///
/// # Errors
///
/// As [`select`] does, and rows that are too few (31).
pub fn report(sheet: &[u8], filter: &[u8], cards: &[u8], rows: &mut [Tally]) -> Result<Counts, Refusal> {
    // a row is two numbers, as in C
    call!(sirophan_report: read sheet, read filter, read cards, write rows).into_result()
}
