//! A filter that is read once, for many cards.

use crate::Refusal;
use crate::ffi::call;

/// Rows fill at most this many cells: each takes a byte of the filter.
pub const MOST_CELLS: usize = 1024;

/// A filter on a sheet, both checked and read. It owns all that it needs, so that its rows always belong to its sheet
/// and its filter.
///
/// ```
/// use sirophan::block::{Item, write_card};
/// use sirophan::sheet::{Parameter, Sheet};
/// use sirophan::{kind, prepare};
///
/// let sheet = Sheet::write(vec![Parameter::new(kind::NUMBER, "pages")]).unwrap();
/// let prepared = prepare(&sheet.block, b"pages gt 100").unwrap();
/// let matches = |pages| prepared.matches(&write_card(1, &[Item::new(0, pages)]).unwrap());
/// assert_eq!(matches("250"), Ok(true));
/// assert_eq!(matches("12.0"), Ok(false));
/// assert_eq!(matches("many").unwrap_err().number, 23);
/// ```
#[derive(Clone, Debug)]
pub struct Prepared {
    sheet: Box<[u8]>,
    filter: Box<[u8]>,
    rows: Box<[u32]>,
}

impl Prepared {
    /// Answers whether the card matches the filter.
    ///
    /// # Errors
    ///
    /// Only the card can be refused, with 20 to 23.
    pub fn matches(&self, card: &[u8]) -> Result<bool, Refusal> {
        judge(&self.sheet, &self.filter, &self.rows, card)
    }

    /// The filter's rows, which [`judge`] takes with the same sheet and filter.
    #[must_use]
    pub fn rows(&self) -> &[u32] {
        &self.rows
    }
}

/// Reads a filter on a sheet, for many cards.
///
/// # Errors
///
/// What [`check`](crate::check) refuses.
pub fn prepare(sheet: &[u8], filter: &[u8]) -> Result<Prepared, Refusal> {
    let mut list = [0; MOST_CELLS];
    let cells = prepare_into(sheet, filter, &mut list)?;
    Ok(Prepared { sheet: sheet.into(), filter: filter.into(), rows: list[..cells].into() })
}

/// Writes the rows of a filter into the list, from its first cell on, and answers how many cells they fill. Later cells
/// stay, and a refusal leaves the whole list as it is.
///
/// # Errors
///
/// What [`check`](crate::check) refuses, and a list that is too short (34).
pub fn prepare_into(sheet: &[u8], filter: &[u8], list: &mut [u32]) -> Result<usize, Refusal> {
    call!(sirophan_prepare: read sheet, read filter, write list).into_result()
}

/// Answers whether the card matches what rows state on a sheet and a filter. Rows are tested like any other input: those
/// that are not good for this sheet and this filter are refused.
///
/// # Errors
///
/// What [`matches`](crate::matches) refuses, and rows that are not good (40).
pub fn judge(sheet: &[u8], filter: &[u8], rows: &[u32], card: &[u8]) -> Result<bool, Refusal> {
    call!(sirophan_judge: read sheet, read filter, read rows, read card).into_yes()
}
