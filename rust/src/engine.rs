//! The two engines, by either of which a filter is judged.

use crate::Refusal;
use crate::ffi::call;

/// Which way a filter is judged. On every input both give the same answer, refusals and places included.
#[derive(Clone, Copy, Debug, Default, PartialEq, Eq, Hash)]
pub enum Engine {
    /// By the filter's rows, which are made once for a run, as [`matches`](crate::matches) and [`select`](crate::select) do.
    #[default]
    Rows,
    /// By the filter's text, which is read again for each card: slower, to be held against the rows.
    Text,
}

impl Engine {
    /// The number that stands for the engine in C.
    fn number(self) -> u32 {
        match self {
            Engine::Rows => 0,
            Engine::Text => 1,
        }
    }
}

/// Answers what [`matches`](crate::matches) does, by the filter's text.
///
/// # Errors
///
/// What [`matches`](crate::matches) refuses.
pub fn matches_by_text(sheet: &[u8], filter: &[u8], card: &[u8]) -> Result<bool, Refusal> {
    call!(sirophan_match_by_text: read sheet, read filter, read card).into_yes()
}

/// Does what [`select`](crate::select) does, by either engine.
///
/// ```
/// use sirophan::sheet::{Parameter, Sheet};
/// use sirophan::{Engine, RUN, kind, select_by};
///
/// let sheet = Sheet::write(vec![Parameter::new(kind::TOKEN, "code")]).unwrap();
/// let by = |engine| select_by(engine, &sheet.block, b"code eq 291 or code gt 5", &[], &mut [0; RUN]);
/// assert_eq!(by(Engine::Rows), by(Engine::Text));
/// ```
///
/// # Errors
///
/// What [`select`](crate::select) refuses.
pub fn select_by(
    engine: Engine,
    sheet: &[u8],
    filter: &[u8],
    cards: &[u8],
    list: &mut [u32],
) -> Result<usize, Refusal> {
    let number = engine.number();
    call!(sirophan_select_by: value number, read sheet, read filter, read cards, write list).into_result()
}
