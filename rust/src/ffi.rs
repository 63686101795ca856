//! The C interface of the proved library, as `include/sirophan.h` declares it; what of it is plain C is in `texts`.

use crate::{Counts, Refusal, Tally};

/// `sirophan_answer`: the number of a refusal, or 0 for none, and the count, the yes or no, or the refusal's place.
#[repr(C)]
pub struct Answer {
    refusal: u32,
    value: usize,
}

impl Answer {
    pub fn into_result(self) -> Result<usize, Refusal> {
        match self.refusal {
            0 => Ok(self.value),
            number => Err(Refusal { number, place: self.value }),
        }
    }

    /// The same of a yes or no, which are 1 and 0.
    pub fn into_yes(self) -> Result<bool, Refusal> {
        self.into_result().map(|value| value == 1)
    }
}

/// `sirophan_counts`: the number of a refusal, or 0 for none, its place, and how many cards say yes and how many no.
#[repr(C)]
pub struct Reported {
    refusal: u32,
    place: usize,
    yes: usize,
    no: usize,
}

impl Reported {
    pub fn into_result(self) -> Result<Counts, Refusal> {
        match self.refusal {
            0 => Ok(Counts { yes: self.yes, no: self.no }),
            number => Err(Refusal { number, place: self.place }),
        }
    }
}

/// Calls a function of the interface. A slice goes as its pointer and its length: one that is read is marked `read`, and one
/// that is written `write`. A plain number is marked `value`.
macro_rules! call {
    ($function:ident: $($arguments:tt)+) => { $crate::ffi::call!(@ $function () $($arguments)+) };
    (@ $function:ident ($($passed:tt)*) read $slice:ident $(, $($rest:tt)+)?) => {
        $crate::ffi::call!(@ $function ($($passed)* $slice.as_ptr(), $slice.len(),) $($($rest)+)?)
    };
    (@ $function:ident ($($passed:tt)*) write $slice:ident $(, $($rest:tt)+)?) => {
        $crate::ffi::call!(@ $function ($($passed)* $slice.as_mut_ptr(), $slice.len(),) $($($rest)+)?)
    };
    (@ $function:ident ($($passed:tt)*) value $value:ident $(, $($rest:tt)+)?) => {
        $crate::ffi::call!(@ $function ($($passed)* $value,) $($($rest)+)?)
    };
    (@ $function:ident ($($passed:tt)*)) => {
        // SAFETY: each pointer comes with the length of the slice that it is of. The library writes only into what is
        // passed to be written, and that cannot overlap the others, since it is borrowed for writing.
        unsafe { $crate::ffi::$function($($passed)*) }
    };
}
pub(crate) use call;

unsafe extern "C" {
    pub fn sirophan_record(card: *const u8, card_len: usize) -> Answer;

    pub fn sirophan_seal(block: *mut u8, block_len: usize) -> Answer;

    pub fn sirophan_check(sheet: *const u8, sheet_len: usize, filter: *const u8, filter_len: usize) -> Answer;

    pub fn sirophan_match(
        sheet: *const u8,
        sheet_len: usize,
        filter: *const u8,
        filter_len: usize,
        card: *const u8,
        card_len: usize,
    ) -> Answer;

    pub fn sirophan_select(
        sheet: *const u8,
        sheet_len: usize,
        filter: *const u8,
        filter_len: usize,
        cards: *const u8,
        cards_len: usize,
        list: *mut u32,
        list_len: usize,
    ) -> Answer;

    pub fn sirophan_match_by_text(
        sheet: *const u8,
        sheet_len: usize,
        filter: *const u8,
        filter_len: usize,
        card: *const u8,
        card_len: usize,
    ) -> Answer;

    pub fn sirophan_select_by(
        engine: u32,
        sheet: *const u8,
        sheet_len: usize,
        filter: *const u8,
        filter_len: usize,
        cards: *const u8,
        cards_len: usize,
        list: *mut u32,
        list_len: usize,
    ) -> Answer;

    pub fn sirophan_prepare(
        sheet: *const u8,
        sheet_len: usize,
        filter: *const u8,
        filter_len: usize,
        list: *mut u32,
        list_len: usize,
    ) -> Answer;

    pub fn sirophan_judge(
        sheet: *const u8,
        sheet_len: usize,
        filter: *const u8,
        filter_len: usize,
        rows: *const u32,
        rows_len: usize,
        card: *const u8,
        card_len: usize,
    ) -> Answer;

    pub fn sirophan_check_search(sheet: *const u8, sheet_len: usize, text: *const u8, text_len: usize) -> Answer;

    pub fn sirophan_match_search(
        sheet: *const u8,
        sheet_len: usize,
        text: *const u8,
        text_len: usize,
        card: *const u8,
        card_len: usize,
    ) -> Answer;

    pub fn sirophan_select_search(
        sheet: *const u8,
        sheet_len: usize,
        text: *const u8,
        text_len: usize,
        cards: *const u8,
        cards_len: usize,
        list: *mut u32,
        list_len: usize,
    ) -> Answer;

    pub fn sirophan_spell(
        filter: *const u8,
        filter_len: usize,
        buffer: *mut u8,
        buffer_len: usize,
        from: usize,
    ) -> Answer;

    pub fn sirophan_explain(
        sheet: *const u8,
        sheet_len: usize,
        filter: *const u8,
        filter_len: usize,
        card: *const u8,
        card_len: usize,
        cells: *mut u8,
        cells_len: usize,
    ) -> Answer;

    pub fn sirophan_report(
        sheet: *const u8,
        sheet_len: usize,
        filter: *const u8,
        filter_len: usize,
        cards: *const u8,
        cards_len: usize,
        rows: *mut Tally,
        rows_len: usize,
    ) -> Reported;
}
