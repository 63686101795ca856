//! What of the library is plain C, as `include/sirophan.h` declares it: its version, and the refusals in sentences.

use std::ffi::{CStr, c_char};

unsafe extern "C" {
    fn sirophan_version() -> *const c_char;

    fn sirophan_reason(number: u32) -> *const c_char;
}

/// The version of the library that is linked.
///
/// ```
/// assert_eq!(sirophan::version(), env!("CARGO_PKG_VERSION"));
/// ```
#[must_use]
pub fn version() -> &'static str {
    // SAFETY: it takes nothing.
    own_text(unsafe { sirophan_version() })
}

/// What the library says of a number of refusal, which may be none.
pub(crate) fn sentence(number: u32) -> &'static str {
    // SAFETY: it takes any number.
    own_text(unsafe { sirophan_reason(number) })
}

/// A text of the library's own.
fn own_text(text: *const c_char) -> &'static str {
    // SAFETY: both functions answer a text that stays as it is, and ends with a zero.
    unsafe { CStr::from_ptr(text) }.to_str().unwrap_or("not UTF-8")
}
