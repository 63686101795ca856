//! Texts folded, so that they are compared byte by byte, and the search of one in another.

/// Folds a text into a place of the same length: capitals of ASCII, and those of Latin-1 in UTF-8.
#[inline]
pub fn fold(text: &[u8], into: &mut [u8]) {
    let mut some = 0;
    for (to, &byte) in into.iter_mut().zip(text) {
        some |= byte;
        *to = byte | (u8::from(byte.wrapping_sub(b'A') < 26) << 5);
    }
    if some.is_ascii() {
        return;
    }
    for at in 1..text.len() {
        if text[at - 1] == 0xC3 && (0x80..=0x9E).contains(&text[at]) && text[at] != 0x97 {
            into[at] = text[at] + 32;
        }
    }
}

/// Whether the folded text holds the folded part. Where no place has the part's first and last byte, which is seen for
/// many places at a time, none is looked at by itself.
#[inline]
pub fn contains(text: &[u8], part: &[u8]) -> bool {
    let [first, .., last] = *part else { return part.first().is_none_or(|byte| text.contains(byte)) };
    if text.len() < part.len() {
        return false;
    }
    let lasts = &text[part.len() - 1..];
    let mut some = false;
    for (a, b) in text.iter().zip(lasts) {
        some |= (*a == first) & (*b == last);
    }
    some && text.windows(part.len()).any(|window| window[0] == first && window == part)
}
