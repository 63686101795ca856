//! Strings and references.

use super::{LONGEST, one_byte_changed, telling_byte};
use crate::generate::random::Random;

/// Letters with accents by their bytes: 0xC3, bytes at the ends of those that fold behind it, beside them and beside the one
/// between that does not, and what they fold to. Texts of them have letters cut in two and bytes that stand alone.
const ACCENTS: &[u8] = b"\xC3\xC3\xC3\xC3\xC3\x80\xA0\x96\xB6\x97\xB7\x98\xB8\x9E\xBE\x9F\xBF\x7F\xC2\xC4\xE3aA|";

/// A text of any bytes. Many have few letters, so that parts repeat inside them, and some have accents.
pub fn readable(random: &mut Random) -> Vec<u8> {
    let length = match random.below(20) {
        0 => 0,
        1 => LONGEST - random.below(3),
        2 => random.below(LONGEST),
        _ => 1 + random.below(12),
    };
    let style = random.below(6);
    let letter = |_| match style {
        0 | 1 => random.one(b"aAb"),
        2 | 3 => random.one(ACCENTS),
        _ if random.once_in(8) => random.byte(),
        _ => random.one(b"Ward bok4zZ@[`{\"\\/\x08\x0C\n\r\t\xC0\xE0\xC4\xE4"),
    };
    (0..length).map(letter).collect()
}

/// A text of the sort that references are, or of any bytes; never an empty one.
pub fn reference(random: &mut Random) -> Vec<u8> {
    let known = ["Patient/17", "Patient/1", "http://h.org/Patient/17", "#p", "Patient/Str\u{D6}m"];
    let text = match random.below(3) {
        0 => readable(random),
        _ => random.one(&known).into(),
    };
    if text.is_empty() { b"a".to_vec() } else { text }
}

/// The same text, a part of it, or one that differs in a byte; in half of the cases with other case besides.
pub fn near(random: &mut Random, text: &[u8]) -> Vec<u8> {
    let from = random.below(text.len() + 1);
    let to = from + random.below(text.len() - from + 1);
    let mut near = match random.below(7) {
        0 => text.to_vec(),
        1 => text[..to].to_vec(),
        2 => text[from..].to_vec(),
        3 => text[from..to].to_vec(),
        4 => [text, &[telling_byte(random)]].concat(),
        5 => [&[telling_byte(random)], text].concat(),
        _ => one_byte_changed(random, text),
    };
    if random.once_in(2) {
        other_case(random, &mut near);
    }
    near
}

/// Turns the case of some letters and of some bytes that may be the second of a letter, or the same bit of one other byte,
/// which must tell the texts apart.
pub fn other_case(random: &mut Random, text: &mut [u8]) {
    if random.once_in(3) && !text.is_empty() {
        text[random.below(text.len())] ^= 0x20;
        return;
    }
    for byte in text {
        if matches!(byte, b'A'..=b'Z' | b'a'..=b'z' | 0x80..=0xBF) && random.once_in(2) {
            *byte ^= 0x20;
        }
    }
}
