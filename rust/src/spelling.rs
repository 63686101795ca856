//! The spelling of texts in descriptions: any bytes as a line that prints, and back.

use std::ops::RangeInclusive;

/// Characters that print nothing, so that a reader would not see them.
const INVISIBLE: [RangeInclusive<char>; 11] = [
    '\u{AD}'..='\u{AD}',
    '\u{34F}'..='\u{34F}',
    '\u{61C}'..='\u{61C}',
    '\u{115F}'..='\u{1160}',
    '\u{180B}'..='\u{180F}',
    '\u{200B}'..='\u{200F}',
    '\u{202A}'..='\u{202E}',
    '\u{2060}'..='\u{206F}',
    '\u{FEFF}'..='\u{FEFF}',
    '\u{FFF0}'..='\u{FFFB}',
    '\u{E0000}'..='\u{E0FFF}',
];

/// Whether a character is seen as what it is: no control character, no blank but the space, none that is invisible.
#[must_use]
pub fn prints(c: char) -> bool {
    c == ' ' || !(c.is_control() || c.is_whitespace() || INVISIBLE.iter().any(|range| range.contains(&c)))
}

/// A text as a description writes it: as it is, or in double quotes where it is empty, begins or ends with a space,
/// begins with a double quote, or has a byte that does not print.
pub fn spell(text: &[u8]) -> String {
    match str::from_utf8(text) {
        Ok(plain)
            if !plain.is_empty() && plain.trim() == plain && !plain.starts_with('"') && plain.chars().all(prints) =>
        {
            plain.into()
        }
        _ => format!("\"{}\"", text.iter().map(|&byte| spell_byte(byte)).collect::<String>()),
    }
}

/// A byte between the double quotes of a description.
fn spell_byte(byte: u8) -> String {
    match byte {
        b'"' | b'\\' => format!("\\{}", char::from(byte)),
        b' '..=b'~' => char::from(byte).into(),
        _ => format!("\\x{byte:02X}"),
    }
}

/// The bytes of a text that a description has, or none where a text in double quotes is not well written.
#[must_use]
pub fn read(written: &[u8]) -> Option<Vec<u8>> {
    let Some(rest) = written.strip_prefix(b"\"") else { return Some(written.to_vec()) };
    let mut inside = rest.strip_suffix(b"\"")?;
    let mut text = Vec::new();
    while let Some((&byte, rest)) = inside.split_first() {
        inside = rest;
        match byte {
            b'"' => return None,
            b'\\' => text.push(read_escape(&mut inside)?),
            _ => text.push(byte),
        }
    }
    Some(text)
}

/// The byte that stands behind a backslash, which is taken off the text: `\"`, `\\` or `\xHH`.
fn read_escape(inside: &mut &[u8]) -> Option<u8> {
    let (&sign, rest) = inside.split_first()?;
    if sign != b'x' {
        *inside = rest;
        return matches!(sign, b'"' | b'\\').then_some(sign);
    }
    let (digits, rest) = rest.split_at_checked(2)?;
    *inside = rest;
    let digits = str::from_utf8(digits).ok().filter(|digits| digits.bytes().all(|digit| digit.is_ascii_hexdigit()))?;
    u8::from_str_radix(digits, 16).ok()
}

#[cfg(test)]
mod tests {
    use super::*;

    /// Every text of two bytes, and texts with letters that do not print, come back from their spelling.
    #[test]
    fn spellings_are_read_back() {
        for first in 0..=255 {
            for second in 0..=255 {
                let text = [first, second];
                assert_eq!(read(spell(&text).as_bytes()), Some(text.to_vec()));
            }
        }
        for text in ["", " a", "a ", "\"", "a\"b", "aä", "\u{2028}", "a\u{200B}", "#", "\\x41"] {
            let spelled = spell(text.as_bytes());
            assert_eq!(read(spelled.as_bytes()), Some(text.as_bytes().to_vec()), "{spelled}");
            assert!(spelled.chars().all(prints), "{spelled}");
        }
        assert_eq!(spell("Ström, \\ \"x\"".as_bytes()), "Ström, \\ \"x\"");
    }

    /// Texts in double quotes that are not well written.
    #[test]
    fn spellings_that_are_none() {
        for written in ["\"", "\"x", "\"\\n\"", "\"a\"b\"", "\"\\x4\"", "\"\\x+1\"", "\"\\\"", "\"a\" "] {
            assert_eq!(read(written.as_bytes()), None, "{written}");
        }
    }
}
