//! Texts of cards and questions as pages show them, and back: what does not print, what turns writing round, and bytes that are no
//! UTF-8 are shown by their numbers.

use sirophan::spelling::prints;

/// What stands around a number on a page in plain text. A text that has them shows them by their numbers too.
const AROUND: [char; 2] = ['\u{27E8}', '\u{27E9}'];

/// The signs that mean something in HTML, and how they are written there.
const SIGNS: [(char, &str); 5] = [('&', "&amp;"), ('<', "&lt;"), ('>', "&gt;"), ('"', "&quot;"), ('\'', "&#39;")];

/// What stands around a number in HTML.
const TAGS: [&str; 2] = ["<b>", "</b>"];

/// Writes a text, each letter that prints by one function and each number by another.
fn written(text: &[u8], letter: impl Fn(&mut String, char), number: impl Fn(&mut String, &str)) -> String {
    let mut shown = String::with_capacity(text.len());
    for chunk in text.utf8_chunks() {
        for c in chunk.valid().chars() {
            if prints(c) && !AROUND.contains(&c) {
                letter(&mut shown, c);
            } else {
                number(&mut shown, &format!("U+{:04X}", u32::from(c)));
            }
        }
        chunk.invalid().iter().for_each(|byte| number(&mut shown, &format!("0x{byte:02X}")));
    }
    shown
}

/// A text in HTML.
pub fn html(text: &[u8]) -> String {
    let letter = |shown: &mut String, c: char| match SIGNS.iter().find(|(sign, _)| *sign == c) {
        Some((_, written)) => shown.push_str(written),
        None => shown.push(c),
    };
    written(text, letter, |shown, number| shown.extend([TAGS[0], number, TAGS[1]]))
}

/// A text in plain text, on one line.
pub fn plain(text: &[u8]) -> String {
    let number = |shown: &mut String, number: &str| {
        shown.push(AROUND[0]);
        shown.push_str(number);
        shown.push(AROUND[1]);
    };
    written(text, String::push, number)
}

/// The bytes of a number: of a character, or one byte.
fn bytes_of(number: &str) -> Option<Vec<u8>> {
    if let Some(digits) = number.strip_prefix("0x") {
        return u8::from_str_radix(digits, 16).ok().map(|byte| vec![byte]);
    }
    let code = u32::from_str_radix(number.strip_prefix("U+")?, 16).ok()?;
    Some(char::from_u32(code)?.to_string().into_bytes())
}

/// The text that was written with numbers between two signs, where the rest is read by a function.
fn read(shown: &str, around: [&str; 2], letters: impl Fn(&str) -> Option<String>) -> Option<Vec<u8>> {
    let mut parts = shown.split(around[0]);
    let mut text = letters(parts.next()?)?.into_bytes();
    for part in parts {
        let (number, rest) = part.split_once(around[1])?;
        text.extend(bytes_of(number)?);
        text.extend(letters(rest)?.into_bytes());
    }
    Some(text)
}

/// The text that is shown in HTML.
pub fn from_html(shown: &str) -> Option<Vec<u8>> {
    let letters = |part: &str| {
        if part.contains('<') {
            return None;
        }
        let mut pieces = part.split('&');
        let mut text = pieces.next()?.to_string();
        for piece in pieces {
            let (sign, rest) = piece.split_once(';')?;
            let (sign, _) = SIGNS.iter().find(|(_, written)| written[1..written.len() - 1] == *sign)?;
            text.push(*sign);
            text.push_str(rest);
        }
        Some(text)
    };
    read(shown, TAGS, letters)
}

/// The text that is shown in plain text.
pub fn from_plain(shown: &str) -> Option<Vec<u8>> {
    let around = AROUND.map(String::from);
    read(shown, [&around[0], &around[1]], |part| Some(part.into()))
}

#[cfg(test)]
mod tests {
    use super::*;

    /// What could be taken for HTML, for another text or for nothing is shown as what it is, and comes back.
    #[test]
    fn shown_and_read() {
        let texts: [&[u8]; 12] = [
            b"",
            b"Ward book 4",
            b"<script>alert(\"1\")</script> & 'x' &lt;",
            "Ström Дворжак".as_bytes(),
            b"Str\xF6m\xE2\x80",
            "a\u{202E}b\u{2066}c\u{200F}".as_bytes(),
            "a\u{A0}b\u{AD}\u{FEFF}\u{E0041}".as_bytes(),
            b"a\nb\tc\0\x7F",
            "\u{27E8}U+202E\u{27E9}".as_bytes(),
            b"<b>U+202E</b>",
            b"U+202E 0xE4",
            "e\u{301}".as_bytes(),
        ];
        for text in texts {
            let (html, plain) = (html(text), plain(text));
            assert_eq!(from_html(&html).as_deref(), Some(text), "{html}");
            assert_eq!(from_plain(&plain).as_deref(), Some(text), "{plain}");
            let bare = html.replace("<b>", "").replace("</b>", "");
            assert!(!bare.contains(['<', '>', '"', '\'']), "{html}");
            assert!(html.chars().chain(plain.chars()).all(prints), "{html} {plain}");
        }
        assert_eq!(plain("a\u{202E}\u{7F}".as_bytes()), "a\u{27E8}U+202E\u{27E9}\u{27E8}U+007F\u{27E9}");
        assert_eq!(html(b"<\xE4"), "&lt;<b>0xE4</b>");
    }

    /// What no page shows is not read.
    #[test]
    fn what_is_none() {
        for shown in ["<b>U+202E", "<b>x</b>", "&nbsp;", "&", "a<i>b</i>"] {
            assert_eq!(from_html(shown), None, "{shown}");
        }
        assert_eq!(from_plain("\u{27E8}U+20"), None);
    }
}
