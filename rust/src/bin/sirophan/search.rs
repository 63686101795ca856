//! Where the parts of a search string stand, so that they can be shown, and what they say. Whether a text is a search
//! string, and what it means, is never decided here.

use sirophan::percent::{self, decoded};
use std::ops::Range;

/// A pair: `birthdate=ge1974,1980`.
#[derive(Debug, PartialEq, Eq)]
pub struct Pair {
    /// From its first byte to the last before the ampersand.
    pub whole: Range<usize>,
    /// What its name stands for.
    pub name: Vec<u8>,
    /// The parts of its value.
    pub alternatives: Vec<Alternative>,
}

/// A part of a value, between commas.
#[derive(Debug, Default, PartialEq, Eq)]
pub struct Alternative {
    /// As the string has it.
    pub written: Vec<u8>,
    /// What it stands for.
    pub text: Vec<u8>,
}

/// The pairs of a text that is a search string; none where it turns out not to be one.
pub fn read(text: &[u8]) -> Option<Vec<Pair>> {
    let mut start = 0;
    let pairs = text.split(|&byte| byte == b'&').map(|part| {
        let whole = start..start + part.len();
        start = whole.end + 1;
        read_pair(whole, part)
    });
    pairs.collect()
}

/// Where the part that begins at a place stands: up to the next ampersand.
pub fn part_at(text: &[u8], place: usize) -> Range<usize> {
    let place = place.min(text.len());
    let length = text[place..].iter().position(|&byte| byte == b'&');
    place..length.map_or(text.len(), |length| place + length)
}

fn read_pair(whole: Range<usize>, part: &[u8]) -> Option<Pair> {
    let cut = part.iter().position(|&byte| byte == b'=')?;
    let name = percent::bytes(&part[..cut])?;
    Some(Pair { whole, name, alternatives: alternatives(&decoded(&part[cut + 1..])?) })
}

/// The parts of a value: a comma cuts, unless it has a backslash before it that makes it plain.
fn alternatives(value: &[(&[u8], u8)]) -> Vec<Alternative> {
    let mut found = Vec::new();
    let mut last = Alternative::default();
    let mut bytes = value.iter().peekable();
    while let Some(&(written, byte)) = bytes.next() {
        if byte == b',' {
            found.push(std::mem::take(&mut last));
            continue;
        }
        last.written.extend(written);
        let plain = bytes.next_if(|(_, next)| byte == b'\\' && b",|$\\".contains(next));
        last.written.extend(plain.map_or(&[][..], |(written, _)| written));
        last.text.push(plain.map_or(byte, |(_, plain)| *plain));
    }
    found.push(last);
    found
}

#[cfg(test)]
mod tests {
    use super::*;

    /// The names and the texts of a string's alternatives.
    fn texts(text: &str) -> Vec<(String, Vec<String>)> {
        let string = |bytes: &[u8]| String::from_utf8(bytes.to_vec()).unwrap();
        let pairs = read(text.as_bytes()).unwrap().into_iter();
        pairs.map(|pair| (string(&pair.name), pair.alternatives.iter().map(|a| string(&a.text)).collect())).collect()
    }

    /// Cuts, encodings and backslashes.
    #[test]
    fn parts() {
        let one = |name: &str, texts: &[&str]| {
            (name.to_string(), texts.iter().map(std::string::ToString::to_string).collect())
        };
        assert_eq!(texts("a=b&c=d,e"), [one("a", &["b"]), one("c", &["d", "e"])]);
        assert_eq!(texts("a=b%2Cc%5C,d"), [one("a", &["b", "c,d"])]);
        assert_eq!(texts("a%3D=%26+=,"), [one("a=", &["& =", ""])]);
        assert_eq!(texts("a=\\x\\\\,\\|\\"), [one("a", &["\\x\\", "|\\"])]);
        for text in ["a", "a=%4", "a=%+1", "a=b&"] {
            assert_eq!(read(text.as_bytes()), None, "{text}");
        }
    }

    /// Where they stand, and how they are written.
    #[test]
    fn places() {
        let pairs = read(b"a=b&c=d%20e,f\\,g").unwrap();
        assert_eq!(pairs[1].whole, 4..16);
        assert_eq!(pairs[1].alternatives[0].written, b"d%20e");
        assert_eq!(pairs[1].alternatives[1].written, b"f\\,g");
        assert_eq!(part_at(b"a=b&&c", 4), 4..4);
        assert_eq!(part_at(b"a=b&c", 4), 4..5);
    }
}
