//! Comparisons of texts. They ignore the case of A to Z and of the letters U+00C0 to U+00DE without U+00D7, which in UTF-8
//! are 0xC3 and a byte behind it; every other byte is compared as it is. Each text is folded whole before it is compared.

/// The bytes of the folded text from a place on. The byte before the first of them counts, if there is one.
fn folded(text: &[u8], from: usize) -> impl Iterator<Item = u8> {
    (from..text.len()).map(|at| match text[at.saturating_sub(1)..=at] {
        [.., capital @ b'A'..=b'Z'] | [0xC3, capital @ (0x80..=0x96 | 0x98..=0x9E)] => capital + 32,
        _ => text[at],
    })
}

/// The folded text holds the folded part at a place.
fn holds_at(text: &[u8], from: usize, part: &[u8]) -> bool {
    from + part.len() <= text.len() && folded(text, from).zip(folded(part, 0)).all(|(left, right)| left == right)
}

/// The texts are the same.
pub fn same(left: &[u8], right: &[u8]) -> bool {
    left.len() == right.len() && holds_at(left, 0, right)
}

/// The text holds the part at its start.
pub fn starts(text: &[u8], part: &[u8]) -> bool {
    holds_at(text, 0, part)
}

/// The text holds the part at its end.
pub fn ends(text: &[u8], part: &[u8]) -> bool {
    let from = text.len().checked_sub(part.len());
    from.is_some_and(|from| holds_at(text, from, part))
}

/// The text holds the part somewhere.
pub fn contains(text: &[u8], part: &[u8]) -> bool {
    (0..=text.len()).any(|from| holds_at(text, from, part))
}

#[cfg(test)]
mod tests {
    use super::*;

    #[test]
    fn case_of_letters_only() {
        assert!(same(b"Ward book", b"wARD BOOK"));
        assert!(!same(b"@[", b"`{"));
        assert!(!same(b"\xC4", b"\xE4"));
        assert!(!same(b"a", b"ab"));
    }

    #[test]
    fn accents() {
        for letter in ('\u{C0}'..='\u{DE}').filter(|&letter| letter != '\u{D7}') {
            let small = char::from_u32(letter as u32 + 32).unwrap();
            assert!(same(letter.to_string().as_bytes(), small.to_string().as_bytes()), "{letter}");
        }
        assert!(same("STRÖM".as_bytes(), "Ström".as_bytes()) && !same("×".as_bytes(), "÷".as_bytes()));
        assert!(!same("ß".as_bytes(), "ÿ".as_bytes()) && !same("Ÿ".as_bytes(), "ÿ".as_bytes()));
        assert!(!same(b"\x96", b"\xB6") && !same(b"\xC2\x96", b"\xC2\xB6") && !same(b"\xC3|\x96", b"\xC3|\xB6"));
        assert!(same(b"\xC3\xC3\x96", b"\xC3\xC3\xB6") && same(b"\xC3A", b"\xC3a") && same(b"A\xC3", b"a\xC3"));
        assert!(ends("STRÖM".as_bytes(), b"\xB6m") && !ends("STRÖM".as_bytes(), b"\x96m"));
        assert!(contains("STRÖM".as_bytes(), b"\xB6") && !contains("STRÖM".as_bytes(), b"\x96"));
    }

    #[test]
    fn parts() {
        assert!(starts(b"Ward", b"wa") && !starts(b"Ward", b"ar") && !starts(b"Wa", b"War"));
        assert!(ends(b"Ward", b"RD") && !ends(b"Ward", b"ar") && !ends(b"rd", b"ard"));
        assert!(contains(b"aaab", b"AAB") && contains(b"ab", b"ab") && !contains(b"ab", b"ba"));
        for text in [&b""[..], b"Ward"] {
            assert!(starts(text, b"") && ends(text, b"") && contains(text, b""));
        }
    }
}
