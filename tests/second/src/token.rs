//! Tokens: a code, perhaps with the system that it belongs to.

use crate::text;

/// The short names that a filter may use for a system, and what they stand for.
pub const NAMESPACES: [(&[u8], &[u8]); 4] = [
    (b"loinc", b"http://loinc.org"),
    (b"snomed", b"http://snomed.info/sct"),
    (b"rxnorm", b"http://www.nlm.nih.gov/research/umls/rxnorm"),
    (b"ucum", b"http://unitsofmeasure.org"),
];

/// A token on a card. Its system may be empty, its code may not.
#[derive(Clone, Copy, Debug, PartialEq, Eq)]
pub struct Token<'a> {
    pub system: &'a [u8],
    pub code: &'a [u8],
}

/// A token in a filter: what it asks of the system and of the code, if anything. An empty system asks for none.
#[derive(Clone, Debug, PartialEq, Eq)]
pub struct Pattern {
    pub system: Option<Vec<u8>>,
    pub code: Option<Vec<u8>>,
}

/// Splits at the first bar.
fn split(text: &[u8]) -> (Option<&[u8]>, &[u8]) {
    match text.iter().position(|&byte| byte == b'|') {
        Some(bar) => (Some(&text[..bar]), &text[bar + 1..]),
        None => (None, text),
    }
}

impl Token<'_> {
    /// Reads a token on a card.
    pub fn read(text: &[u8]) -> Option<Token<'_>> {
        let (system, code) = split(text);
        let system = system.unwrap_or_default();
        (!code.is_empty()).then_some(Token { system, code })
    }
}

impl Pattern {
    /// Reads a token in a filter: `code`, `system|code`, `|code` or `system|`.
    pub fn read(text: &[u8]) -> Option<Pattern> {
        let (system, code) = match split(text) {
            (None | Some(b""), b"") => return None,
            (system, b"") => (system, None),
            (system, code) => (system, Some(code)),
        };
        Some(Pattern { system: system.map(namespace).map(<[u8]>::to_vec), code: code.map(<[u8]>::to_vec) })
    }

    /// Reads a token of a search string, which is split at this bar or has none; its system is taken as it is written.
    pub fn literal(text: &[u8], bar: Option<usize>) -> Option<Pattern> {
        let (system, code) = match bar {
            Some(bar) => (Some(&text[..bar]), &text[bar + 1..]),
            None => (None, text),
        };
        if code.is_empty() && system.is_none_or(<[u8]>::is_empty) {
            return None;
        }
        Some(Pattern { system: system.map(<[u8]>::to_vec), code: (!code.is_empty()).then(|| code.to_vec()) })
    }

    /// Whether the token is one that the filter asks for.
    pub fn matches(&self, token: Token) -> bool {
        let asks = |part: &Option<Vec<u8>>, held| part.as_ref().is_none_or(|part| text::same(part, held));
        asks(&self.system, token.system) && asks(&self.code, token.code)
    }
}

/// The system that a filter's system stands for.
fn namespace(system: &[u8]) -> &[u8] {
    let short = NAMESPACES.iter().find(|(short, _)| text::same(short, system));
    short.map_or(system, |(_, full)| full)
}

#[cfg(test)]
mod tests {
    use super::*;

    #[test]
    fn readable() {
        for (text, on_card, in_filter) in [
            ("", false, false),
            ("|", false, false),
            ("a", true, true),
            ("|a", true, true),
            ("s|a", true, true),
            ("s|", false, true),
            ("||", true, true),
            ("s||", true, true),
        ] {
            assert_eq!(Token::read(text.as_bytes()).is_some(), on_card, "{text}");
            assert_eq!(Pattern::read(text.as_bytes()).is_some(), in_filter, "{text}");
        }
    }

    #[test]
    fn four_forms() {
        for (filter, card, matches) in [
            ("1234-5", "http://loinc.org|1234-5", true),
            ("1234-5", "1234-5", true),
            ("1234-5", "|1234-5", true),
            ("LOINC|1234-5", "HTTP://LOINC.ORG|1234-5", true),
            ("loinc|1234-5", "loinc|1234-5", false),
            ("loinc|1234-5", "http://snomed.info/sct|1234-5", false),
            ("http://loinc.org|1234-5", "http://loinc.org|1234-5", true),
            ("http://loinc.org|1234-5", "http://loinc.org|1234-6", false),
            ("|1234-5", "1234-5", true),
            ("|1234-5", "|1234-5", true),
            ("|1234-5", "http://loinc.org|1234-5", false),
            ("Loinc|", "http://loinc.org|x", true),
            ("loinc|", "loinc|x", false),
            ("ucum|", "http://unitsofmeasure.org|mg", true),
            ("snomed|", "http://snomed.info/sct|1", true),
            ("rxnorm|", "http://www.nlm.nih.gov/research/umls/rxnorm|1", true),
            ("loinc", "http://loinc.org|x", false),
            ("loinc", "s|LOINC", true),
            ("s|a|b", "s|a|b", true),
            ("s|a|b", "s|a", false),
            ("||", "||", true),
            ("a", "A", true),
        ] {
            let pattern = Pattern::read(filter.as_bytes()).unwrap();
            let token = Token::read(card.as_bytes()).unwrap();
            assert_eq!(pattern.matches(token), matches, "{filter} on {card}");
        }
    }
}
