//! The kinds of parameters. Which texts can be read as a kind, and which operators a kind has, is asked of the proved
//! library, with a sheet that has one parameter: so there are no rules here beside its own.

use crate::block::{self, Item};
use crate::{Prepared, Refusal};

/// The numbers of the kinds on a sheet.
pub const STRING: u8 = 1;
pub const NUMBER: u8 = 2;
pub const DATE: u8 = 3;
pub const TOKEN: u8 = 4;
pub const REFERENCE: u8 = 5;
pub const PERIOD: u8 = 6;
pub const BUNDLE: u8 = 7;

/// A kind as people speak of it.
pub struct Kind {
    /// Its number on a sheet.
    pub number: u8,
    /// Its word in descriptions.
    pub word: &'static str,
    /// The word with its article.
    pub one: &'static str,
    /// Several values of it.
    pub many: &'static str,
    /// How a text of it is written.
    pub written: &'static str,
}

/// The kinds, by their numbers. A further kind is another row.
pub const KINDS: [Kind; 7] = [
    Kind { number: STRING, word: "string", one: "a string", many: "strings", written: "any text" },
    Kind {
        number: NUMBER,
        word: "number",
        one: "a number",
        many: "numbers",
        written: "1 to 8 digits, then perhaps a point and 1 to 9 digits",
    },
    Kind {
        number: DATE,
        word: "date",
        one: "a date",
        many: "dates",
        written: "YYYY, YYYY-MM, YYYY-MM-DD, or YYYY-MM-DDThh:mm:ss with Z or a zone such as +02:00",
    },
    Kind { number: TOKEN, word: "token", one: "a token", many: "tokens", written: "a code, or system|code" },
    Kind {
        number: REFERENCE,
        word: "reference",
        one: "a reference",
        many: "references",
        written: "any text but an empty one",
    },
    Kind {
        number: PERIOD,
        word: "period",
        one: "a period",
        many: "periods",
        written: "two dates with a slash between, of which one may be missing, such as 1974-06/1975, 1974/ or /1975; it ends \
                  after it starts",
    },
    Kind {
        number: BUNDLE,
        word: "bundle",
        one: "a bundle",
        many: "bundles",
        written: "no text: its members have them",
    },
];

/// The operators of the R4 page.
const OPERATORS: [&str; 19] =
    ["eq", "ne", "co", "sw", "ew", "gt", "lt", "ge", "le", "ap", "sa", "eb", "pr", "po", "ss", "sb", "in", "ni", "re"];

/// The words that join and turn tests.
const JOINS: [&str; 3] = ["and", "or", "not"];

/// Whether a word has a meaning of its own in filters.
#[must_use]
pub fn is_word_of_grammar(word: &str) -> bool {
    OPERATORS.contains(&word) || JOINS.contains(&word)
}

/// The kind with this number.
#[must_use]
pub fn by_number(number: u8) -> Option<&'static Kind> {
    KINDS.iter().find(|kind| kind.number == number)
}

/// The kind with this word.
#[must_use]
pub fn by_word(word: &str) -> Option<&'static Kind> {
    KINDS.iter().find(|kind| kind.word == word)
}

/// The kind whose texts are the values that a filter asks a kind by: a period is asked by a date, any other by itself.
#[must_use]
pub fn asked_by(kind: &'static Kind) -> &'static Kind {
    let by = if kind.number == PERIOD { by_word("date") } else { None };
    by.unwrap_or(kind)
}

/// What a card's text says, where the signs in it do not say it plainly: the ends of a period.
#[must_use]
pub fn in_words(kind: u8, text: &[u8]) -> Option<String> {
    if kind != PERIOD || !Reader::new(PERIOD).reads(text) {
        return None;
    }
    let (first, second) = str::from_utf8(text).ok()?.split_once('/')?;
    Some(match (first, second) {
        (first, "") => format!("from {first} on, end open"),
        ("", second) => format!("to the end of {second}, start open"),
        _ => format!("from {first} to the end of {second}"),
    })
}

/// The words of all kinds.
#[must_use]
pub fn words() -> Vec<&'static str> {
    KINDS.iter().map(|kind| kind.word).collect()
}

/// The word of a kind's number, or the number where no kind has it.
#[must_use]
pub fn word_of(number: u8) -> String {
    by_number(number).map_or_else(|| format!("kind {number}?"), |kind| kind.word.into())
}

/// A filter for the one-parameter sheets below.
const ASKED: &[u8] = b"x pr true";

/// A sheet with one parameter of the kind with this number.
fn sheet_of(kind: u8) -> Vec<u8> {
    let parameter = Item { byte: kind, mark: 0, text: b"x" };
    block::write_sheet(&[parameter], kind == BUNDLE).expect("one short name has room")
}

/// Asks the library whether texts can be read as a kind.
pub struct Reader {
    sheet: Vec<u8>,
    /// The filter on the sheet, read once for many texts; none for bundles, which have no texts.
    prepared: Option<Prepared>,
}

impl Reader {
    /// A reader of texts of the kind with this number.
    #[must_use]
    pub fn new(kind: u8) -> Reader {
        let sheet = sheet_of(kind);
        let prepared = crate::prepare(&sheet, ASKED).ok();
        Reader { sheet, prepared }
    }

    /// Whether a text can be read as the kind: whether a card fits that has this text alone.
    #[must_use]
    pub fn reads(&self, text: &[u8]) -> bool {
        let card = block::write_card(0, &[Item { byte: 0, mark: 0, text }]);
        let fits = |prepared: &Prepared| card.is_some_and(|card| prepared.matches(&card).is_ok());
        self.prepared.as_ref().is_some_and(fits)
    }

    /// Whether the kind has an operator: whether it is not for the operator that the library refuses a test with it.
    fn has(&self, operator: &str) -> bool {
        let refusal = crate::check(&self.sheet, format!("x {operator} 1").as_bytes()).err();
        !matches!(refusal.map(|refusal| refusal.number), Some(14..=16 | 18))
    }

    /// The operators that the kind has.
    #[must_use]
    pub fn operators(&self) -> Vec<&'static str> {
        OPERATORS.into_iter().filter(|operator| self.has(operator)).collect()
    }
}

/// The plural words of the kinds that have an operator.
#[must_use]
pub fn kinds_with(operator: &str) -> Vec<&'static str> {
    KINDS.iter().filter(|kind| Reader::new(kind.number).has(operator)).map(|kind| kind.many).collect()
}

/// Whether a card by itself is sound. A card that is sound may not fit its sheet.
///
/// # Errors
///
/// A card that is not sound, with 20 to 22.
pub fn sound_card(card: &[u8]) -> Result<(), Refusal> {
    match crate::matches(&sheet_of(1), ASKED, card) {
        Err(refusal) if refusal.number != 23 => Err(refusal),
        _ => Ok(()),
    }
}

/// Whether the library takes a name for one that a sheet may have.
#[must_use]
pub fn is_name(name: &[u8]) -> bool {
    let sheet = block::write_sheet(&[Item { byte: 1, mark: 0, text: name }], false);
    sheet.is_some_and(|sheet| !matches!(crate::check(&sheet, ASKED), Err(refusal) if refusal.number == 3))
}

#[cfg(test)]
mod tests {
    use super::*;

    /// The library is asked rightly: some texts of each kind, readable and not.
    #[test]
    fn texts_by_kind() {
        let reads = |word, text: &str| Reader::new(by_word(word).unwrap().number).reads(text.as_bytes());
        for (word, text) in [
            ("string", ""),
            ("number", "12.0"),
            ("date", "1974-06"),
            ("token", "|x"),
            ("reference", "x"),
            ("period", "1974/"),
        ] {
            assert!(reads(word, text), "{word} {text}");
        }
        for (word, text) in
            [("number", "-1"), ("date", "1974-13"), ("token", "|"), ("reference", ""), ("period", "/"), ("bundle", "x")]
        {
            assert!(!reads(word, text), "{word} {text}");
        }
    }

    /// The operators of each kind are those of the table in docs/RULES.md.
    #[test]
    fn operators_by_kind() {
        let operators = |word| Reader::new(by_word(word).unwrap().number).operators().join(" ");
        assert_eq!(operators("string"), "eq ne co sw ew pr");
        assert_eq!(operators("number"), "eq ne co gt lt ge le pr");
        assert_eq!(operators("date"), "eq ne co gt lt ge le sa eb pr po");
        assert_eq!(operators("token"), "eq ne pr");
        assert_eq!(operators("reference"), "pr re");
        assert_eq!(operators("period"), operators("date"));
        assert_eq!(operators("bundle"), "");
        assert_eq!(kinds_with("gt"), ["numbers", "dates", "periods"]);
        assert!(kinds_with("ap").is_empty());
    }

    /// Periods in words, and what is none.
    #[test]
    fn periods_in_words() {
        let words = |text: &str| in_words(PERIOD, text.as_bytes());
        assert_eq!(words("1974-06/1975").as_deref(), Some("from 1974-06 to the end of 1975"));
        assert_eq!(words("1974/").as_deref(), Some("from 1974 on, end open"));
        assert_eq!(words("/1974").as_deref(), Some("to the end of 1974, start open"));
        assert_eq!(words("1975/1974"), None);
        assert_eq!(in_words(1, b"1974/"), None);
    }

    /// Names by the library's rule.
    #[test]
    fn names() {
        for name in ["_", "And", "nota", "a-1", &"a".repeat(30)] {
            assert!(is_name(name.as_bytes()), "{name}");
        }
        for name in ["and", "or", "not", "4", "-a", "a.b", &"a".repeat(31), "", "a\n", "ä"] {
            assert!(!is_name(name.as_bytes()), "{name}");
        }
    }
}
