//! What a filter or a search string asks of a card, one by one: the tests of a filter, those inside square brackets too,
//! and the alternatives of a search string.

use crate::advice::{Question, Words};
use crate::filter::{Filter, Test};
use crate::kind::Reader;
use crate::search::{self, Pair};
use crate::text::printable;

/// The prefixes of numbers, dates and periods in search strings.
pub const PREFIXES: [&str; 8] = ["eq", "ne", "gt", "lt", "ge", "le", "sa", "eb"];

/// A test or an alternative.
#[derive(Clone, Debug)]
pub struct Asked {
    /// As it is written, for people.
    pub shown: String,
    /// The place of its parameter on the sheet.
    pub place: usize,
    /// The operator; in a search string the one that the prefix or the kind amounts to.
    pub operator: String,
    /// Its value as it is written, and what that stands for.
    pub written: Vec<u8>,
    pub value: Vec<u8>,
    /// The text that asks it alone.
    pub words: Words,
    pub alone: Vec<u8>,
    /// A filter that asks it is these two, with an operator and a value between.
    before: Vec<u8>,
    behind: Vec<u8>,
}

impl Asked {
    /// Whether it stands inside square brackets.
    pub fn is_inside(&self) -> bool {
        !self.behind.is_empty()
    }

    /// Whether it has a condition in square brackets.
    pub fn has_condition(&self) -> bool {
        !self.is_inside() && self.before.contains(&b']')
    }

    /// The same test by another operator, as a filter.
    pub fn by(&self, operator: &str) -> Vec<u8> {
        self.with(operator, &self.value)
    }

    /// The same test with another operator and another value, as a filter.
    pub fn with(&self, operator: &str, value: &[u8]) -> Vec<u8> {
        [&self.before, operator.as_bytes(), b" ", &as_value(value), &self.behind].concat()
    }

    /// A filter as it is told, where the test stands by itself.
    pub fn told(&self, operator: &str, value: &[u8]) -> String {
        let bundle = if self.is_inside() { self.before.iter().position(|&byte| byte == b'[') } else { None };
        let before = &self.before[bundle.map_or(0, |bracket| bracket + 1)..];
        printable(&[before, operator.as_bytes(), b" ", &as_value(value)].concat())
    }
}

/// A value as a filter has it: a bare word where it can be one, else between double quotes.
pub fn as_value(value: &[u8]) -> Vec<u8> {
    let bare = |byte: &u8| (0x21..=0x7E).contains(byte) && !b")]".contains(byte);
    if !value.is_empty() && value[0] != b'"' && value.iter().all(bare) {
        return value.to_vec();
    }
    let escaped = value.iter().flat_map(|&byte| match byte {
        b'"' | b'\\' => vec![b'\\', byte],
        b'\t' => b"\\t".to_vec(),
        b'\n' => b"\\n".to_vec(),
        b'\r' => b"\\r".to_vec(),
        _ => vec![byte],
    });
    [b"\"".to_vec(), escaped.collect(), b"\"".to_vec()].concat()
}

/// All that a question asks, in the order of its text.
pub fn all(question: &Question) -> Vec<Asked> {
    let text = &question.text;
    match question.words {
        Words::Filter => {
            let tests = Filter::read(text).map_or_else(Vec::new, |filter| filter.tests);
            tests.iter().filter_map(|test| of_test(question, test)).collect()
        }
        Words::Search => {
            let pairs = search::read(text).unwrap_or_default();
            pairs.iter().flat_map(|pair| of_pair(question, pair)).collect()
        }
    }
}

/// A test of a filter. One inside square brackets is asked by whether some occurrence meets it.
fn of_test(question: &Question, test: &Test) -> Option<Asked> {
    let (sheet, text) = (&question.sheet, &question.text);
    let whole = &text[test.whole.clone()];
    let head = &text[test.whole.start..test.operator.start];
    let (before, behind) = match &test.inside {
        None => (head.to_vec(), Vec::new()),
        Some(bundle) => {
            let behind = [b"].", &text[test.name.clone()], b" pr true"].concat();
            ([&text[bundle.clone()], b"[", head].concat(), behind)
        }
    };
    let alone = [&before[..before.len() - head.len()], whole, &behind].concat();
    Some(Asked {
        shown: printable(whole),
        place: test.place(sheet, text)?,
        operator: printable(&text[test.operator.clone()]),
        written: text[test.value.clone()].to_vec(),
        value: test.decoded(text),
        words: Words::Filter,
        alone,
        before,
        behind,
    })
}

/// The alternatives of a pair.
fn of_pair(question: &Question, pair: &Pair) -> Vec<Asked> {
    let Some(place) = question.sheet.find(0, &pair.name) else { return Vec::new() };
    let written = &question.text[pair.whole.clone()];
    let cut = written.iter().position(|&byte| byte == b'=').map_or(0, |cut| cut + 1);
    let kind = question.sheet.parameters[place].kind;
    let alternatives = pair.alternatives.iter().map(|alternative| {
        let alone = [&written[..cut], &alternative.written[..]].concat();
        let (operator, value) = operator_of(kind, &alternative.text);
        let before = [&pair.name[..], b" "].concat();
        Asked {
            shown: printable(&alone),
            place,
            operator,
            written: alternative.written.clone(),
            value,
            words: Words::Search,
            alone,
            before,
            behind: Vec::new(),
        }
    });
    alternatives.collect()
}

/// The operator that an alternative of a kind amounts to, and its value: the prefix, where the kind has prefixes.
pub fn operator_of(kind: u8, alternative: &[u8]) -> (String, Vec<u8>) {
    let operators = Reader::new(kind).operators();
    let otherwise = ["eq", "re"].into_iter().find(|operator| operators.contains(operator)).unwrap_or("eq");
    let otherwise = if operators.contains(&"sw") { "sw" } else { otherwise };
    let prefix = PREFIXES.into_iter().find(|prefix| alternative.starts_with(prefix.as_bytes()));
    match prefix.filter(|_| operators.contains(&"ge")) {
        Some(prefix) => (prefix.into(), alternative[prefix.len()..].to_vec()),
        None => (otherwise.into(), alternative.to_vec()),
    }
}
