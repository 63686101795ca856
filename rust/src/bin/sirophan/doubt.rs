//! Doubts about a filter or a search string that the library answers: what it asks may not be what was meant.

use crate::advice::{Question, Words};
use crate::asked::{Asked, PREFIXES};
use crate::filter::{Filter, Test};
use crate::kind;
use crate::looks;
use crate::report::Message;
use crate::search::{self, Pair};
use crate::sheet::Sheet;
use crate::tally::Field;
use crate::text::{self, printable, row, spell};

/// Quotes that a value may carry at both ends by mistake.
const QUOTES: [(&str, &str); 5] =
    [("'", "'"), ("`", "'"), ("\u{2018}", "\u{2019}"), ("\u{201C}", "\u{201D}"), ("\u{201E}", "\u{201C}")];

/// The doubts that a filter or a search string alone gives, each as a warning.
pub fn of_text(question: &Question) -> Vec<Message> {
    let text = &question.text;
    match question.words {
        Words::Filter => Filter::read(text).map_or_else(Vec::new, |filter| of_filter(text, &filter)),
        Words::Search => search::read(text).map_or_else(Vec::new, |pairs| of_search(text, &pairs)),
    }
}

fn of_filter(text: &[u8], filter: &Filter) -> Vec<Message> {
    let joins = filter.bracketed.as_deref().map(|read| {
        Message::warning(
            "`and` and `or` are read from left to right, with equal rank. The filter asks:",
            printable(read),
        )
        .code("joins")
    });
    let quotes = filter.tests.iter().filter_map(|test| quoted_twice(text, test));
    joins.into_iter().chain(quotes).chain(encoding("filter", text)).collect()
}

fn of_search(text: &[u8], pairs: &[Pair]) -> Vec<Message> {
    let line_end = text.iter().any(|byte| b"\r\n".contains(byte)).then(|| {
        Message::warning(
            "the search string has a line end in it, and asks for it too.",
            "Save it with one line feed at its end, or without a line end.",
        )
        .code("line_end")
    });
    let values = || pairs.iter().flat_map(|pair| pair.alternatives.iter().map(move |value| (&pair.name, &value.text)));
    let quotes = values().filter_map(|(name, value)| {
        let shown = String::from_utf8_lossy(value);
        let quoted =
            inside_quotes(&shown).is_some() || (shown.len() > 1 && shown.starts_with('"') && shown.ends_with('"'));
        quoted.then(|| asks_for_quotes(name, value, "A search string has no quotes: leave them out.".into()))
    });
    let encoding = values().find_map(|(_, value)| encoding("search string", value));
    line_end.into_iter().chain(quotes).chain(encoding).collect()
}

/// A text in another encoding.
fn encoding(what: &str, text: &[u8]) -> Option<Message> {
    let why = text::other_encoding(text)?;
    let warning = Message::warning(
        format!("the {what} seems to be in another encoding: {why}."),
        "Letters beyond ASCII have other bytes there: on cards in UTF-8 it does not find them.",
    );
    Some(warning.code("encoding"))
}

/// A value of a test that asks for quotes.
fn quoted_twice(text: &[u8], test: &Test) -> Option<Message> {
    let value = test.decoded(text);
    let shown = String::from_utf8_lossy(&value);
    let bare_word = !text[test.value.clone()].starts_with(b"\"");
    let help = match inside_quotes(&shown) {
        Some(inside) => format!("Write \"{}\" to ask without them.", printable(inside.as_bytes())),
        None if bare_word && value.contains(&b'"') => "A text in double quotes begins and ends with one.".into(),
        None => return None,
    };
    Some(asks_for_quotes(&text[test.name.clone()], &value, help))
}

/// What a value has between quotes that it carries at both ends.
fn inside_quotes(value: &str) -> Option<&str> {
    QUOTES.iter().find_map(|(open, close)| value.strip_prefix(open)?.strip_suffix(close))
}

fn asks_for_quotes(name: &[u8], value: &[u8], help: String) -> Message {
    let name = printable(name);
    Message::warning(format!("the value {} of {name} asks for its quotes too.", spell(value)), help)
        .about("quotes", &name)
}

/// Ends of names that speak of a date, and names that only end like it.
const DATE_ENDS: [&str; 5] = ["date", "birth", "death", "lastupdated", "authoredon"];
const NO_DATES: [&str; 3] = ["candidate", "mandate", "update"];

/// The doubts that the names of fields give: a name that speaks of a date, on a field of another kind.
pub fn of_names(sheet: &Sheet, places: impl IntoIterator<Item = usize>) -> Vec<Message> {
    let doubts = places.into_iter().filter_map(|place| {
        let kind = kind::by_number(sheet.parameters[place].kind);
        let kind = kind.filter(|kind| !["date", "period"].contains(&kind.word))?;
        speaks_of_date(&sheet.name(place)).then(|| {
            let path = sheet.path(place, 0);
            let text = format!("{path} is {}, and its name speaks of a date.", kind.one);
            Message::warning(text, SEE_FIELDS).about("name", &path)
        })
    });
    doubts.collect()
}

/// Where a reader sees what a field holds.
const SEE_FIELDS: &str = "`sirophan fields` shows what it holds.";

/// Whether a name ends with a word for a date.
fn speaks_of_date(name: &str) -> bool {
    let name = name.to_lowercase();
    let ends_with = |ends: &[&str]| ends.iter().any(|end| name.ends_with(end));
    ends_with(&DATE_ENDS) && !ends_with(&NO_DATES)
}

/// The places of the parameters that are asked, each once.
pub fn places(asked: &[Asked]) -> Vec<usize> {
    let mut places: Vec<usize> = asked.iter().map(|asked| asked.place).collect();
    places.sort_unstable();
    places.dedup();
    places
}

/// A value that looks like another kind's than its field has, and what it looks like.
pub struct Doubtful<'a> {
    asked: &'a Asked,
    one: &'static str,
    /// Whether it has a prefix, which its field's kind does not take.
    prefix: Option<&'static str>,
    /// Whether it is a bare year, which may be a code as well.
    is_year: bool,
}

/// The values that are asked and look like another kind's.
pub fn doubtful<'a>(sheet: &Sheet, asked: &'a [Asked]) -> Vec<Doubtful<'a>> {
    asked.iter().filter_map(|asked| doubtful_value(sheet, asked)).collect()
}

/// Dates and periods are told by their look, and behind a prefix numbers too. A year may be a part of a text.
fn doubtful_value<'a>(sheet: &Sheet, asked: &'a Asked) -> Option<Doubtful<'a>> {
    let own = kind::by_number(sheet.parameters[asked.place].kind)?.word;
    if !["string", "token", "reference"].contains(&own) || asked.operator == "pr" {
        return None;
    }
    let seen = looks::look(&asked.value);
    let looks = [("a date", seen.date), ("a period", seen.period)];
    if let Some((one, _)) = looks.into_iter().find(|(_, spelling)| spelling.is_some()) {
        let is_part = own == "string" && !["eq", "ne"].contains(&asked.operator.as_str());
        return (!(seen.year && is_part)).then_some(Doubtful { asked, one, prefix: None, is_year: seen.year });
    }
    let prefix = PREFIXES.into_iter().chain(["ap"]).find(|prefix| asked.value.starts_with(prefix.as_bytes()));
    let prefix = prefix.filter(|_| asked.words == Words::Search)?;
    let behind = looks::look(&asked.value[prefix.len()..]);
    let looks = [("a date", behind.date), ("a number", behind.number)];
    let (one, _) = looks.into_iter().find(|(_, spelling)| spelling.is_some())?;
    Some(Doubtful { asked, one, prefix: Some(prefix), is_year: false })
}

impl Doubtful<'_> {
    /// What is watched for on the cards: a value that a card has is what it seems to be.
    pub fn watched(&self) -> (usize, Vec<u8>) {
        (self.asked.place, self.asked.value.clone())
    }

    /// The doubt, as far as the cards do not take it away: `held` has what they hold under the field, and whether one of
    /// them has the value.
    pub fn told(&self, sheet: &Sheet, held: Option<(&Field, bool)>) -> Option<Message> {
        let Doubtful { asked, one, .. } = self;
        let (path, own) = (sheet.path(asked.place, 0), kind::by_number(sheet.parameters[asked.place].kind)?);
        let (value, asks) = (spell(&asked.value), format!("{path} is {}", own.one));
        if held.is_some_and(|(_, is_there)| is_there) {
            return None;
        }
        if let Some(prefix) = self.prefix {
            let prefixed = row(&kind::kinds_with(if prefix == "ap" { "ge" } else { prefix }), "and");
            let text = format!("the value {value} of {path} is asked as a text: {asks}, which has no prefixes.");
            let help = format!("{prefix} before a value is for {prefixed}. {SEE_FIELDS}");
            return Some(Message::warning(text, help).about("prefix", &path));
        }
        let settled =
            held.is_some_and(|(field, _)| field.looks_like().is_some() || (self.is_year && field.has_codes()));
        let text = format!("the value {value} of {path} looks like {one}, and {asks}: it is asked as a text.");
        (!settled).then(|| Message::warning(text, SEE_FIELDS).about("value", &path))
    }
}

#[cfg(test)]
mod tests {
    use super::*;

    fn doubts(text: &str) -> Vec<String> {
        let filter = Filter::read(text.as_bytes()).unwrap();
        of_filter(text.as_bytes(), &filter).into_iter().map(|message| message.text).collect()
    }

    /// Values that carry quotes, and values that do not.
    #[test]
    fn quotes() {
        for text in ["a co 'Ward'", "a co \"\u{201C}Ward\u{201D}\"", "a co x\"", "a co \"'Ward book'\""] {
            assert_eq!(doubts(text).len(), 1, "{text}");
        }
        for text in ["a co Ward", "a co \"Ward\"", "a co O'Neill", "a co \"6\\\" gun\"", "a co '"] {
            assert!(doubts(text).is_empty(), "{text}");
        }
    }

    /// Names that speak of a date.
    #[test]
    fn names() {
        for name in ["birthdate", "date", "discharge-date", "DeathDate", "_lastUpdated", "date-of-birth"] {
            assert!(speaks_of_date(name), "{name}");
        }
        for name in ["title", "candidate", "update", "code"] {
            assert!(!speaks_of_date(name), "{name}");
        }
    }
}
