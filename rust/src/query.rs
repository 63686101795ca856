//! A query as it arrives in an address: filters behind `_filter`, and the pairs of a search string beside them, all to be met.

use crate::block::SIZE;
use crate::percent;
use crate::sheet::Sheet;
use crate::{Refusal, Words, plain, record, underline};
use std::error::Error;
use std::fmt;
use std::ops::Range;

/// The parameter of FHIR that carries a filter.
pub const FILTER: &str = "_filter";

/// The parameters about the answer that are understood, each by one value: only the count is asked for; the count is exact, as it
/// always is; the answer is JSON.
const UNDERSTOOD: [(&str, &str); 3] = [COUNT, ("_total", "accurate"), JSON];
const COUNT: (&str, &str) = ("_summary", "count");
const JSON: (&str, &str) = ("_format", "json");

/// The value by which a parameter about the answer is understood, if it is one of those.
#[must_use]
pub fn understood(name: &[u8]) -> Option<&'static str> {
    UNDERSTOOD.into_iter().find(|(understood, _)| understood.as_bytes() == name).map(|(_, value)| value)
}

/// A part of a query: a filter, or all pairs that are none, as a search string.
#[derive(Clone, Debug, PartialEq, Eq)]
pub struct Part {
    pub words: Words,
    /// What it asks: the filter as `_filter` carries it, decoded; or the pairs as they are written, joined by `&`.
    pub text: Vec<u8>,
    /// Where the filter, or each of the pairs, begins in the query.
    starts: Vec<usize>,
    /// Which of the query's filters it is, counted from 1; none where there is no other, and for the pairs.
    number: Option<usize>,
}

impl Part {
    fn new(words: Words, text: &[u8], start: usize) -> Part {
        Part { words, text: text.into(), starts: vec![start], number: None }
    }

    /// What it is called: `_filter`, `_filter 2`, `the pairs`.
    #[must_use]
    pub fn name(&self) -> String {
        match (self.words, self.number) {
            (Words::Search, _) => "the pairs".into(),
            (Words::Filter, None) => FILTER.into(),
            (Words::Filter, Some(number)) => format!("{FILTER} {number}"),
        }
    }

    /// The pair that a byte of the pairs' text stands in: its number, and where it stands in that text.
    fn pair_at(&self, place: usize) -> (usize, Range<usize>) {
        let place = place.min(self.text.len());
        let before = &self.text[..place];
        let number = before.split(|&byte| byte == b'&').count() - 1;
        let start = before.iter().rposition(|&byte| byte == b'&').map_or(0, |at| at + 1);
        let length = self.text[start..].iter().position(|&byte| byte == b'&').unwrap_or(self.text.len() - start);
        (number, start..start + length)
    }

    /// Where in the query a refusal of the part stands. One of all pairs together, for their size or number, stands with the first.
    fn place_of(&self, refusal: Refusal) -> usize {
        match self.words {
            Words::Filter => self.starts[0],
            Words::Search => self.starts[self.pair_at(refusal.place).0],
        }
    }

    /// The parameter of the query that a refusal of the part is about: `_filter`, or the name of a pair as it stands for.
    #[must_use]
    pub fn parameter(&self, refusal: Refusal) -> Option<Vec<u8>> {
        if self.words == Words::Filter {
            return Some(FILTER.into());
        }
        let pair = &self.text[self.pair_at(refusal.place).1];
        let name = &pair[..pair.iter().position(|&byte| byte == b'=')?];
        percent::bytes(name)
    }
}

/// A query on a sheet, taken apart. Nothing that it asks is left out: what is neither a filter nor understood otherwise stands among the
/// pairs, and the library refuses what it does not know there.
///
/// ```
/// use sirophan::block::{Item, write_card};
/// use sirophan::sheet::{Parameter, Sheet};
/// use sirophan::{Query, kind};
///
/// let sheet = Sheet::write(vec![Parameter::new(kind::STRING, "title"), Parameter::new(kind::TOKEN, "ward")]).unwrap();
/// let card = |record, ward| write_card(record, &[Item::new(0, "Ward book"), Item::new(1, ward)]).unwrap();
/// let cards = [card(7, "A"), card(19, "B")].concat();
///
/// let query = Query::read(&sheet.block, b"_filter=title%20co%20book&ward=A");
/// assert_eq!(query.select(&cards), Ok(vec![7]));
///
/// let refused = Query::read(&sheet.block, b"ward=A&_filter=ward+gt+5&_count=10").check().unwrap_err();
/// assert_eq!(
///     refused.to_string(),
///     "_filter: refused 16 at 0: The operator has no meaning for a parameter of this kind."
/// );
/// ```
#[derive(Clone, Debug)]
pub struct Query {
    sheet: Vec<u8>,
    parts: Vec<Part>,
    /// What is understood about the answer.
    about: Vec<(&'static str, &'static str)>,
}

impl Query {
    /// Takes a query apart. A name that is on the sheet is the sheet's, whatever else it may mean.
    #[must_use]
    pub fn read(sheet: &[u8], text: &[u8]) -> Query {
        let parameters = Sheet::read(sheet.into()).parameters;
        let mut query = Query { sheet: sheet.into(), parts: Vec::new(), about: Vec::new() };
        let mut start = 0;
        for part in text.split(|&byte| byte == b'&') {
            let is_on_sheet = |name: &[u8]| parameters.iter().any(|parameter| parameter.name == name);
            match named(part).filter(|(name, _)| !is_on_sheet(name)) {
                Some((name, value)) => query.add_named(start, part, &name, &value),
                None => query.add_pair(start, part),
            }
            start += part.len() + 1;
        }
        query.number_filters();
        query
    }

    /// Adds a part whose name is not the sheet's.
    fn add_named(&mut self, start: usize, part: &[u8], name: &[u8], value: &[u8]) {
        let is = |(known, by): &&(&str, &str)| known.as_bytes() == name && by.as_bytes() == value;
        if name == FILTER.as_bytes() {
            self.parts.push(Part::new(Words::Filter, value, start));
        } else if let Some(understood) = UNDERSTOOD.iter().find(is) {
            self.about.push(*understood);
        } else {
            self.add_pair(start, part);
        }
    }

    /// Adds a pair to those before it.
    fn add_pair(&mut self, start: usize, pair: &[u8]) {
        match self.parts.iter_mut().find(|part| part.words == Words::Search) {
            Some(pairs) => {
                pairs.text.push(b'&');
                pairs.text.extend(pair);
                pairs.starts.push(start);
            }
            None => self.parts.push(Part::new(Words::Search, pair, start)),
        }
    }

    /// Numbers the filters where there are several. Where nothing is asked, that is asked: the library refuses an empty search string.
    fn number_filters(&mut self) {
        if self.parts.is_empty() {
            self.add_pair(0, b"");
        }
        let filters = self.parts.iter_mut().filter(|part| part.words == Words::Filter);
        let filters: Vec<&mut Part> = filters.collect();
        if filters.len() > 1 {
            filters.into_iter().zip(1..).for_each(|(part, number)| part.number = Some(number));
        }
    }

    /// The filters and the pairs, in the order of the query; the pairs stand where the first of them does.
    #[must_use]
    pub fn parts(&self) -> &[Part] {
        &self.parts
    }

    /// Whether only the count of the matching cards is asked for.
    #[must_use]
    pub fn is_for_count(&self) -> bool {
        self.about.contains(&COUNT)
    }

    /// Whether the answer is asked for as JSON.
    #[must_use]
    pub fn is_for_json(&self) -> bool {
        self.about.contains(&JSON)
    }

    /// How many tests and alternatives the query has, over all parts. If it passes, each has a meaning on every card that fits the sheet.
    ///
    /// # Errors
    ///
    /// The refusal of the part whose fault stands first in the query.
    pub fn check(&self) -> Result<usize, QueryRefusal> {
        let mut count = 0;
        let mut first: Option<(usize, QueryRefusal)> = None;
        for part in &self.parts {
            match part.words.check(&self.sheet, &part.text) {
                Ok(asked) => count += asked,
                Err(refusal) => {
                    let place = part.place_of(refusal);
                    if first.as_ref().is_none_or(|(before, _)| place < *before) {
                        first = Some((place, QueryRefusal::of_part(part, refusal)));
                    }
                }
            }
        }
        first.map_or(Ok(count), |(_, refused)| Err(refused))
    }

    /// Answers whether the card matches all parts.
    ///
    /// # Errors
    ///
    /// What [`Query::check`] refuses, and a card that is not sound or does not fit the sheet (20 to 23).
    pub fn matches(&self, card: &[u8]) -> Result<bool, QueryRefusal> {
        self.check()?;
        let says = |part: &Part| part.words.matches(&self.sheet, &part.text, card);
        self.parts.iter().map(says).try_fold(true, |all, says| Ok(says? && all))
    }

    /// The record numbers of the cards of a run of 0 to 128 that match all parts, in card order.
    ///
    /// # Errors
    ///
    /// What [`Query::check`] refuses, the first card at fault (21 to 23), and what is no run (20).
    pub fn select(&self, cards: &[u8]) -> Result<Vec<u32>, QueryRefusal> {
        self.check()?;
        let found = self.indexes(cards)?.into_iter();
        Ok(found.map(|index| record(&cards[index * SIZE..][..SIZE])).collect::<Result<_, _>>()?)
    }

    /// The indexes of those cards. Whether cards are at fault does not depend on what is asked, so that each part is asked only of the cards
    /// that match those before it.
    pub(crate) fn indexes(&self, run: &[u8]) -> Result<Vec<usize>, Refusal> {
        let Some((first, rest)) = self.parts.split_first() else { return Ok(Vec::new()) };
        let mut found = first.words.indexes(&self.sheet, &first.text, run)?;
        for part in rest {
            if found.is_empty() {
                break;
            }
            let left: Vec<u8> = found.iter().flat_map(|index| &run[index * SIZE..][..SIZE]).copied().collect();
            let kept = part.words.indexes(&self.sheet, &part.text, &left)?;
            found = kept.into_iter().map(|index| found[index]).collect();
        }
        Ok(found)
    }

    /// The query in its plain spelling: filters in theirs, then the pairs, then what is understood about the answer, each encoded alike. It
    /// asks the same, unless the encoding makes the pairs longer than a search string may be.
    #[must_use]
    pub fn plain(&self) -> String {
        let filters = self.parts.iter().filter(|part| part.words == Words::Filter).map(|part| {
            let spelled = plain(&part.text).unwrap_or_else(|_| part.text.clone());
            format!("{FILTER}={}", percent::encoded(&spelled))
        });
        let pairs = self.parts.iter().filter(|part| part.words == Words::Search);
        let pairs = pairs.flat_map(|part| part.text.split(|&byte| byte == b'&')).map(|pair| match named(pair) {
            Some((name, value)) => format!("{}={}", percent::encoded(&name), percent::encoded(&value)),
            None => percent::encoded(pair),
        });
        let about = UNDERSTOOD.iter().filter(|about| self.about.contains(about));
        let about = about.map(|(name, value)| format!("{name}={value}"));
        filters.chain(pairs).chain(about).collect::<Vec<String>>().join("&")
    }
}

/// What the name and the value of a pair stand for; none of what is no pair.
fn named(pair: &[u8]) -> Option<(Vec<u8>, Vec<u8>)> {
    let cut = pair.iter().position(|&byte| byte == b'=')?;
    Some((percent::bytes(&pair[..cut])?, percent::bytes(&pair[cut + 1..])?))
}

/// A refusal of a query: one of a part's text, whose place counts there, or else of the sheet or a card.
#[derive(Clone, Debug, PartialEq, Eq)]
pub struct QueryRefusal {
    pub refusal: Refusal,
    pub part: Option<Part>,
}

impl QueryRefusal {
    fn of_part(part: &Part, refusal: Refusal) -> QueryRefusal {
        let is_of_sheet = refusal.number < 10;
        QueryRefusal { refusal, part: (!is_of_sheet).then(|| part.clone()) }
    }

    /// The refusal as a person would want to see it, with the part's text and a caret under the place.
    #[must_use]
    pub fn render(&self) -> String {
        match (&self.part, self.refusal.number) {
            (Some(part), 11..=18 | 50) => {
                format!("{}\n{self}", underline(&part.text, self.refusal.place..self.refusal.place + 1))
            }
            _ => self.to_string(),
        }
    }
}

/// One of a card, or of the sheet.
impl From<Refusal> for QueryRefusal {
    fn from(refusal: Refusal) -> QueryRefusal {
        QueryRefusal { refusal, part: None }
    }
}

/// `_filter: refused 16 at 0: ` and the sentence.
impl fmt::Display for QueryRefusal {
    fn fmt(&self, f: &mut fmt::Formatter) -> fmt::Result {
        match &self.part {
            Some(part) => write!(f, "{}: {}", part.name(), self.refusal),
            None => self.refusal.fmt(f),
        }
    }
}

impl Error for QueryRefusal {}

#[cfg(test)]
mod tests {
    use super::*;
    use crate::block::{Item, write_card};
    use crate::kind;
    use crate::sheet::Parameter;

    /// A sheet whose last name is one of FHIR's own.
    fn sheet(last: &str) -> Vec<u8> {
        let parameters = [(kind::STRING, "title"), (kind::TOKEN, "ward"), (kind::NUMBER, "pages"), (kind::TOKEN, last)];
        Sheet::write(parameters.map(|(kind, name)| Parameter::new(kind, name)).into()).unwrap().block
    }

    fn cards() -> Vec<u8> {
        let card = |record: u32| {
            let (ward, pages) = (["A", "B", "C"][record as usize % 3], (record / 3).to_string());
            write_card(record / 2, &[Item::new(0, "Ward book"), Item::new(1, ward), Item::new(2, &pages)]).unwrap()
        };
        (0..120).flat_map(card).collect()
    }

    fn refused(query: &str) -> (String, u32, usize) {
        let refused = Query::read(&sheet("last"), query.as_bytes()).check().expect_err(query);
        (refused.part.map_or_else(String::new, |part| part.name()), refused.refusal.number, refused.refusal.place)
    }

    /// All parts are to be met, and cards with the same record number are told apart.
    #[test]
    fn all_are_met() {
        let select = |text: &str| Query::read(&sheet("last"), text.as_bytes()).select(&cards()).unwrap();
        let expected = |keep: fn(u32) -> bool| (0..120).filter(|n| keep(*n)).map(|n| n / 2).collect::<Vec<u32>>();
        assert_eq!(select("ward=A"), expected(|n| n % 3 == 0));
        assert_eq!(select("_filter=pages+gt+30&ward=A"), expected(|n| n % 3 == 0 && n / 3 > 30));
        assert_eq!(select("ward=A,B&_filter=pages%20gt%2030&pages=lt35"), {
            expected(|n| n % 3 < 2 && n / 3 > 30 && n / 3 < 35)
        });
        assert_eq!(select("%5Ffilter=pages+gt+30&_filter=pages+lt+32&_summary=count"), expected(|n| n / 3 == 31));
    }

    /// What is asked about the answer is understood by one value, and is else a pair that no sheet knows.
    #[test]
    fn about_the_answer() {
        let query = Query::read(&sheet("last"), b"_format=json&ward=A&_summary=count&_total=accurate");
        assert_eq!((query.is_for_count(), query.is_for_json(), query.check()), (true, true, Ok(1)));
        let query = Query::read(&sheet("last"), b"ward=A");
        assert_eq!((query.is_for_count(), query.is_for_json()), (false, false));
        for other in
            ["_count=10", "_summary=text", "_total=none", "_format=xml", "_sort=ward", "ward2=x", "_filter:x=y"]
        {
            assert_eq!(refused(other), ("the pairs".into(), 14, 0));
            assert_eq!(refused(&format!("ward=A&{other}")), ("the pairs".into(), 14, 7));
        }
        for nothing in ["", "_summary=count"] {
            assert_eq!(refused(nothing), ("the pairs".into(), 10, 0), "{nothing}");
        }
    }

    /// The first fault in the query decides, and its place counts in its own part.
    #[test]
    fn the_first_fault() {
        assert_eq!(refused("_filter=ward+gt+5&_count=1"), ("_filter".into(), 16, 0));
        assert_eq!(refused("_count=1&_filter=ward+gt+5"), ("the pairs".into(), 14, 0));
        assert_eq!(refused("ward=A&_filter=ward+gt+5&_count=1"), ("_filter".into(), 16, 0));
        assert_eq!(refused("ward=A&_filter=ward+eq+5&_count=1"), ("the pairs".into(), 14, 7));
        assert_eq!(refused("_filter=ward+eq+5&_filter=ward+eq+5+and+ward+gt+5"), ("_filter 2".into(), 16, 14));
        assert_eq!(refused("_filter="), ("_filter".into(), 10, 0));
        assert_eq!(refused("_filter=%zz&_filter=x"), ("the pairs".into(), 50, 0));
        assert_eq!(refused("_filter=ward+eq+5&"), ("the pairs".into(), 10, 0));
        assert_eq!(refused("ward=A&"), ("the pairs".into(), 50, 7));
        assert_eq!(Query::read(b"", b"_filter=x").check(), Err(Refusal { number: 1, place: 0 }.into()));
    }

    /// A name on the sheet is the sheet's.
    #[test]
    fn names_of_the_sheet() {
        for (name, value) in [("_filter", "x"), ("_summary", "count"), ("_total", "accurate"), ("_format", "json")] {
            let query = Query::read(&sheet(name), format!("{name}={value}").as_bytes());
            assert_eq!(query.parts()[0].words, Words::Search);
            assert_eq!((query.check(), query.is_for_count(), query.is_for_json()), (Ok(1), false, false));
        }
    }

    /// The plain spelling asks the same, and is its own plain spelling.
    #[test]
    fn plain_spelling() {
        let query = Query::read(&sheet("last"), b"_summary=count&ward=%41,b%5C%2Cc&_filter=+(pages+gt+%221%22)");
        assert_eq!(query.plain(), "_filter=pages%20gt%201&ward=A,b%5C,c&_summary=count");
        assert_eq!(Query::read(&sheet("last"), query.plain().as_bytes()).plain(), query.plain());
    }
}
