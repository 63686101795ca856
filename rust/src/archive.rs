//! A file of cards of any size, asked run by run.

use crate::block::SIZE;
use crate::{Query, QueryRefusal, Refusal, Words, check, check_search, record};
use std::error::Error;
use std::fmt;
use std::io::{self, Read};

/// How many cards the library selects from at a time.
pub const RUN: usize = 128;

/// A sheet, and cards to be read from a file, a slice or whatever else can be read.
///
/// ```
/// use sirophan::block::{Item, write_card};
/// use sirophan::sheet::{Parameter, Sheet};
/// use sirophan::{Archive, kind};
///
/// let sheet = Sheet::write(vec![Parameter::new(kind::DATE, "birthdate")]).unwrap();
/// let card = |record, date: &'static str| write_card(record, &[Item::new(0, date)]).unwrap();
/// let cards = [card(7, "1974-06"), card(19, "1975-01-31"), card(300, "1974")].concat();
///
/// let mut found = Archive::new(&sheet.block, &cards[..]).select(b"birthdate eq 1974").unwrap();
/// let list: Result<Vec<(u64, u32)>, _> = found.by_ref().collect();
/// assert_eq!(list.unwrap(), [(0, 7), (2, 300)]);
/// assert_eq!(found.cards(), 3);
///
/// let refusal = Archive::new(&sheet.block, &cards[..]).select(b"birthdate sw 1974").err().unwrap();
/// assert_eq!(refusal.to_string(), "refused 16 at 0: The operator has no meaning for a parameter of this kind.");
/// ```
#[derive(Debug)]
pub struct Archive<R> {
    sheet: Vec<u8>,
    cards: R,
}

impl<R: Read> Archive<R> {
    /// An archive of a sheet and its cards. Nothing is read yet.
    pub fn new(sheet: &[u8], cards: R) -> Archive<R> {
        Archive { sheet: sheet.into(), cards }
    }

    /// The cards that match a filter.
    ///
    /// # Errors
    ///
    /// What [`check`] refuses, before any card is read.
    pub fn select(self, filter: &[u8]) -> Result<Found<R>, Refusal> {
        check(&self.sheet, filter)?;
        Ok(Found::new(self, Question::Text(Words::Filter, filter.into())))
    }

    /// The cards that match a search string.
    ///
    /// # Errors
    ///
    /// What [`check_search`] refuses, before any card is read.
    pub fn search(self, text: &[u8]) -> Result<Found<R>, Refusal> {
        check_search(&self.sheet, text)?;
        Ok(Found::new(self, Question::Text(Words::Search, text.into())))
    }

    /// The cards that match a query such as `_filter=title%20co%20book&ward=A`.
    ///
    /// # Errors
    ///
    /// What [`Query::check`] refuses, before any card is read.
    pub fn query(self, text: &[u8]) -> Result<Found<R>, QueryRefusal> {
        let query = Query::read(&self.sheet, text);
        query.check()?;
        Ok(Found::new(self, Question::Query(query)))
    }
}

/// The matching cards, in the order of the file: each by its index there, counted from 0, and its record number.
///
/// Only an iteration to the end without an error is an answer: a card that is refused refuses the whole file, and comes as the
/// last item, behind those that were found before its run.
#[derive(Debug)]
pub struct Found<R> {
    archive: Archive<R>,
    question: Question,
    run: Vec<u8>,
    /// How many cards stand before the run.
    before: u64,
    /// The indexes of its cards that match and are still to come.
    matching: std::vec::IntoIter<usize>,
    ended: bool,
}

/// What is asked: one text, or a query of several.
#[derive(Debug)]
enum Question {
    Text(Words, Vec<u8>),
    Query(Query),
}

impl<R: Read> Found<R> {
    fn new(archive: Archive<R>, question: Question) -> Found<R> {
        Found { archive, question, run: Vec::new(), before: 0, matching: Vec::new().into_iter(), ended: false }
    }

    /// How many cards have been read.
    pub fn cards(&self) -> u64 {
        self.before + (self.run.len() / SIZE) as u64
    }

    /// Reads the next run and selects from it; answers whether there is one.
    fn read_run(&mut self) -> Result<bool, Unanswered> {
        self.before = self.cards();
        self.run.clear();
        (&mut self.archive.cards).take((RUN * SIZE) as u64).read_to_end(&mut self.run)?;
        let selected = match &self.question {
            Question::Text(words, text) => words.indexes(&self.archive.sheet, text, &self.run),
            Question::Query(query) => query.indexes(&self.run),
        };
        self.matching = selected.map_err(|refusal| refusal.over_file(self.before))?.into_iter();
        Ok(!self.run.is_empty())
    }

    /// The next match, if there is one.
    fn next_match(&mut self) -> Result<Option<(u64, u32)>, Unanswered> {
        loop {
            if let Some(index) = self.matching.next() {
                let number = record(&self.run[index * SIZE..][..SIZE])?;
                return Ok(Some((self.before + index as u64, number)));
            }
            if !self.read_run()? {
                return Ok(None);
            }
        }
    }
}

impl<R: Read> Iterator for Found<R> {
    type Item = Result<(u64, u32), Unanswered>;

    fn next(&mut self) -> Option<Self::Item> {
        if self.ended {
            return None;
        }
        let next = self.next_match().transpose();
        self.ended = !matches!(next, Some(Ok(_)));
        next
    }
}

/// Why a file of cards has no answer.
#[derive(Debug)]
#[non_exhaustive]
pub enum Unanswered {
    /// A card is refused, with its index in the file as the place, or the file is no whole number of cards.
    Refused(Refusal),
    /// The file cannot be read.
    Unread(io::Error),
}

impl From<Refusal> for Unanswered {
    fn from(refusal: Refusal) -> Unanswered {
        Unanswered::Refused(refusal)
    }
}

impl From<io::Error> for Unanswered {
    fn from(error: io::Error) -> Unanswered {
        Unanswered::Unread(error)
    }
}

/// A refused card is told with its index.
impl fmt::Display for Unanswered {
    fn fmt(&self, f: &mut fmt::Formatter) -> fmt::Result {
        match self {
            Unanswered::Refused(refusal) if refusal.is_of_card() => write!(f, "card {}: {refusal}", refusal.place),
            Unanswered::Refused(refusal) => refusal.fmt(f),
            Unanswered::Unread(error) => write!(f, "the cards cannot be read: {error}"),
        }
    }
}

impl Error for Unanswered {
    fn source(&self) -> Option<&(dyn Error + 'static)> {
        match self {
            Unanswered::Refused(refusal) => Some(refusal),
            Unanswered::Unread(error) => Some(error),
        }
    }
}

#[cfg(test)]
mod tests {
    use super::*;
    use crate::block::{Item, write_card};
    use crate::kind;
    use crate::sheet::{Parameter, Sheet};

    fn sheet() -> Vec<u8> {
        Sheet::write(vec![Parameter::new(kind::NUMBER, "pages")]).unwrap().block
    }

    fn card(record: u32, pages: &str) -> Vec<u8> {
        write_card(record, &[Item::new(0, pages)]).unwrap()
    }

    fn found(cards: &[u8], filter: &[u8]) -> Result<Vec<(u64, u32)>, Unanswered> {
        Archive::new(&sheet(), cards).select(filter).unwrap().collect()
    }

    /// Of cards with the same record number each is found by its own index, over several runs and where reads are short.
    #[test]
    fn indexes() {
        let pages = |index: u32| if index.is_multiple_of(3) { "100" } else { "7" };
        let cards: Vec<u8> = (0..300).flat_map(|index| card(index / 5, pages(index))).collect();
        let expected: Vec<(u64, u32)> =
            (0..300).filter(|index| index % 3 == 0).map(|index| (u64::from(index), index / 5)).collect();
        assert_eq!(found(&cards, b"pages gt 50").unwrap(), expected);
        let short = cards[..1000].chain(&cards[1000..]);
        let by_parts = Archive::new(&sheet(), short).search(b"pages=gt50").unwrap();
        assert_eq!(by_parts.collect::<Result<Vec<_>, _>>().unwrap(), expected);
        let by_query = Archive::new(&sheet(), &cards[..]).query(b"_filter=pages+gt+50&pages=gt60").unwrap();
        assert_eq!(by_query.collect::<Result<Vec<_>, _>>().unwrap(), expected);
    }

    /// A run is whole, or one card too many; nothing is an answer too.
    #[test]
    fn edges_of_a_run() {
        for count in [0, 1, 127, 128, 129, 256] {
            let cards: Vec<u8> = (0..count).flat_map(|index| card(index, "1")).collect();
            let mut all = Archive::new(&sheet(), &cards[..]).select(b"pages pr true").unwrap();
            assert_eq!(all.by_ref().filter_map(Result::ok).count(), count as usize);
            assert_eq!(all.cards(), u64::from(count));
        }
    }

    /// A card at fault ends the iteration with its index in the file; so do bytes that are no card.
    #[test]
    fn faults() {
        let mut cards: Vec<u8> = (0..200).flat_map(|index| card(index, "1")).collect();
        cards[150 * SIZE + 6] ^= 1;
        let mut all = Archive::new(&sheet(), &cards[..]).select(b"pages pr true").unwrap();
        let error = all.find_map(Result::err).unwrap();
        assert_eq!(error.to_string(), "card 150: refused 21 at 150: The card's check sum is wrong.");
        assert!(all.next().is_none());
        let error = found(&cards[..700], b"pages pr true").unwrap_err();
        assert!(matches!(error, Unanswered::Refused(Refusal { number: 20, place: 0 })));
    }
}
