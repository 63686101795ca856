//! In which words a text asks, and how it is asked of cards.

use crate::block::SIZE;
use crate::{RUN, Refusal, check, check_search, matches, matches_search, record, select, select_search};

/// In which words a text asks: as a filter, or as a search string.
#[derive(Clone, Copy, Debug, PartialEq, Eq, Hash)]
pub enum Words {
    Filter,
    Search,
}

impl Words {
    /// How many tests or alternatives a text has, if it has a meaning.
    ///
    /// # Errors
    ///
    /// As [`check`] and [`check_search`].
    pub fn check(self, sheet: &[u8], text: &[u8]) -> Result<usize, Refusal> {
        match self {
            Words::Filter => check(sheet, text),
            Words::Search => check_search(sheet, text),
        }
    }

    /// Whether a card matches a text.
    ///
    /// # Errors
    ///
    /// As [`matches`] and [`matches_search`].
    pub fn matches(self, sheet: &[u8], text: &[u8], card: &[u8]) -> Result<bool, Refusal> {
        match self {
            Words::Filter => matches(sheet, text, card),
            Words::Search => matches_search(sheet, text, card),
        }
    }

    /// The record numbers of the cards of a run that match a text.
    ///
    /// # Errors
    ///
    /// As [`select`] and [`select_search`].
    pub fn select(self, sheet: &[u8], text: &[u8], run: &[u8], list: &mut [u32]) -> Result<usize, Refusal> {
        match self {
            Words::Filter => select(sheet, text, run, list),
            Words::Search => select_search(sheet, text, run, list),
        }
    }

    /// The indexes of the cards of a run that match a text. Where a later card bears the same record number as one on the list, that may
    /// be the one, and the library is asked.
    pub(crate) fn indexes(self, sheet: &[u8], text: &[u8], run: &[u8]) -> Result<Vec<usize>, Refusal> {
        let mut list = [0; RUN];
        let count = self.select(sheet, text, run, &mut list)?;
        let mut listed = list[..count].iter().peekable();
        let mut found = Vec::with_capacity(count);
        if count == 0 {
            return Ok(found);
        }
        let numbers: Vec<u32> = run.chunks(SIZE).map(record).collect::<Result<_, _>>()?;
        for (index, number) in numbers.iter().enumerate() {
            if listed.peek() != Some(&number) {
                continue;
            }
            let is_last = !numbers[index + 1..].contains(number);
            if is_last || self.matches(sheet, text, &run[index * SIZE..][..SIZE])? {
                listed.next();
                found.push(index);
            }
        }
        Ok(found)
    }
}
