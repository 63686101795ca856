//! The operations on bytes, with their refusals in the order of the table.

use crate::beginning;
use crate::block::{self, Card, Flaw, Sheet};
use crate::explain;
use crate::filter::{self, Filter, Test};
use crate::meaning::{self, Fault, Held, Question};
use crate::rows;
use crate::search;
use crate::spelling;

/// The most cards of a run.
pub const MOST_CARDS: usize = 128;

/// A refusal: its number, and the place that the table gives it.
#[derive(Clone, Copy, Debug, PartialEq, Eq)]
pub struct Refusal {
    pub number: u32,
    pub place: usize,
}

/// Answers how many tests the filter has.
pub fn check(sheet: &[u8], filter: &[u8]) -> Result<usize, Refusal> {
    Ok(Asked::read(sheet, filter)?.filter.count())
}

/// Answers whether the card matches the filter.
pub fn matches(sheet: &[u8], filter: &[u8], card: &[u8]) -> Result<bool, Refusal> {
    let asked = Asked::read(sheet, filter)?;
    let (_, verdict) = asked.judge(card, 0)?;
    Ok(verdict)
}

/// The cards of a run.
fn run(cards: &[u8]) -> Result<impl Iterator<Item = &[u8]>, Refusal> {
    if !cards.len().is_multiple_of(block::SIZE) || cards.len() / block::SIZE > MOST_CARDS {
        return Err(refused(20, 0));
    }
    Ok(cards.chunks(block::SIZE))
}

/// Writes the record numbers of the matching cards into the list and answers how many they are.
pub fn select(sheet: &[u8], filter: &[u8], cards: &[u8], list: &mut [u32]) -> Result<usize, Refusal> {
    Asked::read(sheet, filter)?.select(cards, list)
}

/// Answers how many alternatives the search string has.
pub fn check_search(sheet: &[u8], text: &[u8]) -> Result<usize, Refusal> {
    Ok(Asked::search(sheet, text)?.filter.count())
}

/// Answers whether the card matches the search string.
pub fn matches_search(sheet: &[u8], text: &[u8], card: &[u8]) -> Result<bool, Refusal> {
    let (_, verdict) = Asked::search(sheet, text)?.judge(card, 0)?;
    Ok(verdict)
}

/// Selects by a search string.
pub fn select_search(sheet: &[u8], text: &[u8], cards: &[u8], list: &mut [u32]) -> Result<usize, Refusal> {
    Asked::search(sheet, text)?.select(cards, list)
}

/// A row of a report: how many cards have a parameter, and how many values stand under it.
#[derive(Clone, Copy, Debug, Default, PartialEq, Eq)]
pub struct Tally {
    pub cards: u32,
    pub values: u32,
}

/// Writes a row for each parameter and answers how many cards say yes and how many no.
pub fn report(sheet: &[u8], filter: &[u8], cards: &[u8], rows: &mut [Tally]) -> Result<(usize, usize), Refusal> {
    let asked = Asked::read(sheet, filter)?;
    let mut tallies = vec![Tally::default(); asked.sheet.parameters.len()];
    let (mut yes, mut no) = (0, 0);
    for (index, card) in run(cards)?.enumerate() {
        let (card, verdict) = asked.judge(card, index)?;
        *if verdict { &mut yes } else { &mut no } += 1;
        for (place, tally) in tallies.iter_mut().enumerate() {
            let values = card.entries.iter().filter(|entry| usize::from(entry.head) == place).count();
            tally.cards += u32::from(values > 0);
            tally.values += values as u32;
        }
    }
    let needed = rows.get_mut(..tallies.len());
    needed.ok_or(refused(31, tallies.len()))?.copy_from_slice(&tallies);
    Ok((yes, no))
}

/// Answers whether the card matches the filter, and writes a cell for each test: whether it is spared, or how it decides.
pub fn explain(sheet: &[u8], filter: &[u8], card: &[u8], cells: &mut [u8]) -> Result<bool, Refusal> {
    let asked = Asked::read(sheet, filter)?;
    let (_, held) = asked.card(card, 0)?;
    let marks = explain::cells(&asked.filter, |question, condition| question.verdict(condition, &held));
    let needed = cells.get_mut(..marks.len());
    needed.ok_or(refused(33, marks.len()))?.copy_from_slice(&marks);
    Ok(meaning::verdict(&asked.filter, &held))
}

/// Puts the plain spelling of the filter into the buffer from this place on and answers its length.
pub fn spell(filter: &[u8], buffer: &mut [u8], from: usize) -> Result<usize, Refusal> {
    let text = spelling::plain(&read_filter(filter)?);
    let part = buffer.get_mut(from..).and_then(|part| part.get_mut(..text.len()));
    let part = part.ok_or(refused(32, text.len()))?;
    part.copy_from_slice(&text);
    Ok(text.len())
}

/// Reads a text as a filter.
fn read_filter(text: &[u8]) -> Result<Filter<Test>, Refusal> {
    has_size(text)?;
    filter::read(text).ok_or_else(|| {
        let (number, place) = beginning::failure(text);
        refused(number, place)
    })
}

/// Writes the filter's rows into the list and answers how many cells they fill.
pub fn prepare(sheet: &[u8], text: &[u8], list: &mut [u32]) -> Result<usize, Refusal> {
    let asked = Asked::read(sheet, text)?;
    let filter = filter::read(text).expect("a text that was read");
    let rows = rows::write(&filter, &asked.sheet);
    let cells = list.get_mut(..rows.len());
    let cells = cells.ok_or(refused(34, rows.len()))?;
    cells.copy_from_slice(&rows);
    Ok(rows.len())
}

/// Answers whether the card matches what the rows state.
pub fn judge(sheet: &[u8], text: &[u8], rows: &[u32], card: &[u8]) -> Result<bool, Refusal> {
    let sheet = read_sheet(sheet)?;
    has_size(text)?;
    let filter = rows::read(rows, text, &sheet).ok_or(refused(40, 0))?;
    let (_, verdict) = Asked { sheet, filter }.judge(card, 0)?;
    Ok(verdict)
}

/// A sheet and a filter of which every test has a meaning on every card that fits the sheet.
struct Asked {
    sheet: Sheet,
    filter: Filter<Question>,
}

impl Asked {
    fn read(sheet: &[u8], filter: &[u8]) -> Result<Asked, Refusal> {
        let sheet = read_sheet(sheet)?;
        let filter = read_filter(filter)?.try_map(&mut |test| {
            meaning::question(&test, &sheet).map_err(|fault| refused(number(fault), test.place))
        })?;
        Ok(Asked { sheet, filter })
    }

    /// The same of a search string and its alternatives.
    fn search(sheet: &[u8], text: &[u8]) -> Result<Asked, Refusal> {
        let sheet = read_sheet(sheet)?;
        has_size(text)?;
        let pairs = search::read(text).map_err(|place| refused(50, place))?;
        if pairs.iter().map(Vec::len).sum::<usize>() > search::MOST_ALTERNATIVES {
            return Err(refused(51, 0));
        }
        let filter = search::question(&pairs, &sheet).map_err(|(place, fault)| refused(number(fault), place))?;
        Ok(Asked { sheet, filter })
    }

    /// Writes the record numbers of the matching cards into the list and answers how many they are.
    fn select(&self, cards: &[u8], list: &mut [u32]) -> Result<usize, Refusal> {
        let mut found = Vec::new();
        for (index, card) in run(cards)?.enumerate() {
            let (card, verdict) = self.judge(card, index)?;
            if verdict {
                found.push(card.record);
            }
        }
        let cells = list.get_mut(..found.len());
        let cells = cells.ok_or(refused(30, found.len()))?;
        cells.copy_from_slice(&found);
        Ok(found.len())
    }

    /// A card, which stands at this index, and the yes or no of it.
    fn judge<'a>(&self, card: &'a [u8], index: usize) -> Result<(Card<'a>, bool), Refusal> {
        let (card, held) = self.card(card, index)?;
        Ok((card, meaning::verdict(&self.filter, &held)))
    }

    /// A card, which stands at this index, and what it holds.
    fn card<'a>(&self, card: &'a [u8], index: usize) -> Result<(Card<'a>, Vec<Held<'a>>), Refusal> {
        let card = block::read_card(card).map_err(|flaw| match flaw {
            Flaw::Size => refused(20, 0),
            Flaw::Sum => refused(21, index),
            Flaw::Layout => refused(22, index),
        })?;
        let held = meaning::held(&card, &self.sheet).ok_or(refused(23, index))?;
        Ok((card, held))
    }
}

fn read_sheet(sheet: &[u8]) -> Result<Sheet, Refusal> {
    block::read_sheet(sheet).map_err(|flaw| match flaw {
        Flaw::Size => refused(1, 0),
        Flaw::Sum => refused(2, 0),
        Flaw::Layout => refused(3, 0),
    })
}

fn has_size(text: &[u8]) -> Result<(), Refusal> {
    let fits = !text.is_empty() && text.len() <= filter::LONGEST;
    fits.then_some(()).ok_or(refused(10, 0))
}

fn refused(number: u32, place: usize) -> Refusal {
    Refusal { number, place }
}

/// The number of a test's fault.
fn number(fault: Fault) -> u32 {
    match fault {
        Fault::UnknownName => 14,
        Fault::BareBundle => 18,
        Fault::UnservedOperation => 15,
        Fault::NoMeaningForKind => 16,
        Fault::UnreadableValue => 17,
    }
}
