//! The inputs of the differential test. Each is made of the seed and its number alone.

mod alike;
mod archive;
mod damage;
mod filters;
mod limits;
mod modes;
mod queries;
mod random;
mod rows;
mod texts;

pub use alike::{Used, alike, used_by_filter, used_by_query, used_by_rows};
pub use queries::query;
pub use random::Random;
pub use rows::rows;

use crate::block::{MARKED_CARD, MARKED_SHEET, SIZE};
use crate::filter;
use crate::operations::Tally;
use crate::spelling;
use archive::Archive;
use modes::MODES;

/// One input for each of the operations.
#[derive(Clone, Debug)]
pub struct Case {
    pub sheet: Vec<u8>,
    pub filter: Vec<u8>,
    /// The card that is matched.
    pub card: Vec<u8>,
    /// The run that is selected from.
    pub cards: Vec<u8>,
    /// The list before the selection.
    pub list: Vec<u32>,
    /// The rows before the report.
    pub rows: Vec<Tally>,
    /// The buffer that the filter is spelled into, and from which of its bytes on.
    pub buffer: Vec<u8>,
    pub from: usize,
}

impl Case {
    /// Whether the sheet or some card is of the marked form.
    pub fn is_marked(&self) -> bool {
        let mut cards = [&self.card, &self.cards].into_iter().flat_map(|cards| cards.chunks(SIZE));
        self.sheet.first() == Some(&MARKED_SHEET) || cards.any(|card| card[0] == MARKED_CARD)
    }

    /// Whether the text is a filter with a condition inside a path.
    pub fn has_condition(&self) -> bool {
        filter::read(&self.filter).is_some_and(|filter| filter.has_condition())
    }
}

/// The input with this number, and the name of the mode that made it.
pub fn case(seed: u64, number: u64) -> (Case, &'static str) {
    let mut random = Random::new(seed, number);
    let total: usize = MODES.iter().map(|mode| mode.weight).sum();
    let mut left = random.below(total);
    for mode in &MODES {
        if left < mode.weight {
            let mut case = (mode.make)(&mut random);
            case.rows = tallies(&mut random, &case.sheet);
            lend_buffer(&mut random, &mut case);
            return (case, mode.name);
        }
        left -= mode.weight;
    }
    unreachable!("the weights sum to the total")
}

/// Rows with something in each: mostly as many as the sheet needs, or some more, and now and then too few.
fn tallies(random: &mut Random, sheet: &[u8]) -> Vec<Tally> {
    let needed = sheet.get(1).map_or(0, |&count| usize::from(count % 64));
    let length = match random.below(8) {
        0 => needed.saturating_sub(1),
        1 => random.below(needed + 1),
        2 => needed + random.below(4),
        _ => needed,
    };
    (0..length).map(|_| Tally { cards: random.draw() as u32, values: random.draw() as u32 }).collect()
}

/// A buffer with something in every byte, in which the plain spelling mostly has room, often no more than that. Now and
/// then it is one byte too short, or the place lies at its end or past it.
fn lend_buffer(random: &mut Random, case: &mut Case) {
    let plain = filter::read(&case.filter).map(|filter| spelling::plain(&filter));
    let needed = plain.map_or(case.filter.len(), |plain| plain.len());
    let from = random.below(6);
    let size = match random.below(8) {
        0 => (from + needed).saturating_sub(1),
        1 => random.below(from + needed + 1),
        2..=4 => from + needed,
        _ => from + needed + random.below(20),
    };
    case.buffer = (0..size).map(|_| random.byte()).collect();
    case.from = match random.below(16) {
        0 => size,
        1 => size + 1 + random.below(9),
        2 => random.one(&[usize::MAX, usize::MAX - 1, usize::MAX - needed, usize::MAX / 2]),
        _ => from,
    };
}

/// The three files that the program `pick` reads.
#[derive(Clone, Debug)]
pub struct Files {
    pub sheet: Vec<u8>,
    pub filter: Vec<u8>,
    pub cards: Vec<u8>,
}

/// Files with up to three runs of cards, some of them damaged in a later run, and any end of the filter's line.
pub fn files(seed: u64, number: u64) -> Files {
    let random = &mut Random::new(seed, number);
    let archive = Archive::new(random, 4, 6, 4);
    let mut sheet = archive.sheet();
    if random.once_in(8) {
        damage::sheet(random, &mut sheet);
    }
    let mut filter = modes::good_filter(random, &archive, 3);
    if random.once_in(8) {
        filter = filters::one_byte_changed(random, &filter);
    }
    let line_end = match random.below(10) {
        0 => "\n\n",
        1 => "\r\n",
        2 | 3 => "",
        _ => "\n",
    };
    filter.extend_from_slice(line_end.as_bytes());
    let count = random.one(&[0, 1, 3, 127, 128, 129, 255, 256, 257, 300]);
    let mut cards: Vec<u8> = archive.run().into_iter().cycle().take(count * SIZE).collect();
    if count > 0 && random.once_in(3) {
        let at = SIZE * random.below(count);
        damage::card(random, &mut cards[at..at + SIZE], &archive);
    }
    if random.once_in(6) {
        cards.resize(cards.len() + random.one(&[1, 100, SIZE - 1]), 0);
    }
    Files { sheet, filter, cards }
}
