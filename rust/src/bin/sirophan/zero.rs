//! Why a test is met by no card, as far as the cards tell: asked in a second walk over them, test by test.

use crate::advice::{Question, Words};
use crate::asked::Asked;
use crate::block::{self, SIZE};
use crate::cards::{self, RUN};
use crate::clues::{Clues, Sought};
use crate::input::Input;
use crate::reason;
use crate::report::{Failure, Message};
use crate::tally::Held;
use crate::values;
use std::sync::atomic::{AtomicBool, Ordering};

/// Where at least so many cards match there is no second walk.
const FEW: u64 = 20;

/// What can be said of an answer that few cards are on: from a file by a second walk, else by what the first has found.
pub fn told(question: &Question, asked: &[Asked], path: &str, held: &Held, matching: u64) -> Vec<Message> {
    if matching >= FEW || held.cards == 0 {
        return Vec::new();
    }
    // The list stands whether the cards can be read once more or not.
    let cards = if path == "-" { None } else { Input::open(path).ok().filter(|cards| cards.size.is_some()) };
    match cards.map(|cards| Walk::new(question, asked, matching).pass(cards)) {
        Some(Ok(clues)) => reason::of_two_walks(question, asked, held, matching, &clues),
        _ => reason::of_one_walk(question, asked, held, matching),
    }
}

/// A second walk over the cards.
struct Walk<'a> {
    question: &'a Question,
    asked: &'a [Asked],
    sought: Vec<Sought<'a>>,
    /// Whether each test can be asked by itself: a long one in brackets may become too long a filter.
    askable: Vec<bool>,
    /// Whether a card meets each test, as far as is known. Then there is nothing more to find, unless no card matches.
    met: Vec<AtomicBool>,
    counts_all: bool,
}

impl<'a> Walk<'a> {
    fn new(question: &'a Question, asked: &'a [Asked], matching: u64) -> Walk<'a> {
        let askable = |asked: &Asked| asked.words.check(&question.sheet.block, &asked.alone).is_ok();
        Walk {
            question,
            asked,
            sought: asked.iter().map(|asked| Sought::new(&question.sheet, asked)).collect(),
            askable: asked.iter().map(askable).collect(),
            met: asked.iter().map(|_| AtomicBool::new(false)).collect(),
            counts_all: matching == 0,
        }
    }

    /// Goes through the cards, and answers the clues of each test.
    fn pass(&self, cards: Input) -> Result<Vec<Option<Clues>>, Failure> {
        let found = cards::pass(
            cards,
            |clues: &mut Vec<Clues>, first, piece| {
                clues.resize_with(self.asked.len(), Clues::default);
                for (number, clues) in clues.iter_mut().enumerate().filter(|(number, _)| self.askable[*number]) {
                    self.look(number, clues, first, piece);
                }
            },
            |()| Ok(()),
        )?;
        let mut sums = vec![Clues::default(); self.asked.len()];
        for clues in found {
            sums.iter_mut().zip(clues).for_each(|(sum, clues)| sum.add(clues));
        }
        Ok(sums.into_iter().zip(&self.askable).map(|(sum, askable)| askable.then_some(sum)).collect())
    }

    /// Looks for clues about a test in a piece.
    fn look(&self, number: usize, clues: &mut Clues, first: u64, piece: &[u8]) {
        let asked = &self.asked[number];
        let is_met = || self.met[number].load(Ordering::Relaxed);
        if is_met() && !self.counts_all {
            return;
        }
        let meeting = self.count(asked, piece);
        clues.met += meeting;
        if meeting > 0 {
            self.met[number].store(true, Ordering::Relaxed);
        }
        if is_met() {
            return;
        }
        let sought = &self.sought[number];
        if let Some(operator) = reason::overlap(sought.kind, &asked.operator) {
            self.look_for_overlaps(asked, operator, clues, first, piece);
        }
        for (card, index) in piece.chunks_exact(SIZE).zip(first..) {
            let mut is_there = false;
            for item in block::items(card).filter(|item| usize::from(item.byte) == asked.place) {
                is_there = true;
                sought.look_at(clues, (index, block::record(card)), item.text);
            }
            clues.cards += u64::from(is_there);
        }
    }

    /// How many cards of a piece meet a test.
    fn count(&self, asked: &Asked, piece: &[u8]) -> u64 {
        let select = |run: &[u8]| asked.words.select(&self.question.sheet.block, &asked.alone, run, &mut [0; RUN]);
        piece.chunks(RUN * SIZE).map(|run| select(run).unwrap_or(0) as u64).sum()
    }

    /// Counts the cards that meet a test by an operator that asks for less.
    fn look_for_overlaps(&self, asked: &Asked, operator: &str, clues: &mut Clues, first: u64, piece: &[u8]) {
        let (sheet, filter) = (&self.question.sheet, asked.by(operator));
        let Ok(prepared) = sirophan::prepare(&sheet.block, &filter) else { return };
        for (card, index) in piece.chunks_exact(SIZE).zip(first..) {
            if prepared.matches(card).unwrap_or(false) {
                // Only the first is shown.
                let is_first = clues.overlapping.first.is_none();
                let values =
                    if is_first { values::that_meet(sheet, asked, Words::Filter, &filter, card) } else { Vec::new() };
                let value = values.into_iter().next().unwrap_or_default();
                clues.overlapping.found((index, block::record(card)), &value);
            }
        }
    }
}
