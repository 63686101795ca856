//! Which cards of a run match, card by card: the library's list has their record numbers, which several cards may bear.

use crate::advice::{Question, Words};
use crate::block::SIZE;
use crate::cards::{AtFault, RUN};
use crate::tally::record;
use sirophan::Refusal;

/// The cards of a run that match a text, as bits; the first card's is the lowest.
pub fn in_run(words: Words, sheet: &[u8], text: &[u8], run: &[u8]) -> Result<u128, Refusal> {
    let mut list = [0; RUN];
    let count = words.select(sheet, text, run, &mut list)?;
    let (cards, _) = run.as_chunks::<SIZE>();
    let numbers: Vec<u32> = cards.iter().map(record).collect();
    let mut listed = list[..count].iter().peekable();
    let mut bits = 0;
    for (index, card) in cards.iter().enumerate() {
        let Some(next) = listed.peek() else { break };
        // Where a later card bears the same number, that may be the one.
        let is_it =
            numbers[index] == **next && (!numbers[index + 1..].contains(*next) || words.matches(sheet, text, card)?);
        if is_it {
            bits |= 1 << index;
            listed.next();
        }
    }
    Ok(bits)
}

/// Asks a question of the runs of a piece before the first that is refused, and answers what is refused. `take` gets each run, and
/// which of its cards match.
pub fn in_piece(question: &Question, first: u64, piece: &[u8], mut take: impl FnMut(&[u8], u128)) -> Option<AtFault> {
    for (index, run) in piece.chunks(RUN * SIZE).enumerate() {
        match in_run(question.words, &question.sheet.block, &question.text, run) {
            Ok(bits) => take(run, bits),
            Err(refusal) => return Some(AtFault::new(refusal, first + (index * RUN) as u64, run)),
        }
    }
    None
}

/// The cards of a run that bits name, in order.
pub fn cards(run: &[u8], bits: u128) -> impl Iterator<Item = &[u8; SIZE]> {
    let (cards, _) = run.as_chunks::<SIZE>();
    cards.iter().enumerate().filter(move |(index, _)| bits >> index & 1 == 1).map(|(_, card)| card)
}
