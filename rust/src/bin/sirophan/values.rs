//! The values of a card that a test goes by.

use crate::advice::Words;
use crate::asked::Asked;
use crate::block::{self, Item};
use crate::sheet::Sheet;

/// The values of a card for which a test says yes, each asked of the library by itself; in a bundle beside the others of its
/// occurrence.
pub fn that_meet(sheet: &Sheet, asked: &Asked, words: Words, text: &[u8], card: &[u8]) -> Vec<Vec<u8>> {
    let items: Vec<Item> = block::items(card).collect();
    let bundle = sheet.parameters[asked.place].bundle;
    let is_asked = |item: &Item| usize::from(item.byte) == asked.place;
    let is_member = |item: &&Item| {
        bundle > 0 && sheet.parameters.get(usize::from(item.byte)).is_some_and(|other| other.bundle == bundle)
    };
    let meets = |item: &&Item| {
        let beside = items.iter().filter(is_member).filter(|other| !is_asked(other) && other.mark == item.mark);
        let alone: Vec<Item> = beside.copied().chain([**item]).collect();
        let card = block::write_card(0, &alone);
        card.is_some_and(|card| words.matches(&sheet.block, text, &card).unwrap_or(false))
    };
    items.iter().filter(|item| is_asked(item)).filter(meets).map(|item| item.text.to_vec()).collect()
}

/// All values of a card under a parameter.
pub fn under(card: &[u8], place: usize) -> Vec<Vec<u8>> {
    block::items(card).filter(|item| usize::from(item.byte) == place).map(|item| item.text.to_vec()).collect()
}
