//! Blocks of 512 bytes, as `docs/RULES.md` lays them out: written, and read as far as they go. Whether a block is sound
//! is for the proved library to say; here it is taken apart, so that what is in it can be shown.

use crate::seal;
use std::iter;

/// The size of a block.
pub const SIZE: usize = 512;
/// The check sum is over the bytes before this place and stands in the four bytes from it on.
pub const SUMMED: usize = 508;
/// The largest number of parameters on a sheet, of entries on a card, and of bytes in a text.
pub const MOST_PARAMETERS: usize = 32;
pub const MOST_ENTRIES: usize = 64;
pub const LONGEST_TEXT: usize = 255;
/// How many bytes stand before the items of a sheet and of a card; the last of them is the number of items.
pub const SHEET_HEAD: usize = 2;
pub const CARD_HEAD: usize = 6;

/// The first byte of each form: a sheet, a sheet that may have bundles, a card, a card whose entries have occurrences.
const SHEET: u8 = 0x50;
const MARKED_SHEET: u8 = 0x51;
const CARD: u8 = 0x43;
const MARKED_CARD: u8 = 0x44;

/// What the first byte says that a block is.
#[derive(Clone, Copy, Debug, PartialEq, Eq)]
pub enum Sort {
    Sheet,
    Card,
    Neither,
}

impl Sort {
    /// What a block is, by its first byte.
    #[must_use]
    pub fn of(block: &[u8]) -> Sort {
        match block.first() {
            Some(&(SHEET | MARKED_SHEET)) => Sort::Sheet,
            Some(&(CARD | MARKED_CARD)) => Sort::Card,
            _ => Sort::Neither,
        }
    }

    /// Where the number of items stands.
    fn count_at(self) -> usize {
        if self == Sort::Sheet { SHEET_HEAD - 1 } else { CARD_HEAD - 1 }
    }
}

/// One item of a block: on a sheet a kind, a bundle's place plus 1 and a name; on a card a parameter's place, an
/// occurrence and a text. The mark is 0 where the block has none.
#[derive(Clone, Copy, Debug, PartialEq, Eq)]
pub struct Item<'a> {
    pub byte: u8,
    pub mark: u8,
    pub text: &'a [u8],
}

impl<'a> Item<'a> {
    /// A text of a card under the parameter at a place, or a name of a kind, without a mark.
    pub fn new(byte: u8, text: &'a (impl AsRef<[u8]> + ?Sized)) -> Item<'a> {
        Item { byte, mark: 0, text: text.as_ref() }
    }
}

impl Item<'_> {
    /// How many bytes the item takes in a block.
    #[must_use]
    pub fn size(&self, marked: bool) -> usize {
        usize::from(marked) + 2 + self.text.len()
    }
}

/// Whether a block is of the form whose items have a mark.
#[must_use]
pub fn is_marked(block: &[u8]) -> bool {
    matches!(block.first(), Some(&(MARKED_SHEET | MARKED_CARD)))
}

/// A sheet of these parameters, if a sheet has room for them. Without bundles it is written in the older form.
#[must_use]
pub fn write_sheet(parameters: &[Item], marked: bool) -> Option<Vec<u8>> {
    let first = if marked { MARKED_SHEET } else { SHEET };
    let count = u8::try_from(parameters.len()).ok()?;
    write_block(vec![first, count], parameters, marked)
}

/// A card with these entries, if a card has room for them. Without occurrences it is written in the older form.
#[must_use]
pub fn write_card(record: u32, entries: &[Item]) -> Option<Vec<u8>> {
    write_card_as(record, entries, has_marks(entries))
}

/// The same in the form that is asked for; the older one has no occurrences, and drops them.
#[must_use]
pub fn write_card_as(record: u32, entries: &[Item], marked: bool) -> Option<Vec<u8>> {
    let mut head = vec![if marked { MARKED_CARD } else { CARD }];
    head.extend(record.to_le_bytes());
    head.push(u8::try_from(entries.len()).ok().filter(|&count| usize::from(count) <= MOST_ENTRIES)?);
    write_block(head, entries, marked)
}

/// Whether an entry has an occurrence other than 0, so that its card needs the newer form.
#[must_use]
pub fn has_marks(entries: &[Item]) -> bool {
    entries.iter().any(|entry| entry.mark > 0)
}

/// A block of a head and items, with the zeros and the check sum behind them, if they have room.
fn write_block(mut block: Vec<u8>, items: &[Item], marked: bool) -> Option<Vec<u8>> {
    for item in items {
        block.push(item.byte);
        if marked {
            block.push(item.mark);
        }
        block.push(u8::try_from(item.text.len()).ok()?);
        block.extend(item.text);
    }
    if block.len() > SUMMED {
        return None;
    }
    block.resize(SIZE, 0);
    seal(&mut block).ok()?;
    Some(block)
}

/// The record number of a block that is a card.
///
/// # Panics
///
/// If it is not 512 bytes; [`crate::record`] refuses that.
#[must_use]
pub fn record(card: &[u8]) -> u32 {
    crate::record(card).expect("a card has 512 bytes")
}

/// How many items a block says that it has.
#[must_use]
pub fn count(block: &[u8]) -> u8 {
    block.get(Sort::of(block).count_at()).copied().unwrap_or(0)
}

/// The items of a block, as far as they lie inside it.
pub fn items(block: &[u8]) -> impl Iterator<Item = Item<'_>> {
    placed_items(block).map(|(item, _)| item)
}

/// The items of a block, each with the place behind it.
fn placed_items(block: &[u8]) -> impl Iterator<Item = (Item<'_>, usize)> {
    let marked = is_marked(block);
    let count_at = Sort::of(block).count_at();
    let mut left = count(block);
    let mut at = count_at + 1;
    iter::from_fn(move || {
        left = left.checked_sub(1)?;
        let text_at = at + if marked { 3 } else { 2 };
        let summed = &block[..block.len().min(SUMMED)];
        let text = summed.get(text_at..text_at + usize::from(*summed.get(text_at - 1)?))?;
        let item = Item { byte: summed[at], mark: if marked { summed[at + 1] } else { 0 }, text };
        at = text_at + text.len();
        Some((item, at))
    })
}

/// What is wrong with the layout of a block, in words. An empty list does not say that the block is sound.
#[must_use]
pub fn faults(block: &[u8]) -> Vec<&'static str> {
    let placed: Vec<usize> = placed_items(block).map(|(_, end)| end).collect();
    let end = placed.last().copied().unwrap_or(Sort::of(block).count_at() + 1);
    let most = if Sort::of(block) == Sort::Sheet { MOST_PARAMETERS } else { MOST_ENTRIES };
    let behind = block.get(end..SUMMED).unwrap_or_default();
    let cut_off = placed.len() < usize::from(count(block));
    let found = [
        (usize::from(count(block)) > most, "more entries than are allowed"),
        (cut_off, "entries that go past its end"),
        (!cut_off && behind.iter().any(|&byte| byte != 0), "bytes behind the entries"),
    ];
    found.into_iter().filter_map(|(holds, words)| holds.then_some(words)).collect()
}

#[cfg(test)]
mod tests {
    use super::*;

    /// Entries come back from a card of either form as they were written, up to its last byte.
    #[test]
    fn cards_hold_their_entries() {
        for mark in [0, 1, 255] {
            let room = SUMMED - CARD_HEAD - 255 - 2 * if mark > 0 { 3 } else { 2 };
            let (long, rest) = ([b'x'; 255], vec![b'y'; room + 1]);
            let first = Item { byte: 0, mark, text: &long };
            let full = [first, Item { byte: 1, mark: 0, text: &rest[..room] }];
            let card = write_card(u32::MAX, &full).unwrap();
            assert_eq!(card.len(), SIZE);
            assert_eq!(card[SUMMED - 1], b'y');
            assert_eq!(record(&card), u32::MAX);
            assert_eq!(items(&card).collect::<Vec<_>>(), full);
            assert!(faults(&card).is_empty());
            assert_eq!(write_card(1, &[first, Item { byte: 1, mark: 0, text: &rest }]), None);
        }
    }

    /// A card takes 64 entries and no more, a text 255 bytes.
    #[test]
    fn limits_of_a_card() {
        let empty = Item { byte: 0, mark: 1, text: b"" };
        assert!(write_card(1, &[empty; 64]).is_some());
        assert_eq!(write_card(1, &[empty; 65]), None);
        assert_eq!(write_card(1, &[Item { byte: 0, mark: 0, text: &[b'x'; 256] }]), None);
    }

    /// Any bytes can be taken apart.
    #[test]
    fn damage() {
        let card = write_card(7, &[Item { byte: 0, mark: 0, text: b"x" }]).unwrap();
        for bit in 0..8 * SUMMED {
            let mut damaged = card.clone();
            damaged[bit / 8] ^= 1 << (bit % 8);
            assert!(items(&damaged).count() <= 255);
        }
        let noise: Vec<u8> = (0..SIZE).map(|at| u8::try_from(at * at % 251).unwrap()).collect();
        for first in [SHEET, MARKED_SHEET, CARD, MARKED_CARD, 0] {
            let block = [&[first], &noise[1..]].concat();
            assert!(!faults(&block).is_empty());
        }
    }

    /// The two cards of docs/RULES.md have the check sums given there.
    #[test]
    fn the_blocks_of_the_rules() {
        let title = Item { byte: 0, mark: 0, text: b"Ward book 4" };
        let card = write_card(300, &[title, Item { byte: 1, mark: 0, text: b"1974-06" }]).unwrap();
        assert_eq!(card[SUMMED..], 22_231_u32.to_le_bytes());
        let entry = |byte, mark, text| Item { byte, mark, text };
        let first = [title, entry(2, 1, b"has-component"), entry(3, 1, b"Observation/4")];
        let second = [entry(2, 2, b"sequel-to"), entry(3, 2, b"Observation/5")];
        let card = write_card(7, &[&first[..], &second].concat()).unwrap();
        assert_eq!(card[SUMMED..], 263_688_u32.to_le_bytes());
    }
}
