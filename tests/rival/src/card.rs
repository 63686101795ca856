//! Reading a card: its layout and its fit under the sheet seen, and what the tests need of it kept, in one pass.

use crate::block::{self, Block};
use crate::code::{Code, Need};
use crate::span::Span;
use crate::text::fold;
use crate::{date, number};
use second::block::{CARD, Kind, MARKED_CARD, MOST_ENTRIES, MOST_PARAMETERS, SIZE, SUMMED};

/// In the place of an entry: there is no other.
pub const END: u8 = u8::MAX;

/// What a card holds, in lists that serve one card after the other.
pub struct Card {
    /// For each parameter its last entry, from which the others are come to.
    pub heads: [u8; MOST_PARAMETERS],
    pub entries: [Entry; MOST_ENTRIES],
    /// The texts that some test compares, folded where they stand on the card.
    folded: [u8; SIZE],
}

/// What is kept of an entry. What its kind does not have is left from the card before.
#[derive(Clone, Copy, Default)]
pub struct Entry {
    pub span: Span,
    /// Where its text begins, a token's system ends, its code begins, and the text ends.
    pub start: u16,
    pub system_end: u16,
    pub code: u16,
    pub end: u16,
    /// The entry before it of the same parameter.
    pub next: u8,
    pub occurrence: u8,
}

impl Card {
    pub fn new() -> Card {
        Card { heads: [END; _], entries: [Entry::default(); _], folded: [0; _] }
    }

    /// The folded text from one place of the card to another.
    #[inline]
    pub fn text(&self, start: u16, end: u16) -> &[u8] {
        &self.folded[usize::from(start)..usize::from(end)]
    }

    /// Reads a card, or tells the number of its refusal. The sharper reading sums it last, as far as its entries go;
    /// so the number that it tells may be another than the first that holds.
    #[inline(never)]
    pub fn read<const SHARPER: bool>(&mut self, block: &Block, code: &Code) -> Result<(), u32> {
        if !SHARPER && !block::has_sum(block) {
            return Err(21);
        }
        let head = match block[0] {
            CARD => 2,
            MARKED_CARD => 3,
            _ => return Err(22),
        };
        let count = usize::from(block[5]);
        if count > MOST_ENTRIES {
            return Err(22);
        }
        self.heads = [END; _];
        let mut fits = true;
        let mut at = 6;
        for index in 0..count {
            let start = at + head;
            if start > SUMMED {
                return Err(22);
            }
            let end = start + usize::from(block[start - 1]);
            if end > SUMMED {
                return Err(22);
            }
            let occurrence = if head == 3 { block[at + 1] } else { 0 };
            fits &= self.read_entry::<SHARPER>(block, code, index, block[at], occurrence, (start, end));
            at = end;
        }
        if !block::is_zero_from(block, at) {
            return Err(22);
        }
        if SHARPER && !block::has_sum_before(block, at) {
            return Err(21);
        }
        if fits { Ok(()) } else { Err(23) }
    }

    /// Reads an entry under its parameter, and tells whether it fits.
    #[inline(always)]
    fn read_entry<const SHARPER: bool>(
        &mut self,
        block: &Block,
        code: &Code,
        index: usize,
        place: u8,
        occurrence: u8,
        (start, end): (usize, usize),
    ) -> bool {
        let place = usize::from(place);
        let Some(Some(kind)) = code.kinds.get(place) else { return false };
        let need = code.needs[place];
        let entry = &mut self.entries[index];
        let text = &block[start..end];
        let fits = match kind {
            Kind::String => {
                keep_text(text, need, &mut self.folded[start..end]);
                true
            }
            Kind::Number => keep(number::read(text), &mut entry.span),
            Kind::Date => keep(date::read(text), &mut entry.span),
            Kind::Period => keep(date::read_period(text), &mut entry.span),
            Kind::Reference => {
                keep_text(text, need, &mut self.folded[start..end]);
                !text.is_empty()
            }
            Kind::Token if SHARPER && need < Need::Values => has_code(text),
            Kind::Token => {
                let code = entry.split_token(text, start);
                keep_text(text, need, &mut self.folded[start..end]);
                code < end
            }
        };
        if need > Need::Nothing {
            (entry.start, entry.end) = (start as u16, end as u16);
            (entry.occurrence, entry.next) = (occurrence, self.heads[place]);
            self.heads[place] = index as u8;
        }
        fits
    }
}

impl Entry {
    /// Splits a token that begins at this place at its first bar, and tells where its code begins.
    #[inline(always)]
    fn split_token(&mut self, token: &[u8], start: usize) -> usize {
        let bar = token.iter().position(|&byte| byte == b'|');
        let (system_end, code) = bar.map_or((start, start), |bar| (start + bar, start + bar + 1));
        (self.system_end, self.code) = (system_end as u16, code as u16);
        code
    }
}

/// Keeps a value that could be read, and tells whether it could.
#[inline]
fn keep(read: Option<Span>, span: &mut Span) -> bool {
    read.map(|read| *span = read).is_some()
}

/// Keeps a text folded, if some test compares it.
#[inline(always)]
fn keep_text(text: &[u8], need: Need, folded: &mut [u8]) {
    if need == Need::Values {
        fold(text, folded);
    }
}

/// Whether a token has a code. A bar that is its last byte and its first bar leaves none: it is sought only there.
#[inline]
fn has_code(token: &[u8]) -> bool {
    token.split_last().is_some_and(|(last, before)| *last != b'|' || before.contains(&b'|'))
}
