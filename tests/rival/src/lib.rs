//! Select as an expert would write it in safe Rust without proofs: what the benchmark measures the proved library by.
//!
//! The filter is compiled once for a run to tests with their values read and jumps between them; a card's entries are
//! read once, into lists that serve every card. The block's layout, the limits and the words of the filter are those of
//! the second implementation; reading and judging are its own. A text that is no filter is refused with 11 at 0,
//! whichever of 11 to 13 it is.

pub mod block;
mod card;
mod code;
mod compile;
mod cursor;
mod date;
mod judge;
mod meaning;
mod name;
mod number;
mod sheet;
mod span;
mod text;

use card::Card;
use second::block::SIZE;
use second::operations::{MOST_CARDS, Refusal};
use sheet::Sheet;

/// Selects the record numbers of the cards that match. It is never inlined, so that a profiler finds it by its name.
#[inline(never)]
pub fn select(sheet: &[u8], filter: &[u8], cards: &[u8], list: &mut [u32]) -> Result<usize, Refusal> {
    select_by::<false>(sheet, filter, cards, list)
}

/// The same, with a card summed only as far as its entries go, and a token's bar sought only where it is asked for.
#[inline(never)]
pub fn select_sharper(sheet: &[u8], filter: &[u8], cards: &[u8], list: &mut [u32]) -> Result<usize, Refusal> {
    select_by::<true>(sheet, filter, cards, list)
}

#[inline(always)]
fn select_by<const SHARPER: bool>(
    sheet: &[u8],
    filter: &[u8],
    cards: &[u8],
    list: &mut [u32],
) -> Result<usize, Refusal> {
    let refused = |number, place| Refusal { number, place };
    let sheet = Sheet::read(sheet).map_err(|number| refused(number, 0))?;
    let code = compile::compile(&sheet, filter)?;
    if !cards.len().is_multiple_of(SIZE) || cards.len() > MOST_CARDS * SIZE {
        return Err(refused(20, 0));
    }
    let mut card = Card::new();
    let mut found = [0; MOST_CARDS];
    let mut count = 0;
    for (index, block) in cards.as_chunks().0.iter().enumerate() {
        let mut read = card.read::<SHARPER>(block, &code);
        if SHARPER && read.is_err() {
            // A card that is refused is read in the order of the refusals, to tell the first that holds.
            read = card.read::<false>(block, &code);
        }
        read.map_err(|number| refused(number, index))?;
        if code.matches(&card) {
            found[count] = u32::from_le_bytes([block[1], block[2], block[3], block[4]]);
            count += 1;
        }
    }
    // The list stays as it is until nothing can be refused any more.
    list.get_mut(..count).ok_or(refused(30, count))?.copy_from_slice(&found[..count]);
    Ok(count)
}
