//! Damage to blocks: each kind breaks one rule of their layout, or comes as near to that as it can without.

use super::archive::Archive;
use super::random::Random;
use crate::block::{self, CARD, Kind, MARKED_CARD, MARKED_SHEET, SHEET, SIZE, SUMMED};

/// Where a block has its number of entries; the entries follow it.
const SHEET_COUNT: usize = 1;
const CARD_COUNT: usize = 5;

/// Damages the block of a sheet.
pub fn sheet(random: &mut Random, block: &mut Vec<u8>) {
    if random.once_in(8) {
        let size = random.one(&[0, 1, SUMMED, SIZE - 1, SIZE + 1, 2 * SIZE]);
        return block.resize(size, 0);
    }
    content(random, block, SHEET_COUNT, &[0, 6, 7, 8, 255]);
}

/// Damages the block of a card on the sheet of this archive.
pub fn card(random: &mut Random, block: &mut [u8], archive: &Archive) {
    let past = archive.parameters.len() as u8;
    let mut bad_heads = vec![past, past + 1, 255];
    bad_heads.extend(archive.bundles().iter().map(|&place| place as u8));
    content(random, block, CARD_COUNT, &bad_heads);
}

/// Changes a byte and stores the sum anew, or changes a byte and lets the sum be wrong.
fn content(random: &mut Random, block: &mut [u8], count_at: usize, bad_heads: &[u8]) {
    let (heads, end) = heads(block, count_at);
    let count = block[count_at];
    let size = head_size(block[0]);
    let (at, value) = match random.below(10) {
        0 | 1 => {
            let anywhere = random.below(SIZE);
            let at = random.one(&[anywhere, anywhere, 0, SUMMED - 1, SUMMED, SUMMED + 1, SUMMED + 2, SIZE - 1]);
            block[at] ^= 1 << random.below(8);
            return;
        }
        2 => {
            let other = block[0] ^ random.one(&[1, 2, 4, 8, 0x20]);
            (0, random.one(&[SHEET, CARD, MARKED_SHEET, MARKED_CARD, 0, other]))
        }
        3 => (count_at, random.one(&[count.wrapping_sub(1), count.wrapping_add(1), count ^ 64, count ^ 128, 0, 255])),
        4 if end < SUMMED => (random.one(&[end, end, SUMMED - 1, SUMMED - 1, (end + SUMMED) / 2]), 1),
        _ if heads.is_empty() => (count_at, 1),
        5 => {
            let at = random.one(&heads);
            let other_bit = block[at] ^ random.one(&[16, 32, 64, 128]);
            (at, if random.once_in(3) { other_bit } else { random.one(bad_heads) })
        }
        6 => {
            let at = random.one(&heads) + size - 1;
            (at, random.one(&[block[at].wrapping_sub(1), block[at].wrapping_add(1), 0, 31, 255]))
        }
        7 => (random.below(SUMMED), random.byte()),
        // The mark where there is one, else the length.
        8 => (random.one(&heads) + 1, random.one(&[0, 1, 2, count, count.wrapping_add(1), 33, 255])),
        _ => {
            let head = random.one(&heads);
            let first = (head + size).min(SUMMED - 1);
            (first, random.one(b"-0_ .\x00\xE4"))
        }
    };
    block[at] = value;
    block::store_sum(block);
}

/// The names of the sheet with one that is not allowed: a word of the grammar, a name that stands there already, one
/// that is empty or too long, one with a byte beside those of names.
pub fn bad_names(random: &mut Random, archive: &mut Archive) {
    let known = archive.name(random.below(archive.parameters.len())).to_vec();
    let name = match random.below(9) {
        0 => known,
        1 => Vec::new(),
        2 => vec![b'a'; block::LONGEST_NAME + 1],
        3..=5 => {
            let mut name = known;
            let at = random.below(name.len());
            name[at] = random.one(b"@[`{./: ^~-09");
            name
        }
        _ => random.one(&["and", "or", "not", "And", "nor"]).into(),
    };
    let place = random.below(archive.parameters.len());
    archive.parameters[place].name = name;
}

/// The sheet with one thing about bundles changed: who is whose bundle, who shares a name, what is a bundle, or the form.
/// Some of the changes are allowed.
pub fn bad_bundles(random: &mut Random, archive: &mut Archive) {
    let count = archive.parameters.len();
    let (one, other) = (random.below(count), random.below(count));
    let name = archive.name(other).to_vec();
    let changed = &mut archive.parameters[one];
    match random.below(8) {
        0 => changed.bundle = Some(random.one(&[one, count, count + 1, 31, 32, 254])),
        1 | 2 => changed.bundle = Some(other),
        3 | 4 => changed.name = name,
        5 => changed.kind = if changed.kind.is_some() { None } else { Some(random.one(&Kind::ALL)) },
        6 => changed.bundle = None,
        _ => archive.first = SHEET,
    }
}

/// Where the entries begin, and where the last one ends, as far as the block holds them.
fn heads(block: &[u8], count_at: usize) -> (Vec<usize>, usize) {
    let size = head_size(block[0]);
    let mut heads = Vec::new();
    let mut at = count_at + 1;
    for _ in 0..block[count_at] {
        if at + size > SUMMED {
            break;
        }
        heads.push(at);
        at += size + usize::from(block[at + size - 1]);
    }
    (heads, at)
}

/// How many bytes an entry has before its text.
pub fn head_size(first: u8) -> usize {
    if block::is_marked(first) { 3 } else { 2 }
}
