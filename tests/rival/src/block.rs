//! A block's check sum and its padding, many bytes at a time.

use second::block::{SIZE, SUMMED};

pub type Block = [u8; SIZE];

/// How many bytes are summed side by side.
const COLUMNS: usize = 32;

/// The sums of each column's bytes, and of these times the number of rows before them.
type Columns = ([u16; COLUMNS], [u16; COLUMNS]);

/// The sum of the first 508 bytes, each times its place from 1 on.
pub fn check_sum(block: &Block) -> u32 {
    let (mut sums, mut by_rows): Columns = Default::default();
    // Column by column, since the rows of a whole block are known: the compiler unrolls them, side by side.
    for column in 0..COLUMNS {
        for row in block.as_chunks::<COLUMNS>().0.iter().rev() {
            by_rows[column] += sums[column];
            sums[column] += u16::from(row[column]);
        }
    }
    let stored = block.iter().zip(1..).skip(SUMMED).map(|(byte, place)| place * u32::from(*byte));
    weighted_sum((sums, by_rows)) - stored.sum::<u32>()
}

pub fn has_sum(block: &Block) -> bool {
    check_sum(block) == stored_sum(block)
}

/// The same where all bytes from `end` on to the check sum are zero: only the rows before it are summed.
#[inline]
pub fn has_sum_before(block: &Block, end: usize) -> bool {
    if end > SIZE - COLUMNS {
        return has_sum(block);
    }
    let (mut sums, mut by_rows): Columns = Default::default();
    for row in block[..end.next_multiple_of(COLUMNS)].as_chunks::<COLUMNS>().0.iter().rev() {
        for column in 0..COLUMNS {
            by_rows[column] += sums[column];
            sums[column] += u16::from(row[column]);
        }
    }
    weighted_sum((sums, by_rows)) == stored_sum(block)
}

/// Whether the bytes from here on to the check sum are zero.
#[inline]
pub fn is_zero_from(block: &Block, at: usize) -> bool {
    let (words, rest) = block[at..SUMMED].as_chunks();
    let mut some = 0;
    for word in words {
        some |= u64::from_le_bytes(*word);
    }
    for byte in rest {
        some |= u64::from(*byte);
    }
    some == 0
}

fn stored_sum(block: &Block) -> u32 {
    u32::from_le_bytes([block[SUMMED], block[SUMMED + 1], block[SUMMED + 2], block[SUMMED + 3]])
}

/// Each byte times its place from 1 on. A row counts as often as there are rows before it, which adding up the columns
/// from the last row to the first does without a product; 16 rows of bytes have room in 16 bits.
#[inline(always)]
fn weighted_sum((sums, by_rows): Columns) -> u32 {
    let columns = sums.into_iter().zip(by_rows).zip(1..);
    columns.map(|((sum, by_row), place)| COLUMNS as u32 * u32::from(by_row) + place * u32::from(sum)).sum()
}
