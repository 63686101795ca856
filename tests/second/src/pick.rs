//! What the program `pick` prints.

use crate::block;
use crate::operations::{self, MOST_CARDS};
use std::fmt::Write;

/// What `pick` prints for the bytes of sheet.bin, filter.txt and cards.bin.
pub fn output(sheet: &[u8], filter: &[u8], cards: &[u8]) -> String {
    let filter = filter.strip_suffix(b"\n").unwrap_or(filter);
    // An empty file is one run of 0 cards, so that a refused sheet or filter is told.
    let mut runs: Vec<&[u8]> = cards.chunks(MOST_CARDS * block::SIZE).collect();
    if runs.is_empty() {
        runs.push(&[]);
    }
    let mut printed = String::new();
    let mut matching = 0;
    for (run, first_card) in runs.into_iter().zip((0..).step_by(MOST_CARDS)) {
        let mut list = [0; MOST_CARDS];
        match operations::select(sheet, filter, run, &mut list) {
            Ok(count) => {
                for record in &list[..count] {
                    writeln!(printed, "{record}").unwrap();
                }
                matching += count;
            }
            Err(refusal) => {
                // Of the refusals that a run of cards adds, 21 to 23 count the card over the whole file.
                let place = match refusal.number {
                    21..=23 => first_card + refusal.place,
                    _ => refusal.place,
                };
                writeln!(printed, "refused {} at {place}", refusal.number).unwrap();
                return printed;
            }
        }
    }
    writeln!(printed, "{matching} of {}", cards.len() / block::SIZE).unwrap();
    printed
}
