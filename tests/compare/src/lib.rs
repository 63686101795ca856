//! The proved library, by its Rust interface, in the terms of the second implementation.

use second::operations::{Refusal, Tally};

pub fn refusal(refusal: sirophan::Refusal) -> Refusal {
    let sirophan::Refusal { number, place } = refusal;
    Refusal { number, place }
}

/// A report, over rows of the interface's own that begin as these do.
pub fn report(sheet: &[u8], filter: &[u8], cards: &[u8], rows: &mut [Tally]) -> Result<(usize, usize), Refusal> {
    let theirs = |row: &Tally| sirophan::Tally { cards: row.cards, values: row.values };
    let mut tallies: Vec<sirophan::Tally> = rows.iter().map(theirs).collect();
    let reported = sirophan::report(sheet, filter, cards, &mut tallies);
    for (row, sirophan::Tally { cards, values }) in rows.iter_mut().zip(tallies) {
        *row = Tally { cards, values };
    }
    reported.map(|counts| (counts.yes, counts.no)).map_err(refusal)
}
