//! Periods.

use super::dates;
use crate::generate::random::Random;
use crate::period;

/// Two dates, either of which may be missing, with a slash between.
fn spell(first: &[u8], second: &[u8]) -> Vec<u8> {
    [first, b"/", second].concat()
}

/// The dates of a readable period; a missing one is empty.
fn dates_of(text: &[u8]) -> (&[u8], &[u8]) {
    let slash = text.iter().position(|&byte| byte == b'/').unwrap_or(text.len());
    (&text[..slash], text.get(slash + 1..).unwrap_or_default())
}

/// A period that can be read: with both dates, or with one of them.
pub fn readable(random: &mut Random) -> Vec<u8> {
    let date = dates::readable(random);
    match random.below(4) {
        0 => spell(&date, b""),
        1 => spell(b"", &date),
        _ => two_dates(random, &date),
    }
}

/// A period with both dates, one of them this one: the other lies near it or anywhere.
fn two_dates(random: &mut Random, date: &[u8]) -> Vec<u8> {
    for _ in 0..8 {
        let other = if random.once_in(2) { dates::near(random, date) } else { dates::readable(random) };
        let ordered = if random.once_in(2) { spell(date, &other) } else { spell(&other, date) };
        if period::read(&ordered).is_some() {
            return ordered;
        }
    }
    spell(date, date)
}

/// A period with one date drawn near the one of the given period, left out, or put in; or with both changed places.
pub fn near(random: &mut Random, text: &[u8]) -> Vec<u8> {
    let (first, second) = dates_of(text);
    match random.below(8) {
        0 => spell(b"", second),
        1 => spell(first, b""),
        2 => spell(second, first),
        3 => {
            let date = one_date(random, text);
            two_dates(random, &date)
        }
        4 | 5 => spell(&dates::near(random, first), second),
        _ => spell(first, &dates::near(random, second)),
    }
}

/// One of the dates of a readable period.
pub fn one_date(random: &mut Random, text: &[u8]) -> Vec<u8> {
    match dates_of(text) {
        (first, b"") => first.to_vec(),
        (b"", second) => second.to_vec(),
        (first, second) => random.one(&[first, second]).to_vec(),
    }
}

/// A period with a date at its limits, one that would be empty or nearly so, one with a slash too many or too few, or a
/// date by itself, as a filter has it.
pub fn on_the_edge(random: &mut Random) -> Vec<u8> {
    let (date, edge) = (dates::readable(random), dates::on_the_edge(random));
    match random.below(8) {
        0 => spell(&date, &edge),
        1 => spell(&edge, &date),
        2 => random.one(&["", "/", "//", "/ ", " /", "1974", "1974//", "//1974", "/1974/", "1974/1975/1976"]).into(),
        3 | 4 => {
            let other = dates::near(random, &date);
            spell(&date, &other)
        }
        5 => {
            let marks = ["1974/1974", "1975/1974", "1974-12-31T23:59:59Z/1974", "1975-01-01T00:00:00Z/1974"];
            random.one(&marks).into()
        }
        6 => date,
        _ => edge,
    }
}
