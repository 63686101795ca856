//! Numbers.

use super::one_byte_changed;
use crate::generate::random::Random;
use crate::number::{Decimal, MOST_DECIMALS, MOST_WHOLE};

/// A number, most often a small one.
pub fn readable(random: &mut Random) -> Vec<u8> {
    let whole = match random.below(4) {
        0 => random.one(&[0, 1, 9, 10, 12, 99_999_999, 10_000_000]),
        1 => random.below(100_000_000),
        _ => random.below(30),
    };
    let decimals = match random.below(3) {
        0 => 0,
        1 => random.below(3),
        _ => random.below(MOST_DECIMALS + 1),
    };
    let mut text = whole.to_string();
    let zeros = random.below(MOST_WHOLE - text.len() + 1);
    if random.once_in(6) {
        text.insert_str(0, &"0".repeat(zeros));
    }
    if decimals > 0 {
        text.push('.');
        let digits = if random.once_in(2) { "0" } else { "0123456789" };
        for _ in 0..decimals {
            text.push(random.one(digits.as_bytes()).into());
        }
    }
    text.into_bytes()
}

/// The number with fewer decimals, rounded to either side.
fn coarser(random: &mut Random, digits: u64, decimals: usize) -> Vec<u8> {
    let dropped = random.below(decimals + 1);
    let unit = 10u128.pow(dropped as u32);
    let rounded = u128::from(digits) / unit + random.one(&[0, 0, 1]);
    spell_number(rounded, decimals - dropped).into_bytes()
}

/// The same value with other decimals or zeros, half a unit or a unit either way, or a little beside that.
pub fn near(random: &mut Random, text: &[u8]) -> Vec<u8> {
    let Some(Decimal { digits, decimals }) = Decimal::read(text) else {
        return one_byte_changed(random, text);
    };
    let mut decimals = decimals as usize;
    if random.once_in(4) {
        return coarser(random, digits, decimals);
    }
    let mut digits = i128::from(digits);
    // As many more decimals as there is room for make the unit smaller, so that the steps can be told apart.
    let more = random.below(MOST_DECIMALS - decimals + 1);
    let unit = 10i128.pow(more as u32);
    digits *= unit;
    decimals += more;
    digits += match random.below(8) {
        0 => unit,
        1 => -unit,
        2 => unit / 2,
        3 => -unit / 2,
        4 => unit / 2 + random.one(&[-1, 1]),
        5 => -unit / 2 + random.one(&[-1, 1]),
        6 => random.one(&[-1, 1]),
        _ => 0,
    };
    let mut text = spell_number(digits.unsigned_abs(), decimals);
    if random.once_in(3) {
        text = without_last_zeros(&text);
    }
    if random.once_in(6) {
        text.insert(0, '0');
    }
    if random.once_in(12) {
        return one_byte_changed(random, text.as_bytes());
    }
    text.into_bytes()
}

fn spell_number(digits: u128, decimals: usize) -> String {
    let mut text = format!("{digits:0>width$}", width = decimals + 1);
    if decimals > 0 {
        text.insert(text.len() - decimals, '.');
    }
    text
}

fn without_last_zeros(text: &str) -> String {
    match text.contains('.') {
        true => text.trim_end_matches('0').trim_end_matches('.').into(),
        false => text.into(),
    }
}

/// Digits, and perhaps a point and digits, around the most that are allowed.
pub fn on_the_edge(random: &mut Random) -> Vec<u8> {
    let digits = |count: usize| "1234567890".repeat(2)[..count].to_string();
    let whole = digits(random.one(&[0, 1, MOST_WHOLE - 1, MOST_WHOLE, MOST_WHOLE + 1]));
    let behind = digits(random.one(&[0, 1, MOST_DECIMALS - 1, MOST_DECIMALS, MOST_DECIMALS + 1]));
    let point = random.one(&["", ".", ".", "..", ",", "e", "-"]);
    let sign = random.one(&["", "", "", "", "-", "+", " "]);
    match random.below(3) {
        0 => format!("{sign}{whole}").into_bytes(),
        _ => format!("{sign}{whole}{point}{behind}").into_bytes(),
    }
}
