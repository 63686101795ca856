//! Numbers: up to 8 digits, and up to 9 behind a point.

use crate::span::Span;

const MOST_DIGITS: usize = 8;
const MOST_DECIMALS: usize = 9;

/// Ten to so many.
const POWERS: [i64; MOST_DECIMALS + 1] =
    [1, 10, 100, 1_000, 10_000, 100_000, 1_000_000, 10_000_000, 100_000_000, 1_000_000_000];

#[inline]
pub fn read(text: &[u8]) -> Option<Span> {
    let mut digits = 0;
    let mut at = 0;
    while let Some(digit) = text.get(at).and_then(|&byte| digit(byte)) {
        if at == MOST_DIGITS {
            return None;
        }
        digits = 10 * digits + digit;
        at += 1;
    }
    if at == 0 {
        return None;
    }
    let mut decimals = 0;
    if at < text.len() {
        let behind = &text[at + 1..];
        if text[at] != b'.' || behind.is_empty() || behind.len() > MOST_DECIMALS {
            return None;
        }
        for &byte in behind {
            digits = 10 * digits + digit(byte)?;
        }
        decimals = behind.len();
    }
    let unit = POWERS[MOST_DECIMALS - decimals];
    Some(Span { low: (2 * digits - 1) * unit, high: (2 * digits + 1) * unit })
}

#[inline]
fn digit(byte: u8) -> Option<i64> {
    let digit = byte.wrapping_sub(b'0');
    (digit <= 9).then_some(i64::from(digit))
}
