//! Dates, from a year alone to a second with its zone, and periods: as spans of seconds from 1970-01-01T00:00:00Z.

use crate::span::Span;

/// The seconds of a day.
const DAY: i64 = 86_400;

/// The farthest that a zone may be, in minutes.
const FARTHEST_ZONE: i64 = 14 * 60;

#[inline]
pub fn read(text: &[u8]) -> Option<Span> {
    match text.len() {
        4 => read_year(text),
        7 => read_month(text),
        _ => read_day(text),
    }
}

/// Two dates with a slash between them, of which one may be missing.
#[inline]
pub fn read_period(text: &[u8]) -> Option<Span> {
    let slash = text.iter().position(|&byte| byte == b'/')?;
    let (first, last) = (&text[..slash], &text[slash + 1..]);
    if first.is_empty() && last.is_empty() {
        return None;
    }
    let low = if first.is_empty() { i64::MIN } else { read(first)?.low };
    let high = if last.is_empty() { i64::MAX } else { read(last)?.high };
    (low < high).then_some(Span { low, high })
}

#[inline]
fn read_year(text: &[u8]) -> Option<Span> {
    let [a, b, c, d, ..] = shaped([text[0], text[1], text[2], text[3], b'0', b'0', b'0', b'0'], *b"00000000")?;
    let year = 100 * two(a, b) + two(c, d);
    (year > 0).then(|| Span { low: DAY * days(year, 1, 1), high: DAY * days(year + 1, 1, 1) })
}

#[inline]
fn read_month(text: &[u8]) -> Option<Span> {
    let bytes = [text[0], text[1], text[2], text[3], text[4], text[5], text[6], b'0'];
    let [a, b, c, d, _, e, f, _] = shaped(bytes, *b"0000-000")?;
    let (year, month) = (100 * two(a, b) + two(c, d), two(e, f));
    let low = DAY * start_of(year, month, 1)?;
    Some(Span { low, high: low + DAY * days_of_month(year, month) })
}

/// A day, or a second of it.
#[inline]
fn read_day(text: &[u8]) -> Option<Span> {
    let (first, rest) = text.split_first_chunk::<8>()?;
    let [a, b, c, d, _, e, f, _] = shaped(*first, *b"0000-00-")?;
    let (year, month) = (100 * two(a, b) + two(c, d), two(e, f));
    if let [high, low] = *rest {
        let (high, low) = (high.wrapping_sub(b'0'), low.wrapping_sub(b'0'));
        if high > 9 || low > 9 {
            return None;
        }
        let low = DAY * start_of(year, month, two(high, low))?;
        return Some(Span { low, high: low + DAY });
    }
    let (clock, rest) = rest.split_first_chunk::<8>()?;
    let [a, b, _, c, d, _, e, f] = shaped(*clock, *b"00T00:00")?;
    let day = start_of(year, month, two(a, b))?;
    let (hour, minute) = (two(c, d), two(e, f));
    let (second, zone) = read_second(rest)?;
    if hour > 23 || minute > 59 || second > 59 {
        return None;
    }
    let low = DAY * day + 3600 * hour + 60 * minute + second - 60 * zone;
    Some(Span { low, high: low + 1 })
}

/// A second, and the minutes by which its zone is ahead.
#[inline(always)]
fn read_second(text: &[u8]) -> Option<(i64, i64)> {
    match *text {
        [b':', a, b, b'Z'] => {
            let [a, b, ..] = shaped([a, b, b'0', b'0', b'0', b'0', b'0', b'0'], *b"00000000")?;
            Some((two(a, b), 0))
        }
        [b':', a, b, sign, c, d, b':', e, f] => {
            let [a, b, c, d, e, f, ..] = shaped([a, b, c, d, e, f, b'0', b'0'], *b"00000000")?;
            let (hours, minutes) = (two(c, d), two(e, f));
            let zone = 60 * hours + minutes;
            if minutes > 59 || zone > FARTHEST_ZONE || (sign != b'+' && sign != b'-') {
                return None;
            }
            Some((two(a, b), if sign == b'+' { zone } else { -zone }))
        }
        _ => None,
    }
}

/// The values of the digits where the pattern has "0", if the other bytes are the pattern's: eight bytes as one number.
/// A byte is the pattern's where they differ in nothing, and a digit where it differs from "0" by at most 9; more
/// carries into the byte's highest bit.
#[inline]
fn shaped(text: [u8; 8], pattern: [u8; 8]) -> Option<[u8; 8]> {
    let room = pattern.map(|byte| if byte == b'0' { 0x7F - 9 } else { 0x7F });
    let differences = u64::from_le_bytes(text) ^ u64::from_le_bytes(pattern);
    let carried = differences.wrapping_add(u64::from_le_bytes(room)) | differences;
    (carried & 0x8080_8080_8080_8080 == 0).then(|| differences.to_le_bytes())
}

#[inline]
fn two(high: u8, low: u8) -> i64 {
    10 * i64::from(high) + i64::from(low)
}

/// The days from 1970-01-01 to this one, if it is one of the calendar.
#[inline(always)]
fn start_of(year: i64, month: i64, day: i64) -> Option<i64> {
    let is_day = year > 0 && (1..=12).contains(&month) && day > 0 && day <= days_of_month(year, month);
    is_day.then(|| days(year, month, day))
}

#[inline]
fn days_of_month(year: i64, month: i64) -> i64 {
    if month == 2 {
        28 + i64::from(year % 4 == 0 && (year % 100 != 0 || year % 400 == 0))
    } else {
        30 + ((month + (month >> 3)) & 1)
    }
}

/// The days from 1970-01-01, by years that begin in March, so that a leap day is the last of its year.
#[inline]
fn days(year: i64, month: i64, day: i64) -> i64 {
    let (year, month) = if month <= 2 { (year - 1, month + 12) } else { (year, month) };
    365 * year + year / 4 - year / 100 + year / 400 + (153 * month - 457) / 5 + day - 719_469
}
