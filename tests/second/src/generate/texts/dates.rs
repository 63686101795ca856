//! Dates.

use super::one_byte_changed;
use crate::date::{self, Date};
use crate::generate::random::Random;

/// Dates at the ends of the calendar. By their zone the last two lie outside every year that can be written.
const CALENDAR_ENDS: [&str; 6] = [
    "0001",
    "9999",
    "0001-01-01T00:00:00Z",
    "9999-12-31T23:59:59Z",
    "0001-01-01T00:00:00+00:01",
    "9999-12-31T23:59:59-00:01",
];

/// How far a date is written out.
#[derive(Clone, Copy, PartialEq, Eq)]
enum Precision {
    Year,
    Month,
    Day,
    Second,
}

const PRECISIONS: [Precision; 4] = [Precision::Year, Precision::Month, Precision::Day, Precision::Second];

/// The mean length of a year in seconds.
const MEAN_YEAR: i64 = date::DAY * 146_097 / 400;

/// The parts of a date as written, whether they are right or not.
struct Written {
    year: i64,
    month: i64,
    day: i64,
    clock: [i64; 3],
    zone: String,
}

impl Written {
    fn spell(&self, precision: Precision) -> Vec<u8> {
        let Written { year, month, day, clock: [hour, minute, second], zone } = self;
        let text = match precision {
            Precision::Year => format!("{year:04}"),
            Precision::Month => format!("{year:04}-{month:02}"),
            Precision::Day => format!("{year:04}-{month:02}-{day:02}"),
            Precision::Second => {
                format!("{year:04}-{month:02}-{day:02}T{hour:02}:{minute:02}:{second:02}{zone}")
            }
        };
        text.into_bytes()
    }

    /// The second as it is written in a zone, if its year can be written.
    fn of(second: i64, zone: i64, random: &mut Random) -> Option<Written> {
        let local = second + 60 * zone;
        if local < date::midnight(1, 1, 1) || date::midnight(10_000, 1, 1) <= local {
            return None;
        }
        let first_of_year = |year| date::midnight(year, 1, 1);
        // The mean year is off by less than one, so the search begins one year early.
        let mut year = 1.max(1969 + local.div_euclid(MEAN_YEAR));
        while first_of_year(year + 1) <= local {
            year += 1;
        }
        let mut day = 1 + (local - first_of_year(year)) / date::DAY;
        let mut month = 1;
        while day > date::days_of_month(year, month) {
            day -= date::days_of_month(year, month);
            month += 1;
        }
        let clock = local.rem_euclid(date::DAY);
        Some(Written {
            year,
            month,
            day,
            clock: [clock / 3600, clock / 60 % 60, clock % 60],
            zone: spell_zone(zone, random),
        })
    }
}

/// A zone as written; UTC has three spellings.
fn spell_zone(zone: i64, random: &mut Random) -> String {
    let sign = match zone.signum() {
        0 => random.one(&["Z", "Z", "+", "-"]),
        1 => "+",
        _ => "-",
    };
    if sign == "Z" {
        return "Z".into();
    }
    let minutes = zone.abs();
    format!("{sign}{:02}:{:02}", minutes / 60, minutes % 60)
}

/// A zone in minutes, often UTC or one of the widest.
fn zone(random: &mut Random) -> i64 {
    match random.below(3) {
        0 => 0,
        1 => random.one(&[date::WIDEST_ZONE, date::WIDEST_ZONE - 1, 60, 30, 1]) * random.one(&[1, -1]),
        _ => random.between(-date::WIDEST_ZONE, date::WIDEST_ZONE),
    }
}

/// A date that can be read, often at the end of a month, a year, a leap year's February or the calendar.
fn written(random: &mut Random) -> Written {
    let year = match random.below(3) {
        0 => {
            random.one(&[1, 4, 100, 400, 1600, 1700, 1800, 1900, 1969, 1970, 1972, 2000, 2023, 2024, 4000, 9996, 9999])
        }
        1 => random.between(1, 9999),
        _ => random.between(1960, 2030),
    };
    let month = match random.below(3) {
        0 => random.one(&[1, 2, 2, 3, 12]),
        _ => random.between(1, 12),
    };
    let last = date::days_of_month(year, month);
    let day = match random.below(3) {
        0 => random.between(1, last),
        1 => 1,
        _ => last,
    };
    let clock = match random.below(3) {
        0 => [0, 0, 0],
        1 => [23, 59, 59],
        _ => [random.between(0, 23), random.between(0, 59), random.between(0, 59)],
    };
    let zone = zone(random);
    Written { year, month, day, clock, zone: spell_zone(zone, random) }
}

/// A date in any precision.
pub fn readable(random: &mut Random) -> Vec<u8> {
    if random.once_in(12) {
        return random.one(&CALENDAR_ENDS).into();
    }
    let precision = random.one(&PRECISIONS);
    written(random).spell(precision)
}

/// A date whose span begins at, just before or just behind an end of the given one, in any precision and zone.
pub fn near(random: &mut Random, text: &[u8]) -> Vec<u8> {
    let Some(given) = Date::read(text) else {
        return one_byte_changed(random, text);
    };
    let second = match random.below(4) {
        0 => random.between(given.start, given.end - 1),
        1 => given.end + random.one(&[-1, 0, 0, 1]),
        _ => given.start + random.one(&[-date::DAY, -1, 0, 0, 0, 1, date::DAY]),
    };
    let precision = match random.below(3) {
        0 => precision_of(text),
        _ => random.one(&PRECISIONS),
    };
    // Without a written zone the date is the one in UTC.
    let zone = if precision == Precision::Second { zone(random) } else { 0 };
    match Written::of(second, zone, random) {
        Some(written) if random.once_in(12) => one_byte_changed(random, &written.spell(precision)),
        Some(written) => written.spell(precision),
        None => text.to_vec(),
    }
}

/// How far a readable text is written out.
fn precision_of(text: &[u8]) -> Precision {
    match text.len() {
        4 => Precision::Year,
        7 => Precision::Month,
        10 => Precision::Day,
        _ => Precision::Second,
    }
}

/// A date with one part at a limit or one past it, with another byte between two parts, or with one behind them.
pub fn on_the_edge(random: &mut Random) -> Vec<u8> {
    let mut written = written(random);
    let mut precision = Precision::Second;
    match random.below(9) {
        0 => {
            written.year = random.one(&[0, 1, 9999, 10_000, 999]);
            precision = random.one(&PRECISIONS);
        }
        1 => {
            written.month = random.one(&[0, 1, 12, 13, 20]);
            precision = Precision::Month;
        }
        2 => {
            let last = date::days_of_month(written.year, written.month);
            written.day = random.one(&[0, 1, last, last + 1, last + 2]);
            precision = random.one(&[Precision::Day, Precision::Second]);
        }
        3 => {
            written.year = random.one(&[1600, 1700, 1800, 1900, 2000, 2100, 2200, 2023, 2024, 3200, 4000]);
            (written.month, written.day) = (2, 29);
            precision = random.one(&[Precision::Day, Precision::Second]);
        }
        4 => written.clock[0] = random.one(&[23, 24, 29, 30]),
        5 => written.clock[1] = random.one(&[59, 60, 61]),
        6 => written.clock[2] = random.one(&[59, 60, 61]),
        7 => {
            let zones = ["+14:00", "-14:00", "+14:01", "-14:01", "+13:59", "-13:59", "+13:60", "+00:60", "+15:00"];
            written.zone = random.one(&zones).into();
        }
        _ => {
            let zones =
                ["", "z", "ZZ", "+", "+0", "+00", "+0000", "+00:0", "+00:000", "00:00", ".5Z", "+24:00", "-99:00"];
            written.zone = random.one(&zones).into();
        }
    }
    let mut text = written.spell(precision);
    match random.below(6) {
        0 | 1 => other_separator(random, &mut text),
        2 => text.push(random.one(b"-:TZ0 ")),
        _ => {}
    }
    text
}

/// Exchanges one of the bytes that are not digits for another such byte, or for the same letter in the other case.
fn other_separator(random: &mut Random, text: &mut [u8]) {
    let is_separator = |&at: &usize| !text[at].is_ascii_digit();
    let separators: Vec<usize> = (0..text.len()).filter(is_separator).collect();
    if separators.is_empty() {
        return;
    }
    let letters: Vec<usize> = separators.iter().copied().filter(|&at| text[at].is_ascii_alphabetic()).collect();
    match letters[..] {
        [letter, ..] if random.once_in(2) => text[letter] = random.one(&[text[letter] ^ 0x20, b' ', b'-']),
        _ => text[random.one(&separators)] = random.one(b"TtZz-+: ./_"),
    }
}
