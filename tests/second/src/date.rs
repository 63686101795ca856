//! Dates: spans of whole seconds, counted from 1970-01-01T00:00:00Z and negative before it.

/// A date: its span from `start` up to but without `end`.
#[derive(Clone, Copy, Debug, PartialEq, Eq)]
pub struct Date {
    pub start: i64,
    pub end: i64,
}

/// The seconds of a day.
pub const DAY: i64 = 86_400;
/// The widest zone, in minutes, either way.
pub const WIDEST_ZONE: i64 = 14 * 60;

impl Date {
    /// Reads YYYY, YYYY-MM, YYYY-MM-DD, or YYYY-MM-DDThh:mm:ss with Z, +hh:mm or -hh:mm. A date with no zone is read as UTC.
    pub fn read(text: &[u8]) -> Option<Date> {
        let (date, time) = match text.iter().position(|&byte| byte == b'T') {
            Some(at) => (&text[..at], Some(&text[at + 1..])),
            None => (text, None),
        };
        let mut fields = date.split(|&byte| byte == b'-');
        let year = field(fields.next()?, 4, 1, 9999)?;
        let month = match fields.next() {
            Some(digits) => Some(field(digits, 2, 1, 12)?),
            None => None,
        };
        let day = match (month, fields.next()) {
            (Some(month), Some(digits)) => Some(field(digits, 2, 1, days_of_month(year, month))?),
            _ => None,
        };
        if fields.next().is_some() {
            return None;
        }
        match (month, day, time) {
            (None, None, None) => {
                let (start, end) = (midnight(year, 1, 1), midnight(year + 1, 1, 1));
                Some(Date { start, end })
            }
            (Some(month), None, None) => {
                let start = midnight(year, month, 1);
                let end = start + DAY * days_of_month(year, month);
                Some(Date { start, end })
            }
            (Some(month), Some(day), None) => {
                let start = midnight(year, month, day);
                Some(Date { start, end: start + DAY })
            }
            (Some(month), Some(day), Some(time)) => {
                let (clock, zone) = time.split_at_checked("hh:mm:ss".len())?;
                let start = midnight(year, month, day) + read_clock(clock)? - 60 * read_zone(zone)?;
                Some(Date { start, end: start + 1 })
            }
            _ => None,
        }
    }

    /// This span lies inside the other one.
    pub fn inside(self, other: Date) -> bool {
        other.start <= self.start && self.end <= other.end
    }

    /// The two spans share a second.
    pub fn overlaps(self, other: Date) -> bool {
        self.start < other.end && other.start < self.end
    }
}

/// Reads a number of exactly this many digits, within its limits.
fn field(digits: &[u8], length: usize, least: i64, most: i64) -> Option<i64> {
    if digits.len() != length || !digits.iter().all(u8::is_ascii_digit) {
        return None;
    }
    let value = digits.iter().fold(0, |value, digit| 10 * value + i64::from(digit - b'0'));
    (least <= value && value <= most).then_some(value)
}

/// Reads hh:mm:ss as seconds from midnight.
fn read_clock(text: &[u8]) -> Option<i64> {
    let [h1, h2, b':', m1, m2, b':', s1, s2] = *text else {
        return None;
    };
    let hours = field(&[h1, h2], 2, 0, 23)?;
    let minutes = field(&[m1, m2], 2, 0, 59)?;
    let seconds = field(&[s1, s2], 2, 0, 59)?;
    Some((hours * 60 + minutes) * 60 + seconds)
}

/// Reads Z, +hh:mm or -hh:mm as minutes east of UTC.
fn read_zone(text: &[u8]) -> Option<i64> {
    let (east, digits) = match *text {
        [b'Z'] => return Some(0),
        [b'+', h1, h2, b':', m1, m2] => (1, [h1, h2, m1, m2]),
        [b'-', h1, h2, b':', m1, m2] => (-1, [h1, h2, m1, m2]),
        _ => return None,
    };
    let hours = field(&digits[..2], 2, 0, 99)?;
    let minutes = field(&digits[2..], 2, 0, 59)?;
    let offset = hours * 60 + minutes;
    (offset <= WIDEST_ZONE).then_some(east * offset)
}

/// Whether the year has a 29th of February, by the Gregorian rule throughout.
pub fn is_leap(year: i64) -> bool {
    year % 4 == 0 && (year % 100 != 0 || year % 400 == 0)
}

/// How many days the month has.
pub fn days_of_month(year: i64, month: i64) -> i64 {
    match month {
        2 if is_leap(year) => 29,
        2 => 28,
        4 | 6 | 9 | 11 => 30,
        _ => 31,
    }
}

/// How many days lie from 0001-01-01 to the first day of this year.
fn days_before_year(year: i64) -> i64 {
    let full = year - 1;
    365 * full + full / 4 - full / 100 + full / 400
}

/// The second at which this day begins in UTC.
pub fn midnight(year: i64, month: i64, day: i64) -> i64 {
    let before_month: i64 = (1..month).map(|earlier| days_of_month(year, earlier)).sum();
    let days = days_before_year(year) + before_month + (day - 1);
    DAY * (days - days_before_year(1970))
}

#[cfg(test)]
mod tests {
    use super::*;

    fn date(text: &str) -> Date {
        Date::read(text.as_bytes()).unwrap_or_else(|| panic!("{text} is not readable"))
    }

    #[test]
    fn ends_of_the_calendar() {
        assert_eq!(date("0001-01-01").start, -62_135_596_800);
        assert_eq!(date("9999").end, 253_402_300_800);
        assert_eq!(date("9999-12").end, 253_402_300_800);
        assert_eq!(date("9999-12-31").end, 253_402_300_800);
        assert_eq!(date("1970").start, 0);
        assert_eq!(date("1969-12-31T23:59:59Z").start, -1);
        assert_eq!(date("0001-01-01T00:00:00+14:00").start, -62_135_596_800 - 50_400);
        assert_eq!(date("9999-12-31T23:59:59-14:00").end, 253_402_300_800 + 50_400);
    }

    /// The day's end is the next day's start all the way through, so that the calendar has no hole and no overlap.
    #[test]
    fn days_follow_each_other() {
        let mut second = -62_135_596_800;
        for year in 1..=9999 {
            assert_eq!(midnight(year, 1, 1), second);
            for month in 1..=12 {
                for day in 1..=days_of_month(year, month) {
                    assert_eq!(midnight(year, month, day), second);
                    second += DAY;
                }
            }
        }
        assert_eq!(second, 253_402_300_800);
    }

    #[test]
    fn readable() {
        for text in "0001 9999 1974-06 2000-02-29 2024-02-29 1600-02-29".split(' ') {
            date(text);
        }
        for zone in "Z +00:00 -00:59 +14:00 -14:00".split(' ') {
            date(&format!("1974-06-30T23:59:59{zone}"));
        }
    }

    #[test]
    fn unreadable() {
        let unreadable = |text: &str| assert_eq!(Date::read(text.as_bytes()), None, "{text}");
        for text in " 0000 974 19745 +974 1974- 1974-6 1974-00 1974-13 1974/06".split(' ') {
            unreadable(text);
        }
        for day in " 0 00 31 01-01 01T 01T00:00Z 01T00:00:00 1".split(' ') {
            unreadable(&format!("1974-06-{day}"));
        }
        for day in "1900-02-29 2023-02-29 2100-02-29 2024-02-30".split(' ') {
            unreadable(day);
        }
        for time in "24:00:00 00:60:00 00:00:60 00:00:00.0 00-00-00 0:00:00 00:00".split(' ') {
            unreadable(&format!("1974-06-01T{time}Z"));
        }
        for zone in " z ZZ +14:01 -14:01 +15:00 +00:60 +0000 +0:00 00:00".split(' ') {
            unreadable(&format!("1974-06-01T00:00:00{zone}"));
        }
        unreadable("1974-06-01t00:00:00Z");
        unreadable("1974-06-01 00:00:00Z");
        unreadable("1974T00:00:00Z");
        unreadable("1974-06T00:00:00Z");
        unreadable("1974 ");
        unreadable(" 1974");
    }

    #[test]
    fn zones() {
        let utc = date("1974-06-30T23:00:00Z");
        let east = date("1974-07-01T01:00:00+02:00");
        let west = date("1974-06-30T20:30:00-02:30");
        assert!(utc == east && utc == west);
        assert!(utc == date("1974-06-30T23:00:00+00:00") && utc == date("1974-06-30T23:00:00-00:00"));
    }

    #[test]
    fn ranges() {
        for (card, filter, holds) in [
            ("1974", "1974", true),
            ("1974-06", "1974", true),
            ("1974", "1974-06", false),
            ("1974-12-31T23:59:59Z", "1974", true),
            ("1974-12-31T23:59:59-01:00", "1974", false),
            ("1975-01-01T00:59:59+01:00", "1974", true),
            ("1975-01-01T01:00:00+01:00", "1974", false),
            ("1974-01-01T00:00:00Z", "1974-01", true),
            ("1974-01-01T00:00:00+00:01", "1974-01", false),
            ("1974-06-30T23:00:00Z", "1974-07-01T01:00:00+02:00", true),
        ] {
            assert_eq!(date(card).inside(date(filter)), holds, "{card} eq {filter}");
        }
    }
}
