//! Periods on cards: two dates with a slash between, either one missing but not both.

use crate::date::Date;

/// A missing first date lies before every date that can be written, a missing second one behind.
const BEFORE_ALL: i64 = i64::MIN;
const BEHIND_ALL: i64 = i64::MAX;

/// Reads a period as the span from the start of the first date to the end of the second. A span that would not end
/// after it starts is unreadable.
pub fn read(text: &[u8]) -> Option<Date> {
    let mut dates = text.split(|&byte| byte == b'/');
    let (first, second) = (dates.next()?, dates.next()?);
    if dates.next().is_some() || (first.is_empty() && second.is_empty()) {
        return None;
    }
    let start = if first.is_empty() { BEFORE_ALL } else { Date::read(first)?.start };
    let end = if second.is_empty() { BEHIND_ALL } else { Date::read(second)?.end };
    (start < end).then_some(Date { start, end })
}

#[cfg(test)]
mod tests {
    use super::*;

    fn period(text: &str) -> Date {
        read(text.as_bytes()).unwrap_or_else(|| panic!("{text} is not readable"))
    }

    fn date(text: &str) -> Date {
        Date::read(text.as_bytes()).unwrap_or_else(|| panic!("{text} is not readable"))
    }

    #[test]
    fn spans() {
        assert_eq!(period("1974/1974"), date("1974"));
        assert_eq!(period("1974-06/1974").start, date("1974-06").start);
        assert_eq!(period("1974-06/1974").end, date("1974").end);
        assert_eq!(period("1974-12-31T23:59:59Z/1974"), date("1974-12-31T23:59:59Z"));
        assert_eq!(period("1974/1975"), Date { start: date("1974").start, end: date("1975").end });
        assert_eq!(period("1974/").start, date("1974").start);
        assert_eq!(period("/1974").end, date("1974").end);
    }

    #[test]
    fn unreadable() {
        for text in
            " / // 1974 1980/1974 1975/1974 1974/1975/1976 1974// //1974 /1974/ 1974/x x/1974 1974-/ /19745".split(' ')
        {
            assert_eq!(read(text.as_bytes()), None, "{text}");
        }
        assert_eq!(read(b"1974/ "), None);
        assert_eq!(read(b" /1974"), None);
        assert_eq!(read(b"1974 / 1975"), None);
    }

    #[test]
    fn open_ends() {
        for filter in "0001 1974 9999 0001-01-01T00:00:00+14:00 9999-12-31T23:59:59-14:00".split(' ') {
            let filter = date(filter);
            for text in ["0001/", "/9999", "1974/", "/1974"] {
                assert!(!period(text).inside(filter), "{text} is open");
            }
            assert!(period("0001-01-01T00:00:00+14:00/").end > filter.end);
            assert!(period("/9999-12-31T23:59:59-14:00").start < filter.start);
            assert!(filter.inside(period("0001-01-01T00:00:00+14:00/")));
            assert!(filter.inside(period("/9999-12-31T23:59:59-14:00")));
        }
    }
}
