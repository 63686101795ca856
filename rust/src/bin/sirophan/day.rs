//! The day that a page is made.

use crate::kind::{self, Reader};
use crate::report::Failure;
use std::env;
use std::time::{SystemTime, UNIX_EPOCH};

const SECONDS_A_DAY: u64 = 86_400;
/// A day as it is written: 2026-11-17.
const WRITTEN: usize = 10;

/// The day that was given, or that of `SOURCE_DATE_EPOCH`, or else today, in UTC.
pub fn of(given: Option<&str>) -> Result<String, Failure> {
    if let Some(day) = given {
        return read(day).ok_or_else(|| Failure::Usage(format!("{day} is no day: one is written 2026-11-17.")));
    }
    let seconds = match env::var("SOURCE_DATE_EPOCH") {
        Ok(given) => given.parse().map_err(|_| {
            Failure::Usage(format!("SOURCE_DATE_EPOCH is {given}, and no number of seconds since 1970."))
        })?,
        Err(_) => SystemTime::now().duration_since(UNIX_EPOCH).map_or(0, |since| since.as_secs()),
    };
    Ok(by_number(seconds / SECONDS_A_DAY))
}

/// A day, if a text is one: the library says which days there are.
pub fn read(day: &str) -> Option<String> {
    (day.len() == WRITTEN && Reader::new(kind::DATE).reads(day.as_bytes())).then(|| day.into())
}

/// The day with a number, counted from the first of 1970. Years are counted from March, so that a leap day is a year's last.
fn by_number(number: u64) -> String {
    let days = number + 719_468;
    let (era, of_era) = (days / 146_097, days % 146_097);
    let year_of_era = (of_era - of_era / 1460 + of_era / 36_524 - of_era / 146_096) / 365;
    let of_year = of_era - (365 * year_of_era + year_of_era / 4 - year_of_era / 100);
    let from_march = (5 * of_year + 2) / 153;
    let day = of_year - (153 * from_march + 2) / 5 + 1;
    let month = if from_march < 10 { from_march + 3 } else { from_march - 9 };
    let year = era * 400 + year_of_era + u64::from(month <= 2);
    format!("{year:04}-{month:02}-{day:02}")
}

#[cfg(test)]
mod tests {
    use super::*;

    #[test]
    fn days() {
        for (number, day) in [
            (0, "1970-01-01"),
            (58, "1970-02-28"),
            (59, "1970-03-01"),
            (11_016, "2000-02-29"),
            (11_017, "2000-03-01"),
            (20_774, "2026-11-17"),
            (47_540, "2100-02-28"),
            (47_541, "2100-03-01"),
        ] {
            assert_eq!(by_number(number), day);
            assert_eq!(read(day).as_deref(), Some(day));
        }
        for text in ["2026-02-29", "2026-11", "17.11.2026", "", "2026-11-17T00:00:00Z"] {
            assert_eq!(read(text), None, "{text}");
        }
    }
}
