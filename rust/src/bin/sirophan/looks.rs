//! What a value looks like to a person who reads it, whatever the kind of its field. These are rules of thumb for warnings:
//! what can be read as a kind says the library alone.

use crate::spoken;

/// How a value is spelled that looks like one of a kind.
#[derive(Clone, Copy, Debug, PartialEq, Eq)]
pub enum Spelling {
    /// As the library reads it.
    Readable,
    /// In another way, which a person understands.
    Other,
}

use Spelling::{Other, Readable};

/// Bare years that a person takes for years, and years beside a month or another year.
const BARE_YEARS: std::ops::RangeInclusive<u32> = 1700..=2099;
pub const YEARS: std::ops::RangeInclusive<u32> = 1500..=2199;
/// The years of days that are eight digits.
const DAY_YEARS: std::ops::RangeInclusive<u32> = 1800..=2099;

/// What a value looks like.
#[derive(Clone, Copy, Debug, Default, PartialEq, Eq)]
#[expect(clippy::struct_excessive_bools, reason = "a value can look like several of these at once")]
pub struct Look {
    pub date: Option<Spelling>,
    pub period: Option<Spelling>,
    pub number: Option<Spelling>,
    /// It begins as an address does.
    pub address: bool,
    /// It is digits alone: a likely year, which only the other values tell from a code.
    pub year: bool,
    /// It is digits alone, and neither a likely year nor a day; and they are many or begin with a zero, as those of telephones
    /// and records do.
    pub digits: bool,
    pub label: bool,
}

impl Look {
    /// A look like nothing.
    pub const NONE: Look =
        Look { date: None, period: None, number: None, address: false, year: false, digits: false, label: false };

    fn date(spelling: Spelling) -> Look {
        Look { date: Some(spelling), ..Look::NONE }
    }

    fn period(spelling: Spelling) -> Look {
        Look { period: Some(spelling), ..Look::NONE }
    }

    /// Whether it is a number that no code is spelled like: with a sign, a comma, thousands or a part below one.
    pub fn certain_number(self, value: &[u8]) -> Option<Spelling> {
        let certain = self.number == Some(Other) || value.starts_with(b"0.");
        self.number.filter(|_| certain && self.date.is_none())
    }
}

/// What a value looks like. Most values look like nothing, which is told by few of their bytes.
pub fn look(value: &[u8]) -> Look {
    match value.first() {
        Some(b'0'..=b'9') => look_of_digits(value),
        Some(b'/') if iso_period(value) => Look::period(Readable),
        Some(b'+' | b'-') => signed(value),
        Some(byte) if byte.is_ascii_alphabetic() => look_of_words(value),
        Some(b' ' | b'"' | b'\'' | b'[' | b'(' | b'~' | b'<' | b'>' | b'*' | 0x80..) => look_of_others(value),
        _ => Look::NONE,
    }
}

/// A value that begins with a digit.
fn look_of_digits(value: &[u8]) -> Look {
    let digits = value.iter().take_while(|byte| byte.is_ascii_digit()).count();
    if digits == value.len() {
        return plain_digits(value);
    }
    if let Some(spelling) = iso_date(value) {
        return Look::date(spelling);
    }
    if iso_period(value) {
        return Look::period(Readable);
    }
    let number = number(value);
    if !may_be_spoken(value, true) {
        return Look { number, ..Look::NONE };
    }
    Look { number, ..spoken_look(value) }
}

/// Digits alone: a day where they are eight and can be one, else perhaps a year, and perhaps a number.
fn plain_digits(value: &[u8]) -> Look {
    let number = (value.len() <= 8).then_some(Readable);
    if value.len() == 8 && DAY_YEARS.contains(&read(&value[..4])) && is_day(&value[..4], &value[4..6], &value[6..]) {
        return Look { number, ..Look::date(Other) };
    }
    let year = value.len() == 4 && BARE_YEARS.contains(&read(value));
    let label = value.len() > 5 || value[0] == b'0';
    Look { date: year.then_some(Readable), number, year, digits: !year, label, ..Look::NONE }
}

/// A value with a sign before it.
fn signed(value: &[u8]) -> Look {
    let spoken = if may_be_spoken(value, false) { spoken_look(value) } else { Look::NONE };
    Look { number: number(value), ..spoken }
}

/// A value that begins with a letter of ASCII: only certain words begin a date.
fn look_of_words(value: &[u8]) -> Look {
    let length = value.iter().take_while(|byte| byte.is_ascii_alphabetic()).count();
    if spoken::begins_date(&value[..length]) && may_be_spoken(value, false) {
        return spoken_look(value);
    }
    Look { address: value[length..].starts_with(b"://"), ..Look::NONE }
}

/// A value that begins with another sign: spaces and quotes around it are left out.
fn look_of_others(value: &[u8]) -> Look {
    let Ok(text) = str::from_utf8(value) else { return Look::NONE };
    let bare = text.trim_matches(|c: char| c.is_whitespace() || "\"'\u{201C}\u{201D}\u{201E}".contains(c));
    if bare.len() < text.len() {
        let seen = look(bare.as_bytes());
        let other = |spelling: Option<Spelling>| spelling.map(|_| Other);
        return Look { date: other(seen.date), period: other(seen.period), number: other(seen.number), ..seen };
    }
    let minus = text.strip_prefix('\u{2212}').and_then(|rest| number(rest.as_bytes()));
    let spoken = if may_be_spoken(value, false) { spoken_look(value) } else { Look::NONE };
    Look { number: minus.map(|_| Other), ..spoken }
}

/// Whether a value may be a date or a period in words or in another order of digits: it is short, and has four digits that
/// may be a year, or two at its end.
fn may_be_spoken(value: &[u8], by_groups: bool) -> bool {
    let (mut run, mut groups, mut year) = (0, 0, false);
    for (at, byte) in value.iter().enumerate() {
        if byte.is_ascii_digit() {
            groups += usize::from(run == 0);
            run += 1;
            year |=
                run == 4 && matches!(value[at - 3], b'1' | b'2') && !value.get(at + 1).is_some_and(u8::is_ascii_digit);
        } else {
            run = 0;
        }
    }
    let short_year = run == 2 && (value.len() <= spoken::SHORT || by_groups && matches!(groups, 2 | 3));
    value.len() <= spoken::LONGEST && (year || short_year)
}

/// What a value says in words or in another order of digits.
fn spoken_look(value: &[u8]) -> Look {
    let Ok(text) = str::from_utf8(value) else { return Look::NONE };
    let tokens = spoken::tokens(text);
    if spoken::is_date(&tokens) {
        return Look::date(Other);
    }
    if spoken::is_period(&tokens) { Look::period(Other) } else { Look::NONE }
}

/// A date as the library has it, in a year that a person takes for one; or one of its spellings with a time that lacks
/// its seconds or its zone.
fn iso_date(value: &[u8]) -> Option<Spelling> {
    let digits = |range: std::ops::Range<usize>| value.get(range).filter(|part| part.iter().all(u8::is_ascii_digit));
    let year = digits(0..4).filter(|year| YEARS.contains(&read(year)))?;
    let month = digits(5..7).filter(|month| value[4] == b'-' && (1..=12).contains(&read(month)))?;
    if value.len() == 7 {
        return Some(Readable);
    }
    let day = digits(8..10).filter(|day| value[7] == b'-' && is_day(year, month, day))?;
    match (value.len(), value.get(10)) {
        (10, _) => Some(Readable),
        (_, Some(b'T')) if has_time_and_zone(&value[11..]) => Some(Readable),
        (_, Some(b'T' | b't' | b' ')) if value.get(11).is_some_and(u8::is_ascii_digit) && day.len() == 2 => Some(Other),
        _ => None,
    }
}

/// Whether a time has seconds and a zone, as the library reads them.
fn has_time_and_zone(time: &[u8]) -> bool {
    let two = |at: usize, most: u32| {
        time.get(at..at + 2).is_some_and(|part| part.iter().all(u8::is_ascii_digit) && read(part) <= most)
    };
    let colons = |places: &[usize]| places.iter().all(|&at| time.get(at) == Some(&b':'));
    let clock = two(0, 23) && two(3, 59) && two(6, 59) && colons(&[2, 5]);
    let zone = match time.get(8) {
        Some(b'Z') => time.len() == 9,
        Some(b'+' | b'-') => {
            time.len() == 14 && colons(&[11]) && (two(9, 13) && two(12, 59) || time[9..].starts_with(b"14:00"))
        }
        _ => false,
    };
    clock && zone
}

/// Two dates with a slash between, of which one may be missing.
fn iso_period(value: &[u8]) -> bool {
    let Some(slash) = value.iter().position(|&byte| byte == b'/') else { return false };
    let (first, second) = (&value[..slash], &value[slash + 1..]);
    let is_end = |end: &[u8]| end.is_empty() || is_year(end) || iso_date(end) == Some(Readable);
    first.len() + second.len() > 0 && is_end(first) && is_end(second)
}

fn is_year(value: &[u8]) -> bool {
    value.len() == 4 && value.iter().all(u8::is_ascii_digit) && YEARS.contains(&read(value))
}

/// The number that digits spell.
fn read(digits: &[u8]) -> u32 {
    digits.iter().fold(0, |number, digit| number * 10 + u32::from(digit - b'0'))
}

/// Whether a year has a day.
fn is_day(year: &[u8], month: &[u8], day: &[u8]) -> bool {
    let (year, month, day) = (read(year), read(month), read(day));
    let leap = year.is_multiple_of(4) && (!year.is_multiple_of(100) || year.is_multiple_of(400));
    let days = match month {
        2 => 28 + u32::from(leap),
        4 | 6 | 9 | 11 => 30,
        1..=12 => 31,
        _ => 0,
    };
    (1..=days).contains(&day)
}

/// How a number is spelled: digits and perhaps a point, as the library reads them; with a sign, a comma or thousands
/// apart, as people write them. So many digits before the point as the library takes.
fn number(value: &[u8]) -> Option<Spelling> {
    let before = value.iter().take_while(|byte| byte.is_ascii_digit()).count();
    let behind = value[before..].iter().skip(1).take_while(|byte| byte.is_ascii_digit()).count();
    // This is what nearly all numbers are, and what nearly all others are not.
    if before + 1 + behind == value.len() && (1..=8).contains(&before) && (1..=9).contains(&behind) {
        return match value[before] {
            b'.' => Some(Readable),
            b',' => Some(Other),
            b'\'' if before <= 3 && behind == 3 => Some(Other),
            b' ' if before <= 2 && behind == 3 => Some(Other),
            _ => None,
        };
    }
    if !value.iter().all(|byte| byte.is_ascii_digit() || b"+-.,' ".contains(byte)) {
        return None;
    }
    let (signed, body) = match value {
        [b'+' | b'-', body @ ..] => (true, body),
        body => (false, body),
    };
    let groups: Vec<&[u8]> = body.split(|byte| matches!(byte, b'.' | b',' | b' ' | b'\'')).collect();
    let all_digits = |group: &&[u8]| !group.is_empty() && group.iter().all(u8::is_ascii_digit);
    if groups.len() > 4 || !groups.iter().all(all_digits) || groups[0].len() > 8 {
        return None;
    }
    let signs: Vec<u8> = body.iter().copied().filter(|byte| !byte.is_ascii_digit()).collect();
    let spelling = match (&signs[..], &groups[..]) {
        ([], _) => Readable,
        ([b'.'], [_, part]) if part.len() <= 9 => Readable,
        ([b','], [_, part]) if part.len() <= 9 => Other,
        (signs, [first, rest @ ..]) if first.len() <= 3 && are_thousands(signs, rest) => Other,
        _ => return None,
    };
    // A long number behind a plus is one for a telephone.
    let telephone = value.starts_with(b"+") && groups[0].len() > 5;
    (!telephone).then_some(if signed { Other } else { spelling })
}

/// Groups of three digits behind the same sign, and perhaps a part behind another one.
fn are_thousands(signs: &[u8], groups: &[&[u8]]) -> bool {
    let ([first, .., last], [thousands @ .., part]) = (signs, groups) else { return false };
    let same = signs[..signs.len() - 1].iter().all(|sign| sign == first) && *first != b' ';
    same && thousands.iter().all(|group| group.len() == 3) && (last != first && last != &b' ' || part.len() == 3)
}

#[cfg(test)]
mod tests {
    use super::*;
    use crate::kind::{self, Reader};

    /// What a value looks like, in a word.
    fn word(value: &str) -> &'static str {
        let look = look(value.as_bytes());
        let looks = [("date", look.date), ("period", look.period), ("number", look.number)];
        let found = looks.into_iter().find_map(|(kind, spelling)| spelling.map(|spelling| (kind, spelling)));
        match found {
            Some(("date", Readable)) => "date",
            Some(("date", Other)) => "spoken date",
            Some(("period", Readable)) => "period",
            Some(("period", Other)) => "spoken period",
            Some(("number", Readable)) => "number",
            Some(_) => "spoken number",
            None if look.address && value.contains('|') => "token",
            None => "nothing",
        }
    }

    /// Values that a clerk types.
    #[test]
    #[expect(clippy::too_many_lines, reason = "it is one table")]
    fn looks_of_values() {
        let mut wrong = Vec::new();
        for (look, values) in [
            ("date", &["1973", "1973-04", "1973-04-03", "1973-04-03T10:30:00Z", "1973-04-03T10:30:00+02:00"][..]),
            (
                "spoken date",
                &[
                    "4.3.1973",
                    "04.03.1973",
                    "4. 3. 1973",
                    "04/03/1973",
                    "4/3/73",
                    "4.3.73",
                    "04-03-1973",
                    "3-Mar-1973",
                    "3-Mar-73",
                    "1973/03/04",
                    "1973.03.04",
                    "1973-3-4",
                    "1973-00-00",
                    "1973-00",
                    "00.03.1973",
                    "Mar-73",
                    "73-10-04",
                    "4 Mar 1973, 10 am",
                    "4.3.1973 10 Uhr",
                    "Spring 1973",
                    "1973/10",
                    "3/1973",
                    "12 3 1973",
                    "1973 03 04",
                    "3Mar1973",
                    "03MAR1973",
                    "geb. 4.3.1973",
                    "* 4.3.1973",
                    "\u{2020} 1973",
                    "d. 1973",
                    "3 de marzo de 1973",
                    "3 maart 1973",
                    "1973-02-30",
                    "19730304",
                    "3 March 1973",
                    "3rd March 1973",
                    "3rd of March 1973",
                    "March 3, 1973",
                    "Mar 3 1973",
                    "march 1973",
                    "Tuesday, 3 March 1973",
                    "3. März 1973",
                    "3. Mrz 1973",
                    "3 mars 1973",
                    "1er janvier 1973",
                    "le 3 août 1973",
                    "3. III. 1973",
                    "1973-04-03T10:30",
                    "1973-04-03 10:30:00",
                    "4.3.1973 10:30",
                    "04/03/1973 10:30 AM",
                    "ca. 1973",
                    "circa 1973",
                    "1973?",
                    "[1973]",
                    "~1973",
                    "um 1973",
                    "before 1973",
                    "1970s",
                    "1970er",
                    "03/1973",
                    "12.1973",
                    " 1973-04",
                    "\"1973-04\"",
                    "1973\u{2013}04\u{2013}03",
                    "4.\u{A0}3.\u{A0}1973",
                    "1973 March 3",
                ],
            ),
            ("period", &["1973/1975", "1973/", "/1975", "1973-04/1975", "1973-04-03/1973-04-05"]),
            (
                "spoken period",
                &[
                    "1973-1975",
                    "1973 - 1975",
                    "1973\u{2013}1975",
                    "1973 \u{2013} 1975",
                    "1973 to 1975",
                    "1973 bis 1975",
                    "von 1973 bis 1975",
                    "from 1973 to 1975",
                    "from 1973",
                    "since 1973",
                    "seit 1973",
                    "until 1975",
                    "bis 1975",
                    "1973-",
                    "1973 -",
                    "-1975",
                    "1973-75",
                    "1.1.-31.12.1973",
                    "1.-5. März 1973",
                    "Jan-Mar 1973",
                    "01/1973-03/1974",
                    "1973 or 1974",
                    "1973/75",
                    "4.3.1973 - 5.6.1974",
                    "4.3.1973-5.6.1974",
                    "1973-04-03 - 1974-05-06",
                    "March 1973 to May 1974",
                    "1973 - present",
                    "1973-?",
                    "depuis 1973",
                    "du 3 mars 1973 au 5 mai 1974",
                    "de 1973 à 1975",
                ],
            ),
            ("number", &["12", "250", "12.0", "0.75", "96.5", "1234.5", "32485007", "4019", "291", "1200"]),
            (
                "spoken number",
                &["12,5", "1,234", "1.234,5", "1,234.5", "1'234", "-3", "+4", "-3.5", "\u{2212}3", "12 345", " 12"],
            ),
            ("token", &["http://loinc.org|1234-5", "https://x|y"]),
            (
                "nothing",
                &[
                    "",
                    "unknown",
                    "1234-5",
                    "1975-2",
                    "1988-5",
                    "10834-0",
                    "F20.0",
                    "V58.1",
                    "E950",
                    "4A",
                    "A4",
                    "Ward 4",
                    "Ward book 1973",
                    "May",
                    "Mai",
                    "March",
                    "June Smith",
                    "Augustine",
                    "May 12",
                    "March-12",
                    "Ward 73",
                    "Station 4 1973",
                    "14/1974/3 A",
                    "1974/123",
                    "d 1",
                    "b",
                    "May Jones 1973 file",
                    "12 Elm Street",
                    "12 Elm Street 1973",
                    "555-1234",
                    "030/1234567",
                    "+49 30 1234567",
                    "+4930123456",
                    "123 456",
                    "030 123 456",
                    "Patient/17",
                    "1974/0123",
                    "13/1974",
                    "1.2.3",
                    "1.2.3.4",
                    "192.168.1.10",
                    "10:30",
                    "123456789",
                    "4711-12",
                    "4711-1234",
                    "31.31.1973",
                    "1973-13",
                    "A 1973",
                    "1973 A",
                    "\u{E4}",
                    "x|1973-04",
                    "3/4",
                    "12-34",
                    "291.0, 303.9",
                    "Station 4, 1973",
                    "vol. 3, 1973",
                    "i",
                    "x",
                    "-",
                    "/",
                ],
            ),
        ] {
            wrong.extend(values.iter().filter(|value| word(value) != look).map(|value| (*value, word(value), look)));
        }
        assert_eq!(wrong, []);
    }

    /// What is taken for readable the library reads, and what is said to be spelled otherwise it does not.
    #[test]
    fn readable_is_what_the_library_reads() {
        let reader = |word: &str| Reader::new(kind::by_word(word).unwrap().number);
        let (dates, periods, numbers) = (reader("date"), reader("period"), reader("number"));
        let parts = [
            "1973",
            "1974-06",
            "1974-02-29",
            "1976-02-29",
            "1974-06-30T23:00:00Z",
            "1974-06-30T23:00:00",
            "4.3.1973",
            "12",
            "",
        ];
        let mut values: Vec<String> = parts.map(String::from).to_vec();
        for sign in ["/", "-", " - ", ".", "T10:00:00Z", ","] {
            values.extend(parts.iter().flat_map(|one| parts.iter().map(move |other| format!("{one}{sign}{other}"))));
        }
        for zone in ["Z", "+14:00", "-13:59", "+14:01", "+2:00", "z", ""] {
            values.extend(["23:59:59", "24:00:00", "00:60:00", "00:00"].map(|time| format!("1974-06-30T{time}{zone}")));
        }
        for value in &values {
            let seen = look(value.as_bytes());
            for (spelling, reader) in [(seen.date, &dates), (seen.period, &periods), (seen.number, &numbers)] {
                // A period that ends before it starts looks like one all the same.
                let turned = seen.period == Some(Readable);
                if let Some(spelling) = spelling.filter(|_| !turned) {
                    assert_eq!(reader.reads(value.as_bytes()), spelling == Readable, "{value}");
                }
            }
        }
    }

    /// Numbers that no code is spelled like.
    #[test]
    fn certain_numbers() {
        let certain = |value: &str| look(value.as_bytes()).certain_number(value.as_bytes()).is_some();
        for value in ["-3", "12,5", "1,234", "0.75"] {
            assert!(certain(value), "{value}");
        }
        for value in ["291", "291.0", "81.54", "4019", "32485007", "4.3.1973"] {
            assert!(!certain(value), "{value}");
        }
    }
}
