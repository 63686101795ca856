//! Dates and periods as people write them: in words, and with days, months and years in other orders.

use crate::looks::YEARS;
use std::sync::OnceLock;

/// No date and no period that a person writes is longer, in bytes.
pub const LONGEST: usize = 60;
/// One with a year of two digits alone is not longer than this.
pub const SHORT: usize = 14;

/// A piece of such a text.
#[derive(Debug, PartialEq, Eq)]
pub enum Token {
    /// A number, with how many digits it has.
    Digits(u32, usize),
    /// A word in small letters, without its accents.
    Word(String),
    /// Any other sign; all kinds of dashes are one.
    Sign(char),
}

use Token::{Digits, Sign, Word};

/// Names of months: English, German, French, Spanish, Italian, Dutch, Swedish, and Roman numbers. A name may be cut after three
/// letters.
const MONTHS: [&[&str]; 12] = [
    &["january", "januar", "janvier", "jaenner", "janner", "enero", "gennaio", "i"],
    &["february", "februar", "feber", "fevrier", "febrero", "febbraio", "ii"],
    &["march", "maerz", "marz", "mrz", "mars", "marzo", "maart", "mrt", "iii"],
    &["april", "avril", "abril", "iv"],
    &["may", "mai", "mayo", "maggio", "mei", "maj", "v"],
    &["june", "juni", "juin", "junio", "giugno", "vi"],
    &["july", "juli", "juillet", "julio", "luglio", "vii"],
    &["augusti", "augustus", "aout", "agosto", "viii"],
    &["september", "septembre", "sept", "septiembre", "settembre", "ix"],
    &["october", "oktober", "octobre", "octubre", "ottobre", "x"],
    &["november", "noviembre", "novembre", "xi"],
    &["december", "dezember", "decembre", "diciembre", "dicembre", "xii"],
];

/// Days of the week, in the same languages.
const WEEKDAYS: [&str; 21] = [
    "monday",
    "tuesday",
    "wednesday",
    "thursday",
    "friday",
    "saturday",
    "sunday",
    "montag",
    "dienstag",
    "mittwoch",
    "donnerstag",
    "freitag",
    "samstag",
    "sonntag",
    "lundi",
    "mardi",
    "mercredi",
    "jeudi",
    "vendredi",
    "samedi",
    "dimanche",
];

/// Words that stand beside a date and leave it one: how certain it is, what happened then, which part of a year.
const BESIDE: [&str; 58] = [
    "about",
    "after",
    "am",
    "approx",
    "around",
    "at",
    "automne",
    "autumn",
    "avant",
    "b",
    "before",
    "born",
    "c",
    "ca",
    "circa",
    "d",
    "de",
    "den",
    "der",
    "died",
    "early",
    "ete",
    "fall",
    "fruhjahr",
    "fruhling",
    "geb",
    "gest",
    "half",
    "herbst",
    "hiver",
    "late",
    "le",
    "mid",
    "nach",
    "ne",
    "nee",
    "of",
    "on",
    "printemps",
    "quarter",
    "sommer",
    "spring",
    "summer",
    "the",
    "um",
    "vers",
    "vor",
    "winter",
    "dated",
    "ad",
    "anno",
    "annee",
    "im",
    "in",
    "jahr",
    "jahre",
    "year",
    "an",
];
/// Endings of a day's number, and of a decade's.
const ENDINGS: [&str; 8] = ["st", "nd", "rd", "th", "er", "e", "s", "ten"];
/// Words that begin a period, words between its ends, and words for an end that is open.
const BEGINNINGS: [&str; 12] =
    ["ab", "bis", "depuis", "des", "du", "from", "jusqu", "seit", "since", "till", "until", "von"];
const BETWEEN: [&str; 12] = ["a", "and", "au", "bis", "en", "jusqu", "oder", "or", "ou", "till", "to", "until"];
const OPEN: [&str; 5] = ["heute", "now", "present", "today", "date"];

/// Whether a word, as a value has it, may begin a date or a period. Nearly all words are told by their first letters.
pub fn begins_date(word: &[u8]) -> bool {
    let Some(first) = word.first().map(u8::to_ascii_lowercase) else { return false };
    let place = usize::from(first.wrapping_sub(b'a'));
    BY_LETTER.get_or_init(by_letter).get(place).is_some_and(|names| {
        names.iter().any(|(name, cut)| {
            let enough = if *cut { word.len() >= 3 && word.len() <= name.len() } else { word.len() == name.len() };
            enough && name[..word.len()].eq_ignore_ascii_case(word)
        })
    })
}

/// The words that may begin a date by their first letters, each with whether it may be cut.
type ByLetter = [Vec<(&'static [u8], bool)>; 26];
static BY_LETTER: OnceLock<ByLetter> = OnceLock::new();

fn by_letter() -> ByLetter {
    let mut words: ByLetter = Default::default();
    let cut = MONTHS.iter().copied().flatten().chain(&WEEKDAYS).map(|word| (word, word.len() > 3));
    let whole = BESIDE.iter().chain(&BEGINNINGS).map(|word| (word, false));
    // The first letters of months whose next letter has an accent: février, août has none before it.
    for (word, cut) in cut.chain(whole).chain([(&"f", false), (&"d", false)]) {
        words[usize::from(word.as_bytes()[0] - b'a')].push((word.as_bytes(), cut));
    }
    words
}

/// Whether a word is a name of a month, perhaps cut.
fn is_month(word: &str) -> bool {
    MONTHS.iter().any(|names| is_cut_of(word, names))
}

fn is_cut_of(word: &str, names: &[&str]) -> bool {
    names.iter().any(|name| *name == word || (word.len() >= 3 && name.starts_with(word)))
}

/// The pieces of a text. Spaces are left out, but for those around a dash, which make it a sign of its own.
pub fn tokens(text: &str) -> Vec<Token> {
    let mut found = Vec::new();
    let mut chars = text.chars().peekable();
    while let Some(c) = chars.next() {
        match c {
            '0'..='9' => {
                let mut digits = String::from(c);
                while let Some(digit) = chars.next_if(char::is_ascii_digit) {
                    digits.push(digit);
                }
                found.push(Digits(digits.parse().unwrap_or(u32::MAX), digits.len()));
            }
            _ if c.is_alphabetic() => {
                let mut word = bare(c);
                while let Some(letter) = chars.next_if(|c| c.is_alphabetic() || ('\u{300}'..='\u{36F}').contains(c)) {
                    word += &bare(letter);
                }
                found.push(Word(word));
            }
            _ if c.is_whitespace() => {
                if found.last() != Some(&Sign(' ')) {
                    found.push(Sign(' '));
                }
            }
            // A point behind a word says that it is cut.
            '.' if matches!(found.last(), Some(Word(_))) => {}
            '\u{2010}'..='\u{2015}' | '\u{2212}' => found.push(Sign('-')),
            _ => found.push(Sign(c)),
        }
    }
    found
}

/// A letter in small, without the accents that names of months have.
fn bare(letter: char) -> String {
    match letter {
        '\u{300}'..='\u{36F}' => String::new(),
        'ä' | 'Ä' | 'à' | 'À' | 'â' => "a".into(),
        'é' | 'É' | 'è' | 'È' => "e".into(),
        'û' | 'Û' => "u".into(),
        _ => letter.to_lowercase().collect(),
    }
}

/// Whether pieces are a date.
pub fn is_date(tokens: &[Token]) -> bool {
    let tokens = without_time(trimmed(tokens));
    let said: Vec<&Token> = tokens.iter().filter(|token| !is_beside(token)).collect();
    match said[..] {
        [Digits(year, 4)] => tokens.len() > 1 && YEARS.contains(year),
        [Digits(month, 2), Sign('.' | '/' | '-'), Digits(year, 4)] | [Digits(month, 1), Sign('/'), Digits(year, 4)] => {
            *month <= 12 && YEARS.contains(year)
        }
        [Digits(year, 4), Sign('/'), Digits(month, 2)] => (1..=12).contains(month) && YEARS.contains(year),
        [Digits(day, 8), Word(time), Digits(_, 4 | 6)] | [Digits(day, 8), Word(time), Digits(_, 4 | 6), Word(_)]
            if time == "t" =>
        {
            YEARS.contains(&(day / 10_000)) && is_day(&[(day / 10_000, 4), (day / 100 % 100, 2), (day % 100, 2)])
        }
        [Digits(..), Digits(..), Digits(..)] => is_day(&numbers(&said)),
        [Digits(year, 4), Sign('-'), Digits(0, 2)] => YEARS.contains(year),
        [Digits(..), Sign(sign), Digits(..), Sign(other), Digits(..)] if sign == other && "./-".contains(*sign) => {
            is_day(&numbers(&said))
        }
        _ => is_day_in_words(&said),
    }
}

/// Whether a piece may be left out of a date.
fn is_beside(token: &Token) -> bool {
    match token {
        Word(word) if is_month(word) => false,
        Word(word) => BESIDE.contains(&&word[..]) || ENDINGS.contains(&&word[..]) || is_cut_of(word, &WEEKDAYS),
        Sign(sign) => " ?~[](),<>*\u{2020}\u{B0}".contains(*sign),
        Digits(..) => false,
    }
}

/// The numbers among pieces, each with how many digits it has.
fn numbers(tokens: &[&Token]) -> Vec<(u32, usize)> {
    tokens
        .iter()
        .filter_map(|token| if let Digits(number, length) = token { Some((*number, *length)) } else { None })
        .collect()
}

/// Three numbers that are a day, a month and a year, or a year, a month and a day. A short year is two digits.
fn is_day(numbers: &[(u32, usize)]) -> bool {
    let &[(first, first_length), (middle, 1..=2), (last, last_length)] = numbers else { return false };
    // People write 0 for a day or a month that they do not know.
    let day_of = |day: u32, month: u32| day <= 31 && month <= 12;
    match (first_length, last_length) {
        (4, 1..=2) => YEARS.contains(&first) && day_of(last, middle),
        (1..=2, 4) => YEARS.contains(&last) && (day_of(first, middle) || day_of(middle, first)),
        (1..=2, 2) => day_of(first, middle) || day_of(middle, first) || (first > 31 && day_of(last, middle)),
        _ => false,
    }
}

/// A month's name with a year, and perhaps a day.
fn is_day_in_words(said: &[&Token]) -> bool {
    let is_sign = |token: &Token| matches!(token, Sign('.' | '-' | '/' | '\'' | '\u{2019}'));
    let parts: Vec<&Token> = said.iter().copied().filter(|token| !is_sign(token)).collect();
    let months = parts.iter().filter(|token| matches!(token, Word(word) if is_month(word))).count();
    let numbers = numbers(&parts);
    let is_year = |(number, length): &(u32, usize)| *length == 4 && YEARS.contains(number);
    let is_short = |(number, length): &(u32, usize)| *length <= 2 && (1..=31).contains(number);
    months == 1
        && parts.len() == numbers.len() + 1
        && match &numbers[..] {
            [year @ (number, length)] => is_year(year) || (*length == 2 && *number > 31),
            [day, year] if is_year(year) => is_short(day),
            [year, day] if is_year(year) => is_short(day),
            [day, (_, 2)] => is_short(day),
            _ => false,
        }
}

/// Pieces without spaces at their ends.
fn trimmed(mut tokens: &[Token]) -> &[Token] {
    while let [Sign(' '), rest @ ..] | [rest @ .., Sign(' ')] = tokens {
        tokens = rest;
    }
    tokens
}

/// Words of a time of the day.
const CLOCK: [&str; 11] = ["am", "pm", "uhr", "h", "z", "utc", "gmt", "a", "p", "m", "at"];

/// Pieces without a time of the day behind them: one with a colon, or an hour before one of its words.
fn without_time(tokens: &[Token]) -> &[Token] {
    let is_clock = |token: &Token| matches!(token, Word(word) if CLOCK.contains(&&word[..]));
    let colon = tokens.iter().position(|token| *token == Sign(':'));
    let word = tokens.iter().position(is_clock).filter(|&at| at + 1 == tokens.len() && at > 2);
    let Some(hour) = colon.or(word).and_then(|at| (0..at).rev().find(|&at| tokens[at] != Sign(' '))) else {
        return tokens;
    };
    let is_time = matches!(tokens[hour], Digits(0..=24, 1..=2))
        && tokens[hour..].iter().all(|token| match token {
            Digits(..) => true,
            Word(_) => is_clock(token),
            Sign(sign) => ": .+-".contains(*sign),
        });
    if !is_time || hour < 2 {
        return tokens;
    }
    let mut date = &tokens[..hour];
    while let [rest @ .., Sign(' ' | ',') | Word(_)] = date {
        date = rest;
    }
    date
}

/// Whether pieces are made of parts of dates alone, of which there are several: `1.1.-31.12.1973`, `Jan-Mar 1973`.
fn are_parts(tokens: &[Token]) -> bool {
    let is_year = |token: &Token| matches!(token, Digits(year, 4) if YEARS.contains(year));
    let is_part = |token: &&Token| match token {
        Digits(number, 1..=2) => *number <= 31,
        Word(word) => is_month(word),
        token => is_year(token),
    };
    let is_between = |token: &Token| match token {
        Word(word) => BETWEEN.contains(&&word[..]) || BEGINNINGS.contains(&&word[..]),
        Sign(sign) => ".-/".contains(*sign),
        Digits(..) => false,
    };
    let all = tokens.iter().all(|token| is_part(&token) || is_between(token) || is_beside(token));
    let parts = tokens.iter().filter(is_part).count();
    let is_joint = |token: &Token| matches!(token, Sign('-')) || matches!(token, Word(word) if is_month(word));
    all && tokens.iter().any(is_year) && tokens.iter().any(is_joint) && parts > 2
}

/// Whether pieces are a period: two dates with a dash or a word between, of which one may be missing.
pub fn is_period(tokens: &[Token]) -> bool {
    let tokens = trimmed(tokens);
    are_parts(tokens) || is_period_of_two(tokens)
}

/// A period whose ends are dates.
fn is_period_of_two(tokens: &[Token]) -> bool {
    if let [Word(first), rest @ ..] = tokens
        && BEGINNINGS.contains(&&first[..])
    {
        return is_end(after_between(rest)) || is_period_of_two(trimmed(rest));
    }
    (0..tokens.len()).any(|at| {
        let (before, behind) = (trimmed(&tokens[..at]), after_between(&tokens[at + 1..]));
        let open = |tokens: &[Token]| {
            tokens.is_empty()
                || matches!(tokens, [Sign('?')])
                || matches!(tokens, [Word(word)] if OPEN.contains(&&word[..]))
        };
        match &tokens[at] {
            Sign('-') => {
                is_end(before) && (is_end(behind) || open(behind) || is_short_year(before, behind))
                    || before.is_empty() && is_end(behind)
            }
            Sign('/') => is_end(before) && (is_end(behind) || is_short_year(before, behind)),
            Word(word) if BETWEEN.contains(&&word[..]) => {
                is_end(before) && (is_end(behind) || (!behind.is_empty() && open(behind)))
            }
            _ => false,
        }
    })
}

/// Pieces without the words and signs between the ends of a period that they begin with.
fn after_between(mut tokens: &[Token]) -> &[Token] {
    loop {
        tokens = match tokens {
            [Sign(' ' | '\'' | '\u{2019}'), rest @ ..] => rest,
            [Word(word), rest @ ..] if BETWEEN.contains(&&word[..]) => rest,
            _ => return trimmed(tokens),
        };
    }
}

/// A year, or a date in any spelling.
fn is_end(tokens: &[Token]) -> bool {
    match tokens {
        [Digits(year, 4)] | [Digits(year, 4), Sign('-'), Digits(1..=12, 2)] => YEARS.contains(year),
        _ => is_date(tokens),
    }
}

/// The last two digits of a later year behind one, where they are no month: `1973-75`.
fn is_short_year(before: &[Token], behind: &[Token]) -> bool {
    matches!((before, behind), ([Digits(year, 4)], [Digits(short @ 13..=99, 2)]) if YEARS.contains(year) && *short > year % 100)
}
