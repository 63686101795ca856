//! Texts as people see them: doubtful encodings, numbers, words in a row, near names.

pub use sirophan::spelling::{read, spell};

/// A text with a mark for each byte that is not UTF-8, and for each control character.
pub fn printable(text: &[u8]) -> String {
    let mark = |c: char| if c.is_control() { char::REPLACEMENT_CHARACTER } else { c };
    String::from_utf8_lossy(text).chars().map(mark).collect()
}

/// A text between double quotes, as a description would have it there.
pub fn quoted(text: &[u8]) -> String {
    let spelled = spell(text);
    if spelled.starts_with('"') { spelled } else { format!("\"{spelled}\"") }
}

/// Why a text seems to be in an encoding other than UTF-8, if it does.
pub fn other_encoding(text: &[u8]) -> Option<&'static str> {
    let Ok(plain) = str::from_utf8(text) else {
        return Some(if text.contains(&0) { "not UTF-8, perhaps UTF-16" } else { "not UTF-8, perhaps Latin-1" });
    };
    let seconds = plain.chars().skip(1);
    let twice = plain.chars().zip(seconds).any(|pair| matches!(pair, ('\u{C2}' | '\u{C3}', '\u{80}'..='\u{BF}')));
    match (twice, plain.contains('\0'), plain.contains(char::REPLACEMENT_CHARACTER)) {
        (true, ..) => Some("UTF-8 that was encoded twice"),
        (_, true, _) => Some("UTF-16, for it has zero bytes"),
        (.., true) => Some("damaged by a change of encoding, for it has the mark of a lost letter (U+FFFD)"),
        _ => None,
    }
}

/// Whether bytes seem to be a text: blocks have zero bytes.
pub fn is_text(bytes: &[u8]) -> bool {
    !bytes.is_empty() && bytes.iter().all(|byte| !byte.is_ascii_control() || b"\t\n\r".contains(byte))
}

/// Words in a row, with another word before the last one: `eq, ne and pr`.
pub fn row<T: AsRef<str>>(words: &[T], last: &str) -> String {
    match words {
        [] => String::new(),
        [word] => word.as_ref().into(),
        [first @ .., end] => {
            let first: Vec<&str> = first.iter().map(AsRef::as_ref).collect();
            format!("{} {last} {}", first.join(", "), end.as_ref())
        }
    }
}

/// A number and its noun: `1 card`, `3 cards`.
pub fn counted(number: u64, noun: &str) -> String {
    let plural = match noun.strip_suffix('y') {
        Some(stem) => format!("{stem}ies"),
        None => format!("{noun}s"),
    };
    if number == 1 { format!("1 {noun}") } else { format!("{} {plural}", grouped(number)) }
}

/// A number with a comma before every three digits.
pub fn grouped(number: u64) -> String {
    let digits = number.to_string();
    let mut written = String::new();
    for (index, digit) in digits.chars().enumerate() {
        if index > 0 && (digits.len() - index).is_multiple_of(3) {
            written.push(',');
        }
        written.push(digit);
    }
    written
}

/// The names that are nearest to one, the nearest first, or none where no name is near.
pub fn nearest(name: &str, names: &[String]) -> Vec<String> {
    let mut near: Vec<(usize, &String)> = names.iter().map(|other| (distance(name, other), other)).collect();
    near.retain(|(distance, other)| *distance <= 1 + name.len().max(other.len()) / 4);
    near.sort_by_key(|(distance, _)| *distance);
    near.into_iter().take(3).map(|(_, other)| other.clone()).collect()
}

/// How many letters have to be put in, left out or changed to make one name of another. Capitals do not matter.
fn distance(one: &str, other: &str) -> usize {
    let other: Vec<char> = other.to_lowercase().chars().collect();
    let mut row: Vec<usize> = (0..=other.len()).collect();
    for (index, letter) in one.to_lowercase().chars().enumerate() {
        let mut diagonal = row[0];
        row[0] = index + 1;
        for (column, theirs) in other.iter().enumerate() {
            let changed = diagonal + usize::from(letter != *theirs);
            diagonal = row[column + 1];
            row[column + 1] = changed.min(diagonal + 1).min(row[column] + 1);
        }
    }
    row[other.len()]
}

#[cfg(test)]
mod tests {
    use super::*;

    /// Encodings that give themselves away.
    #[test]
    fn encodings() {
        assert_eq!(other_encoding("Ström".as_bytes()), None);
        assert_eq!(other_encoding(b"Str\xF6m"), Some("not UTF-8, perhaps Latin-1"));
        assert_eq!(other_encoding("StrÃ¶m".as_bytes()), Some("UTF-8 that was encoded twice"));
        assert_eq!(other_encoding(b"S\0t\0"), Some("UTF-16, for it has zero bytes"));
    }

    /// Near names, and none where there is none.
    #[test]
    fn near_names() {
        let names = ["title", "birthdate", "code", "pages"].map(String::from);
        assert_eq!(nearest("Title", &names), ["title"]);
        assert_eq!(nearest("birthdat", &names), ["birthdate"]);
        assert_eq!(nearest("page", &names), ["pages"]);
        assert!(nearest("ward", &names).is_empty());
    }

    /// Rows of words and numbers.
    #[test]
    fn rows_and_numbers() {
        assert_eq!(row(&["eq", "ne", "pr"], "and"), "eq, ne and pr");
        assert_eq!(row(&["eq"], "or"), "eq");
        assert_eq!(counted(1, "card"), "1 card");
        assert_eq!(counted(1_234_567, "entry"), "1,234,567 entries");
    }
}
