//! How far a text that is no filter begins one, and which limit keeps it from going further.

use crate::filter::{DEEPEST, MOST_TESTS, OPERATIONS, closes};

/// What may follow the beginning of a filter up to the end of the test that it has come to: from inside a value, before
/// it, before and in a name, in a connective, behind not and behind a square bracket. Behind the first letter of an
/// operation there are the others besides.
const ENDINGS: [&[u8]; 13] = [
    b"",
    b"\"",
    b"n\"",
    b"1",
    b" 1",
    b"eq 1",
    b"x eq 1",
    b"(x eq 1",
    b"nd x eq 1",
    b"d x eq 1",
    b" x eq 1",
    b"r x eq 1",
    b".x eq 1",
];

/// The number and the place of a text that is no filter. The beginnings of a beginning begin the same filter. So the
/// longest is found by halving, and a longer one, with a limit lifted, is there when the next longer one is.
pub fn failure(text: &[u8]) -> (u32, usize) {
    let (mut place, mut past) = (0, text.len() + 1);
    while past - place > 1 {
        let middle = place.midpoint(past);
        if is_beginning(&text[..middle], DEEPEST, MOST_TESTS) {
            place = middle;
        } else {
            past = middle;
        }
    }
    let is_longer = |depth, tests| past <= text.len() && is_beginning(&text[..past], depth, tests);
    if is_longer(usize::MAX, MOST_TESTS) {
        (12, place)
    } else if is_longer(DEEPEST, usize::MAX) {
        (13, place)
    } else {
        (11, place)
    }
}

/// Whether the text begins some filter within these limits: one of the endings makes it a filter but for its brackets.
fn is_beginning(text: &[u8], depth: usize, tests: usize) -> bool {
    let ends_by = |ending: &[u8]| closes(&[text, ending].concat(), depth, tests);
    ENDINGS.iter().any(|ending| ends_by(ending))
        || OPERATIONS.iter().any(|(word, _)| ends_by(&[&word[1..], b" 1"].concat()))
}

#[cfg(test)]
mod tests {
    use super::*;

    fn many(count: usize) -> String {
        vec!["a eq 1"; count].join(" and ")
    }

    #[test]
    fn failures() {
        let deep = "(".repeat(8);
        let (t, t31, t32) = (many(1), many(31), many(32));
        for (text, number, place) in [
            ("    ".to_string(), 11, 4),
            ("1".into(), 11, 0),
            ("a e".into(), 11, 3),
            ("a eqq".into(), 11, 4),
            (format!("{t} and)"), 11, 10),
            ("not a eq 1".into(), 11, 4),
            (deep.clone(), 11, 8),
            (format!("{deep}("), 12, 8),
            (format!("{deep}not "), 12, 11),
            (format!("{deep}notx eq 1"), 11, 17),
            (format!("{t32} and"), 13, 348),
            (format!("{t32} x"), 11, 348),
            (format!("{deep}{t32} or ("), 13, 356),
            (format!("{t31} and {deep}("), 12, 349),
            (format!("{t31} and b["), 13, 342),
            (format!("{deep}b["), 12, 9),
            (format!("{deep}{t31} and b["), 11, 350),
            ("b[a eq 1].not ".into(), 11, 13),
        ] {
            assert_eq!(failure(text.as_bytes()), (number, place), "{text}");
        }
    }
}
