//! Why a filter says what it says of a card: the tests that decide.

use crate::Refusal;
use crate::ffi::call;
use crate::filter::Filter;
use crate::refusal::printable;
use std::ops::Range;

/// A filter has at most this many tests, so that as many cells are always enough for [`explain_into`].
pub const MOST_TESTS: usize = 32;
/// How many characters of the filter stand on a line of a rendering.
const WIDTH: usize = 100;

/// What a test does for the answer.
#[derive(Clone, Copy, Debug, PartialEq, Eq, Hash)]
pub enum Mark {
    /// The answer stands whatever the test says.
    Spared,
    /// It decides by its yes,
    Yes,
    /// or by its no.
    No,
}

/// A test of the filter, a condition in square brackets being part of the test that it stands in.
#[derive(Clone, Debug, PartialEq, Eq, Hash)]
pub struct Explained {
    /// Where it stands in the filter.
    pub place: Range<usize>,
    pub mark: Mark,
}

/// Why a filter says yes or no of a card: with the verdicts of the tests that decide alone its answer stands, no matter what
/// the others say, and none of them can be spared.
#[derive(Clone, Debug, PartialEq, Eq, Hash)]
pub struct Explanation {
    pub matches: bool,
    /// The tests, in the order of the filter.
    pub tests: Vec<Explained>,
}

/// Explains what the filter says of the card. What [`matches`](crate::matches) refuses is refused alike.
///
/// ```
/// use sirophan::block::{Item, write_card};
/// use sirophan::sheet::{Parameter, Sheet};
/// use sirophan::{explain, kind};
///
/// let sheet = Sheet::write(vec![Parameter::new(kind::STRING, "title"), Parameter::new(kind::DATE, "birthdate")]).unwrap();
/// let card = write_card(7, &[Item::new(0, "Ward book 4"), Item::new(1, "1974-06")]).unwrap();
/// let filter = b"title co men or birthdate eq 1974";
/// let explanation = explain(&sheet.block, filter, &card).unwrap();
/// assert!(explanation.matches);
/// assert_eq!(
///     explanation.render(filter),
///     "title co men or birthdate eq 1974\n                ^^^^^^^^^^^^^^^^^\n                yes"
/// );
/// ```
///
/// # Errors
///
/// What [`matches`](crate::matches) refuses.
pub fn explain(sheet: &[u8], filter: &[u8], card: &[u8]) -> Result<Explanation, Refusal> {
    let mut cells = [0; MOST_TESTS];
    let matches = explain_into(sheet, filter, card, &mut cells)?;
    let explained = |(place, cell): (Range<usize>, u8)| {
        let mark = match cell {
            1 => Mark::Yes,
            2 => Mark::No,
            _ => Mark::Spared,
        };
        Explained { place, mark }
    };
    let tests = outer_tests(filter).into_iter().zip(cells).map(explained).collect();
    Ok(Explanation { matches, tests })
}

/// Answers whether the card matches the filter, and writes a cell for each test into the list, from its first cell on: 0
/// where it is spared, 1 where it decides by its yes, 2 where it decides by its no. Later cells stay, and a refusal leaves
/// all of them as they are; 33 says how many are needed.
///
/// # Errors
///
/// What [`matches`](crate::matches) refuses, and cells that are too few (33).
pub fn explain_into(sheet: &[u8], filter: &[u8], card: &[u8], cells: &mut [u8]) -> Result<bool, Refusal> {
    call!(sirophan_explain: read sheet, read filter, read card, write cells).into_yes()
}

impl Explanation {
    /// The filter as a person would want to see it: the tests that decide are underlined, with a `yes` or a `no` under each.
    ///
    /// ```text
    /// title co book or birthdate le 1974-06 and pages gt 12
    ///                  ^^^^^^^^^^^^^^^^^^^^     ^^^^^^^^^^^
    ///                  yes                      yes
    /// ```
    #[must_use]
    pub fn render(&self, filter: &[u8]) -> String {
        let shown = printable(filter);
        let mut carets = vec![' '; shown.len()];
        let mut words = vec![' '; shown.len()];
        for Explained { place, mark } in &self.tests {
            let word = match mark {
                Mark::Spared => continue,
                Mark::Yes => "yes",
                Mark::No => "no",
            };
            let column = |byte: usize| printable(&filter[..byte]).len();
            carets[column(place.start)..column(place.end)].fill('^');
            words[column(place.start)..].iter_mut().zip(word.chars()).for_each(|(cell, letter)| *cell = letter);
        }
        let mut lines = Vec::new();
        for start in (0..shown.len()).step_by(WIDTH) {
            let end = shown.len().min(start + WIDTH);
            let row = |row: &[char]| row[start..end].iter().collect::<String>().trim_end().to_string();
            let below = [row(&carets), row(&words)].into_iter().filter(|line| !line.is_empty());
            lines.extend([row(&shown)].into_iter().chain(below));
        }
        lines.join("\n")
    }
}

/// Where the tests of a filter stand that are in no square brackets.
fn outer_tests(filter: &[u8]) -> Vec<Range<usize>> {
    let tests = Filter::read(filter).map_or_else(Vec::new, |filter| filter.tests);
    tests.into_iter().filter(|test| test.inside.is_none()).map(|test| test.whole).collect()
}

#[cfg(test)]
mod tests {
    use super::*;

    /// Tests are found in brackets and behind `not`, with their own brackets, and where a name begins like a word of the grammar.
    #[test]
    fn outer_tests_of_a_filter() {
        let part = |text: &'static [u8]| -> Vec<&str> {
            assert!(crate::plain(text).is_ok(), "{}", String::from_utf8_lossy(text));
            outer_tests(text).into_iter().map(|place| str::from_utf8(&text[place]).unwrap()).collect()
        };
        assert_eq!(part(b"a eq 1"), ["a eq 1"]);
        assert_eq!(part(b" not ( a eq \"x\\\") or b\" ) or nota eq (1 "), [r#"a eq "x\") or b""#, "nota eq (1"]);
        assert_eq!(part(b"(a eq 1) and (not(b eq 2)) or  And ne or"), ["a eq 1", "b eq 2", "And ne or"]);
        assert_eq!(
            part(b"r[ not (t eq \"]\") or u eq [ ].x pr true and ((y lt 2))"),
            [r#"r[ not (t eq "]") or u eq [ ].x pr true"#, "y lt 2"]
        );
    }

    /// Deciding tests are underlined, with their words; a long filter goes over several lines.
    #[test]
    fn rendering() {
        let filter = b"a eq 1 or b ne 2 and c lt 3";
        let marks = [Mark::Spared, Mark::Yes, Mark::No];
        let tests = outer_tests(filter).into_iter().zip(marks).map(|(place, mark)| Explained { place, mark });
        let explanation = Explanation { matches: true, tests: tests.collect() };
        let shown = "a eq 1 or b ne 2 and c lt 3\n          ^^^^^^     ^^^^^^\n          yes        no";
        assert_eq!(explanation.render(filter), shown);

        let filter = format!("a eq {} or b eq 2", "7".repeat(100));
        let place = outer_tests(filter.as_bytes()).remove(1);
        let explanation = Explanation { matches: true, tests: vec![Explained { place, mark: Mark::Yes }] };
        let shown = format!("a eq {}\n77777 or b eq 2\n         ^^^^^^\n         yes", "7".repeat(95));
        assert_eq!(explanation.render(filter.as_bytes()), shown);
    }
}
