//! A refusal, and how it is told to a person.

use crate::reason::Reason;
use crate::texts;
use std::error::Error;
use std::fmt;
use std::ops::Range;

/// A numbered refusal with its place.
#[derive(Clone, Copy, Debug, PartialEq, Eq, Hash)]
pub struct Refusal {
    /// The number, which says why there is no answer.
    pub number: u32,
    /// For 11 to 13 the length of the longest beginning of the text that also begins some filter, for 14 to 18 the first
    /// byte of the test in the filter and in a search string that of the pair, as for 50; for 21 to 23 the card's index in
    /// the run, for 30 the number of matching cards, for 31 the number of rows needed, for 32 the length of the plain
    /// spelling, for 33 the number of tests, for 34 the cells that a filter's rows need, and 0 for all others.
    pub place: usize,
}

/// How many characters of the filter [`Refusal::render`] and [`underline`] show before and behind the place.
const SHOWN_BEFORE: usize = 30;
const SHOWN_BEHIND: usize = 46;

impl Refusal {
    /// The reason by name; none where this version knows no refusal of the number.
    #[must_use]
    pub fn reason(&self) -> Option<Reason> {
        Reason::of(self.number)
    }

    /// What the number means, in one sentence.
    #[must_use]
    pub fn sentence(&self) -> &'static str {
        texts::sentence(self.number)
    }

    /// Whether it is a card's, so that its place is the card's index.
    #[must_use]
    pub fn is_of_card(&self) -> bool {
        matches!(self.reason(), Some(Reason::CardSum | Reason::CardLayout | Reason::CardMisfit))
    }

    /// The refusal of a run as one of its file, of which so many cards stand before the run: the index of a card counts over the
    /// file.
    ///
    /// ```
    /// use sirophan::Refusal;
    ///
    /// assert_eq!(Refusal { number: 21, place: 5 }.over_file(256), Refusal { number: 21, place: 261 });
    /// assert_eq!(Refusal { number: 16, place: 5 }.over_file(256), Refusal { number: 16, place: 5 });
    /// ```
    #[must_use]
    pub fn over_file(self, cards_before: u64) -> Refusal {
        let before = if self.is_of_card() { usize::try_from(cards_before).unwrap_or(usize::MAX) } else { 0 };
        Refusal { place: self.place.saturating_add(before), ..self }
    }

    /// The refusal as a person would want to see it. Where the text is no filter, it is shown with a caret under the
    /// byte up to which it could be one; where a test of the filter is at fault, with a caret under the test's first. In a
    /// search string the caret is under the first byte of the pair.
    #[must_use]
    pub fn render(&self, filter: &[u8]) -> String {
        match self.number {
            11..=18 | 50 => format!("{}\n{self}", underline(filter, self.place..self.place + 1)),
            _ => self.to_string(),
        }
    }
}

/// `refused 16 at 0: ` and the sentence.
impl fmt::Display for Refusal {
    fn fmt(&self, f: &mut fmt::Formatter) -> fmt::Result {
        let Refusal { number, place } = self;
        write!(f, "refused {number} at {place}: {}", self.sentence())
    }
}

impl Error for Refusal {}

/// Two lines: the filter around the start of a part of it, and carets under the part. Dots stand for what is left out.
#[must_use]
pub fn underline(filter: &[u8], part: Range<usize>) -> String {
    let place = part.start.min(filter.len());
    let end = part.end.clamp(place, filter.len());
    let before = printable(&filter[..place]);
    let behind = printable(&filter[place..]);
    let skipped = before.len().saturating_sub(SHOWN_BEFORE);
    let kept = behind.len().min(SHOWN_BEHIND);
    let dots = |left_out: bool| if left_out { "..." } else { "" };

    let start = dots(skipped > 0);
    let line: String = before[skipped..].iter().chain(&behind[..kept]).collect();
    let indent = start.len() + before.len() - skipped;
    let carets = printable(&filter[place..end]).len().clamp(1, kept.max(1));
    let rest = dots(kept < behind.len());
    format!("{start}{line}{rest}\n{:indent$}{:^<carets$}", "", "")
}

/// The characters of a text, with a mark for each that is not UTF-8 or would not print.
pub(crate) fn printable(text: &[u8]) -> Vec<char> {
    let mark = |c: char| if c.is_control() { char::REPLACEMENT_CHARACTER } else { c };
    String::from_utf8_lossy(text).chars().map(mark).collect()
}
