//! Why there is no answer: the numbers of refusal by name.

use crate::texts::sentence;
use std::fmt;

/// Why there is no answer, in the order of the numbers.
#[derive(Clone, Copy, Debug, PartialEq, Eq, Hash, PartialOrd, Ord)]
#[non_exhaustive]
#[repr(u32)]
pub enum Reason {
    SheetSize = 1,
    SheetSum = 2,
    SheetLayout = 3,
    FilterSize = 10,
    NoFilter = 11,
    TooDeep = 12,
    TooMany = 13,
    UnknownName = 14,
    Unsupported = 15,
    NoMeaning = 16,
    Unreadable = 17,
    BareBundle = 18,
    CardSize = 20,
    CardSum = 21,
    CardLayout = 22,
    CardMisfit = 23,
    ShortList = 30,
    ShortRows = 31,
    ShortBuffer = 32,
    ShortMarks = 33,
    ShortCells = 34,
    BadRows = 40,
    NoPair = 50,
    ManyAlternatives = 51,
}

impl Reason {
    /// All reasons, in the order of their numbers.
    pub const ALL: [Reason; 24] = [
        Reason::SheetSize,
        Reason::SheetSum,
        Reason::SheetLayout,
        Reason::FilterSize,
        Reason::NoFilter,
        Reason::TooDeep,
        Reason::TooMany,
        Reason::UnknownName,
        Reason::Unsupported,
        Reason::NoMeaning,
        Reason::Unreadable,
        Reason::BareBundle,
        Reason::CardSize,
        Reason::CardSum,
        Reason::CardLayout,
        Reason::CardMisfit,
        Reason::ShortList,
        Reason::ShortRows,
        Reason::ShortBuffer,
        Reason::ShortMarks,
        Reason::ShortCells,
        Reason::BadRows,
        Reason::NoPair,
        Reason::ManyAlternatives,
    ];

    /// Its number.
    #[must_use]
    pub fn number(self) -> u32 {
        self as u32
    }

    /// The reason with a number, if there is one.
    ///
    /// ```
    /// use sirophan::Reason;
    ///
    /// assert_eq!(Reason::of(16), Some(Reason::NoMeaning));
    /// assert_eq!(Reason::of(19), None);
    /// ```
    #[must_use]
    pub fn of(number: u32) -> Option<Reason> {
        Reason::ALL.into_iter().find(|reason| reason.number() == number)
    }

    /// What it means, in one sentence.
    #[must_use]
    pub fn sentence(self) -> &'static str {
        sentence(self.number())
    }
}

/// The sentence.
impl fmt::Display for Reason {
    fn fmt(&self, f: &mut fmt::Formatter) -> fmt::Result {
        f.write_str(self.sentence())
    }
}

#[cfg(test)]
mod tests {
    use super::*;

    /// The reasons are exactly the numbers that the library has a sentence for, 0 for none left out.
    #[test]
    fn reasons_of_the_library() {
        let unknown = sentence(u32::MAX);
        for number in 1..1000 {
            assert_eq!(Reason::of(number).is_some(), sentence(number) != unknown, "{number}");
        }
        assert!(Reason::ALL.is_sorted());
    }
}
