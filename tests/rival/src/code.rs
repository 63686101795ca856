//! What a filter is compiled to: its tests, each with its value read and with the test that comes next on yes and on
//! no, so that a test whose join is decided is never come to.

use crate::span::Span;
use second::block::{Kind, MOST_PARAMETERS};

/// In the place of a next test: the filter, or the condition, says yes.
pub const YES: u8 = 254;
/// It says no. All that is less is a test.
pub const NO: u8 = 253;

/// What a run's cards are judged by.
pub struct Code {
    pub tests: Vec<Test>,
    /// The texts of the tests' values, folded.
    pub texts: Vec<u8>,
    pub kinds: [Option<Kind>; MOST_PARAMETERS],
    /// What the tests need of each parameter.
    pub needs: [Need; MOST_PARAMETERS],
}

/// What is kept of a card's entries under a parameter.
#[derive(Clone, Copy, PartialEq, Eq, PartialOrd, Ord)]
pub enum Need {
    Nothing,
    Presence,
    Values,
}

#[derive(Clone, Copy)]
pub struct Test {
    /// The place of its parameter.
    pub place: u8,
    pub ask: Ask,
    pub yes: u8,
    pub no: u8,
    /// The first test of the condition that chooses the occurrences.
    pub condition: Option<u8>,
    /// The value, of a number or a date.
    pub span: Span,
    /// The value, of a string or a reference; or a token's code, empty where none is asked for.
    pub text: Part,
    /// A token's system, if one is asked for.
    pub system: Option<Part>,
}

/// Where a text begins and ends in the texts of the code.
#[derive(Clone, Copy, Default)]
pub struct Part {
    pub start: u16,
    pub end: u16,
}

/// What a test asks of each value of its parameter: one relation for each pair of a kind and an operator that has a
/// meaning, so that judging needs no second look at the kind.
#[derive(Clone, Copy, PartialEq, Eq)]
pub enum Ask {
    Present,
    Absent,
    Inside,
    NotInside,
    NumberAbove,
    NumberBelow,
    NumberAtLeast,
    NumberAtMost,
    NumberInRange,
    EndsLater,
    StartsEarlier,
    EndsLaterOrInside,
    StartsEarlierOrInside,
    StartsAfter,
    EndsBefore,
    Overlaps,
    Covers,
    SameText,
    OtherText,
    HoldsText,
    StartsWith,
    EndsWith,
    SameToken,
    OtherToken,
}

impl Code {
    pub fn text(&self, part: Part) -> &[u8] {
        &self.texts[usize::from(part.start)..usize::from(part.end)]
    }
}
