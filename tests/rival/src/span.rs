//! Spans on a line of whole numbers, as which numbers, dates and periods are compared.

/// From `low` on to before `high`: the seconds of a date or a period; or the range of a number, in halves of
/// billionths, whose middle is its value.
#[derive(Clone, Copy, Default)]
pub struct Span {
    pub low: i64,
    pub high: i64,
}

impl Span {
    #[inline]
    pub fn middle(self) -> i64 {
        (self.low + self.high) / 2
    }

    #[inline]
    pub fn is_inside(self, other: Span) -> bool {
        other.low <= self.low && self.high <= other.high
    }

    #[inline]
    pub fn holds(self, point: i64) -> bool {
        self.low <= point && point < self.high
    }

    #[inline]
    pub fn overlaps(self, other: Span) -> bool {
        self.low < other.high && other.low < self.high
    }
}
