//! Judging a card that was read: from test to test, each asked of the entries under its parameter alone.

use crate::card::{Card, END, Entry};
use crate::code::{Ask, Code, NO, Test, YES};
use crate::text::contains;

/// A card, at one occurrence or at all of them.
#[derive(Clone, Copy)]
struct Subject<'a> {
    card: &'a Card,
    occurrence: Option<u8>,
}

impl Code {
    /// The filter's yes or no.
    pub fn matches(&self, card: &Card) -> bool {
        self.verdict(Subject { card, occurrence: None }, 0)
    }

    /// The yes or no of the tests from one on.
    fn verdict(&self, subject: Subject, first: u8) -> bool {
        let mut at = first;
        loop {
            let test = &self.tests[usize::from(at)];
            at = if self.judge(test, subject) { test.yes } else { test.no };
            if at >= NO {
                return at == YES;
            }
        }
    }

    #[inline]
    fn judge(&self, test: &Test, subject: Subject) -> bool {
        let (span, part) = (test.span, self.text(test.text));
        let text = |entry: &Entry| subject.card.text(entry.start, entry.end);
        match test.ask {
            Ask::Present => self.some(test, subject, |_| true),
            Ask::Absent => !self.some(test, subject, |_| true),
            Ask::Inside => self.some(test, subject, |entry| entry.span.is_inside(span)),
            Ask::NotInside => self.some(test, subject, |entry| !entry.span.is_inside(span)),
            Ask::NumberAbove => self.some(test, subject, |entry| entry.span.middle() > span.middle()),
            Ask::NumberBelow => self.some(test, subject, |entry| entry.span.middle() < span.middle()),
            Ask::NumberAtLeast => self.some(test, subject, |entry| entry.span.middle() >= span.middle()),
            Ask::NumberAtMost => self.some(test, subject, |entry| entry.span.middle() <= span.middle()),
            Ask::NumberInRange => self.some(test, subject, |entry| entry.span.holds(span.middle())),
            Ask::EndsLater => self.some(test, subject, |entry| entry.span.high > span.high),
            Ask::StartsEarlier => self.some(test, subject, |entry| entry.span.low < span.low),
            Ask::EndsLaterOrInside => {
                self.some(test, subject, |entry| entry.span.high > span.high || entry.span.is_inside(span))
            }
            Ask::StartsEarlierOrInside => {
                self.some(test, subject, |entry| entry.span.low < span.low || entry.span.is_inside(span))
            }
            Ask::StartsAfter => self.some(test, subject, |entry| entry.span.low >= span.high),
            Ask::EndsBefore => self.some(test, subject, |entry| entry.span.high <= span.low),
            Ask::Overlaps => self.some(test, subject, |entry| entry.span.overlaps(span)),
            Ask::Covers => self.some(test, subject, |entry| span.is_inside(entry.span)),
            Ask::SameText => self.some(test, subject, |entry| text(entry) == part),
            Ask::OtherText => self.some(test, subject, |entry| text(entry) != part),
            Ask::HoldsText => self.some(test, subject, |entry| contains(text(entry), part)),
            Ask::StartsWith => self.some(test, subject, |entry| text(entry).starts_with(part)),
            Ask::EndsWith => self.some(test, subject, |entry| text(entry).ends_with(part)),
            Ask::SameToken => self.some(test, subject, |entry| self.is_token(test, subject.card, entry)),
            Ask::OtherToken => self.some(test, subject, |entry| !self.is_token(test, subject.card, entry)),
        }
    }

    /// Whether the entry's token has the code and the system, as far as these are asked for.
    #[inline]
    fn is_token(&self, test: &Test, card: &Card, entry: &Entry) -> bool {
        let code = self.text(test.text);
        (code.is_empty() || card.text(entry.code, entry.end) == code)
            && test.system.is_none_or(|system| card.text(entry.start, entry.system_end) == self.text(system))
    }

    /// Whether the relation holds for some entry that the test is asked of.
    #[inline]
    fn some(&self, test: &Test, subject: Subject, relation: impl Fn(&Entry) -> bool) -> bool {
        let Subject { card, occurrence } = subject;
        let mut at = card.heads[usize::from(test.place)];
        while at != END {
            let entry = &card.entries[usize::from(at)];
            let chosen = Subject { card, occurrence: Some(entry.occurrence) };
            if occurrence.is_none_or(|occurrence| occurrence == entry.occurrence)
                && relation(entry)
                && test.condition.is_none_or(|condition| self.verdict(chosen, condition))
            {
                return true;
            }
            at = entry.next;
        }
        false
    }
}
