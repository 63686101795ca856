//! What a test asks of a card: which operations a kind has, which values are readable, and the yes or no.

use crate::block::{Card, Entry, Kind, Sheet};
use crate::date::Date;
use crate::filter::{Filter, Operation, Test};
use crate::number::Decimal;
use crate::period;
use crate::search::{Alternative, Sign};
use crate::text;
use crate::token::{Pattern, Token};

/// Why a test has no meaning on some card that fits the sheet. The first that holds, in this order, is the one told.
#[derive(Clone, Copy, Debug, PartialEq, Eq)]
pub enum Fault {
    UnknownName,
    BareBundle,
    UnservedOperation,
    NoMeaningForKind,
    UnreadableValue,
}

/// A test with its meaning: what it asks of the texts under one place of the sheet.
#[derive(Clone, Debug, PartialEq, Eq)]
pub struct Question {
    pub place: usize,
    asks: Asks,
}

#[derive(Clone, Debug, PartialEq, Eq)]
enum Asks {
    Present(bool),
    String(Operation, Vec<u8>),
    Number(Operation, Decimal),
    Date(Operation, Date),
    Token(Operation, Pattern),
    Reference(Vec<u8>),
}

/// A card's text, read as its kind.
#[derive(Clone, Copy, Debug, PartialEq, Eq)]
pub enum Value<'a> {
    String(&'a [u8]),
    Number(Decimal),
    /// The span of a date, or of a period.
    Date(Date),
    Token(Token<'a>),
    Reference(&'a [u8]),
}

/// Whether the kind's row of the table has the operation; besides, every kind has pr, and ne where it has eq.
pub fn has_meaning(kind: Kind, operation: Operation) -> bool {
    use Operation::*;
    match operation {
        Pr => true,
        Ne => has_meaning(kind, Eq),
        _ => match kind {
            Kind::String => matches!(operation, Eq | Co | Sw | Ew),
            Kind::Number => matches!(operation, Eq | Gt | Lt | Ge | Le | Co),
            Kind::Date | Kind::Period => matches!(operation, Eq | Gt | Lt | Ge | Le | Sa | Eb | Po | Co),
            Kind::Token => matches!(operation, Eq),
            Kind::Reference => matches!(operation, Re),
        },
    }
}

/// What the test asks, or why it has no meaning.
pub fn question(test: &Test, sheet: &Sheet) -> Result<Question, Fault> {
    let place = find(&test.path, sheet).ok_or(Fault::UnknownName)?;
    question_at(place, test.operation, &test.value, sheet)
}

/// The same of the parameter at a place of the sheet.
pub fn question_at(place: usize, operation: Operation, value: &[u8], sheet: &Sheet) -> Result<Question, Fault> {
    let kind = sheet.parameters[place].kind.ok_or(Fault::BareBundle)?;
    if matches!(operation, Operation::Ap | Operation::Ss | Operation::Sb | Operation::In | Operation::Ni) {
        return Err(Fault::UnservedOperation);
    }
    if !has_meaning(kind, operation) {
        return Err(Fault::NoMeaningForKind);
    }
    let asks = asks(kind, operation, value).ok_or(Fault::UnreadableValue)?;
    Ok(Question { place, asks })
}

/// What an alternative of a search string asks, or why it has no meaning. A bundle's name counts as one that is not there.
pub fn searched(alternative: &Alternative, sheet: &Sheet) -> Result<Question, Fault> {
    let place = find(std::slice::from_ref(&alternative.name), sheet).ok_or(Fault::UnknownName)?;
    let kind = sheet.parameters[place].kind.ok_or(Fault::UnknownName)?;
    let text: Vec<u8> = alternative.text.iter().map(|sign| sign.byte()).collect();
    let (operation, value) = match kind {
        Kind::Number | Kind::Date | Kind::Period => prefixed(&text),
        Kind::String => (Operation::Sw, &text[..]),
        Kind::Token => (Operation::Eq, &text[..]),
        Kind::Reference => (Operation::Re, &text[..]),
    };
    if !has_meaning(kind, operation) {
        return Err(Fault::NoMeaningForKind);
    }
    let asks = match kind {
        Kind::Token => {
            let bar = alternative.text.iter().position(|&sign| sign == Sign::Open(b'|'));
            Pattern::literal(&text, bar).map(|pattern| Asks::Token(operation, pattern))
        }
        _ => asks(kind, operation, value),
    };
    Ok(Question { place, asks: asks.ok_or(Fault::UnreadableValue)? })
}

/// The operation that a prefix asks for, and the value behind it; without one it is eq.
fn prefixed(text: &[u8]) -> (Operation, &[u8]) {
    use Operation::*;
    match text {
        [b'e', b'q', value @ ..] => (Eq, value),
        [b'n', b'e', value @ ..] => (Ne, value),
        [b'g', b't', value @ ..] => (Gt, value),
        [b'l', b't', value @ ..] => (Lt, value),
        [b'g', b'e', value @ ..] => (Ge, value),
        [b'l', b'e', value @ ..] => (Le, value),
        [b's', b'a', value @ ..] => (Sa, value),
        [b'e', b'b', value @ ..] => (Eb, value),
        value => (Eq, value),
    }
}

/// The place of the parameter that the path leads to: the first name stands at the top, and each other one in the bundle
/// that the name before it leads to. No parameter stands in one that is not a bundle.
pub fn find(path: &[Vec<u8>], sheet: &Sheet) -> Option<usize> {
    let mut found = None;
    for name in path {
        let mut parameters = sheet.parameters.iter();
        found = Some(parameters.position(|parameter| parameter.bundle == found && parameter.name == *name)?);
    }
    found
}

/// Reads the filter's value for an operation that the kind has.
fn asks(kind: Kind, operation: Operation, value: &[u8]) -> Option<Asks> {
    if operation == Operation::Pr {
        return read_truth(value).map(Asks::Present);
    }
    match kind {
        Kind::String => Some(Asks::String(operation, value.to_vec())),
        Kind::Number => Some(Asks::Number(operation, Decimal::read(value)?)),
        Kind::Date | Kind::Period => Some(Asks::Date(operation, Date::read(value)?)),
        Kind::Token => Some(Asks::Token(operation, Pattern::read(value)?)),
        Kind::Reference => (!value.is_empty()).then(|| Asks::Reference(value.to_vec())),
    }
}

/// The value of pr: true or false, case ignored, and nothing else.
fn read_truth(value: &[u8]) -> Option<bool> {
    match value.to_ascii_lowercase().as_slice() {
        b"true" => Some(true),
        b"false" => Some(false),
        _ => None,
    }
}

/// Reads a card's text as its kind.
pub fn read_value(kind: Kind, text: &[u8]) -> Option<Value<'_>> {
    match kind {
        Kind::String => Some(Value::String(text)),
        Kind::Number => Decimal::read(text).map(Value::Number),
        Kind::Date => Date::read(text).map(Value::Date),
        Kind::Token => Token::read(text).map(Value::Token),
        Kind::Reference => (!text.is_empty()).then_some(Value::Reference(text)),
        Kind::Period => period::read(text).map(Value::Date),
    }
}

/// A card's value with the place of its parameter and its occurrence.
#[derive(Clone, Copy, Debug, PartialEq, Eq)]
pub struct Held<'a> {
    place: usize,
    occurrence: u8,
    value: Value<'a>,
}

/// What the card holds, if it fits the sheet.
pub fn held<'a>(card: &Card<'a>, sheet: &Sheet) -> Option<Vec<Held<'a>>> {
    let held = |entry: &Entry<'a>| {
        let place = usize::from(entry.head);
        let parameter = sheet.parameters.get(place)?;
        let value = read_value(parameter.kind?, entry.text)?;
        Some(Held { place, occurrence: entry.mark, value })
    };
    card.entries.iter().map(held).collect()
}

/// The filter's yes or no on a card that holds this.
pub fn verdict(filter: &Filter<Question>, held: &[Held]) -> bool {
    filter.verdict(&|question, condition| question.verdict(condition, held))
}

impl Question {
    /// The test's yes or no. A condition is judged for each occurrence by itself, and chooses those that say yes.
    pub fn verdict(&self, condition: Option<&Filter<Question>>, held: &[Held]) -> bool {
        let is_chosen = |occurrence| condition.is_none_or(|condition| verdict(condition, &at(occurrence, held)));
        let mut set = held.iter().filter(|one| one.place == self.place && is_chosen(one.occurrence));
        match &self.asks {
            Asks::Present(wanted) => set.next().is_some() == *wanted,
            asks => set.any(|one| asks.holds(&one.value)),
        }
    }
}

/// What the card holds at one occurrence.
fn at<'a>(occurrence: u8, held: &[Held<'a>]) -> Vec<Held<'a>> {
    held.iter().filter(|one| one.occurrence == occurrence).copied().collect()
}

impl Asks {
    /// Whether one of the card's values stands in the relation asked for.
    fn holds(&self, value: &Value) -> bool {
        match (self, value) {
            (Asks::String(operation, part), Value::String(text)) => string(*operation, text, part),
            (Asks::Number(operation, filter), Value::Number(card)) => number(*operation, *card, *filter),
            (Asks::Date(operation, filter), Value::Date(card)) => date(*operation, *card, *filter),
            (Asks::Token(operation, pattern), Value::Token(card)) => {
                pattern.matches(*card) == (*operation == Operation::Eq)
            }
            (Asks::Reference(wanted), Value::Reference(text)) => text::same(text, wanted),
            _ => unreachable!("the values under a place have the kind of that place"),
        }
    }
}

fn string(operation: Operation, text: &[u8], part: &[u8]) -> bool {
    match operation {
        Operation::Eq => text::same(text, part),
        Operation::Ne => !text::same(text, part),
        Operation::Co => text::contains(text, part),
        Operation::Sw => text::starts(text, part),
        Operation::Ew => text::ends(text, part),
        _ => unreachable!("no such operation on strings"),
    }
}

fn number(operation: Operation, card: Decimal, filter: Decimal) -> bool {
    let order = card.order(filter);
    match operation {
        Operation::Eq => card.inside(filter),
        Operation::Ne => !card.inside(filter),
        Operation::Gt => order.is_gt(),
        Operation::Lt => order.is_lt(),
        Operation::Ge => order.is_ge(),
        Operation::Le => order.is_le(),
        Operation::Co => card.range_holds(filter),
        _ => unreachable!("no such operation on numbers"),
    }
}

fn date(operation: Operation, card: Date, filter: Date) -> bool {
    let ends_later = card.end > filter.end;
    let starts_earlier = card.start < filter.start;
    match operation {
        Operation::Eq => card.inside(filter),
        Operation::Ne => !card.inside(filter),
        Operation::Gt => ends_later,
        Operation::Lt => starts_earlier,
        Operation::Ge => ends_later || card.inside(filter),
        Operation::Le => starts_earlier || card.inside(filter),
        Operation::Sa => card.start >= filter.end,
        Operation::Eb => card.end <= filter.start,
        Operation::Po => card.overlaps(filter),
        Operation::Co => filter.inside(card),
        _ => unreachable!("no such operation on dates"),
    }
}
