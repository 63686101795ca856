//! The meaning of a test: the relation that it asks for, and its value read.

use crate::code::{Ask, Part, Test};
use crate::text::fold;
use crate::{date, number};
use second::block::Kind;
use second::filter::Operation;
use second::token::NAMESPACES;

/// Gives a test its meaning under a parameter of this kind, or none for a bundle; or tells the number of its refusal.
pub fn give(
    test: &mut Test,
    kind: Option<Kind>,
    operation: Operation,
    value: &[u8],
    texts: &mut Vec<u8>,
) -> Result<(), u32> {
    use Operation::{Ap, In, Ni, Sb, Ss};
    let kind = kind.ok_or(18u32)?;
    if matches!(operation, Ap | Ss | Sb | In | Ni) {
        return Err(15);
    }
    test.ask = ask(kind, operation).ok_or(16u32)?;
    let read = match kind {
        _ if operation == Operation::Pr => read_truth(value).map(|ask| test.ask = ask),
        Kind::Number => number::read(value).map(|span| test.span = span),
        Kind::Date | Kind::Period => date::read(value).map(|span| test.span = span),
        Kind::Reference if value.is_empty() => None,
        Kind::String | Kind::Reference => {
            test.text = put(value, texts);
            Some(())
        }
        Kind::Token => read_token(test, value, texts),
    };
    read.ok_or(17)
}

/// The relation that an operator asks of values of this kind, if it has a meaning for them.
fn ask(kind: Kind, operation: Operation) -> Option<Ask> {
    use Kind::{Date, Number, Period, Reference, String, Token};
    use Operation::{Co, Eb, Eq, Ew, Ge, Gt, Le, Lt, Ne, Po, Pr, Re, Sa, Sw};
    Some(match (kind, operation) {
        (_, Pr) => Ask::Present,
        (Number | Date | Period, Eq) => Ask::Inside,
        (Number | Date | Period, Ne) => Ask::NotInside,
        (Number, Gt) => Ask::NumberAbove,
        (Number, Lt) => Ask::NumberBelow,
        (Number, Ge) => Ask::NumberAtLeast,
        (Number, Le) => Ask::NumberAtMost,
        (Number, Co) => Ask::NumberInRange,
        (Date | Period, Gt) => Ask::EndsLater,
        (Date | Period, Lt) => Ask::StartsEarlier,
        (Date | Period, Ge) => Ask::EndsLaterOrInside,
        (Date | Period, Le) => Ask::StartsEarlierOrInside,
        (Date | Period, Sa) => Ask::StartsAfter,
        (Date | Period, Eb) => Ask::EndsBefore,
        (Date | Period, Po) => Ask::Overlaps,
        (Date | Period, Co) => Ask::Covers,
        (String, Eq) | (Reference, Re) => Ask::SameText,
        (String, Ne) => Ask::OtherText,
        (String, Co) => Ask::HoldsText,
        (String, Sw) => Ask::StartsWith,
        (String, Ew) => Ask::EndsWith,
        (Token, Eq) => Ask::SameToken,
        (Token, Ne) => Ask::OtherToken,
        _ => return None,
    })
}

/// The value of `pr`.
fn read_truth(value: &[u8]) -> Option<Ask> {
    if value.eq_ignore_ascii_case(b"true") {
        return Some(Ask::Present);
    }
    value.eq_ignore_ascii_case(b"false").then_some(Ask::Absent)
}

/// A token, split at its first bar, with a short name of a system written out.
fn read_token(test: &mut Test, value: &[u8], texts: &mut Vec<u8>) -> Option<()> {
    let bar = value.iter().position(|&byte| byte == b'|');
    let code = bar.map_or(value, |bar| &value[bar + 1..]);
    if code.is_empty() && bar.is_none_or(|bar| bar == 0) {
        return None;
    }
    test.text = put(code, texts);
    test.system = bar.map(|bar| {
        let short = &value[..bar];
        let known = NAMESPACES.iter().find(|(name, _)| short.eq_ignore_ascii_case(name));
        put(known.map_or(short, |(_, system)| system), texts)
    });
    Some(())
}

/// Puts a text, folded, behind the others.
fn put(text: &[u8], texts: &mut Vec<u8>) -> Part {
    let start = texts.len();
    texts.resize(start + text.len(), 0);
    fold(text, &mut texts[start..]);
    Part { start: start as u16, end: texts.len() as u16 }
}
