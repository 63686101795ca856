//! Search strings: pairs of a name and a value, joined by "&", and what they ask.

use crate::block::Sheet;
use crate::filter::{Filter, Item, Join};
use crate::meaning::{self, Fault, Question};

/// The most alternatives of a string.
pub const MOST_ALTERNATIVES: usize = 32;

/// A byte of a decoded value: one that a backslash has made plain, or one that may still cut or split.
#[derive(Clone, Copy, Debug, PartialEq, Eq)]
pub enum Sign {
    Plain(u8),
    Open(u8),
}

impl Sign {
    pub fn byte(self) -> u8 {
        match self {
            Sign::Plain(byte) | Sign::Open(byte) => byte,
        }
    }
}

/// One alternative: the first byte of its pair, the pair's name, and its text.
#[derive(Clone, Debug, PartialEq, Eq)]
pub struct Alternative {
    pub place: usize,
    pub name: Vec<u8>,
    pub text: Vec<Sign>,
}

/// The pairs of a string, each as its alternatives; or the first byte of the first part that is no pair.
pub fn read(text: &[u8]) -> Result<Vec<Vec<Alternative>>, usize> {
    let mut place = 0;
    let mut pairs = Vec::new();
    for part in text.split(|&byte| byte == b'&') {
        pairs.push(pair(place, part).ok_or(place)?);
        place += part.len() + 1;
    }
    Ok(pairs)
}

fn pair(place: usize, part: &[u8]) -> Option<Vec<Alternative>> {
    let cut = part.iter().position(|&byte| byte == b'=')?;
    let name = decoded(&part[..cut])?;
    let value = signs(&decoded(&part[cut + 1..])?);
    let alternatives = value.split(|&sign| sign == Sign::Open(b','));
    Some(alternatives.map(|text| Alternative { place, name: name.clone(), text: text.to_vec() }).collect())
}

/// What a name or a value stands for: "+" is a space and % with two hex digits a byte.
fn decoded(raw: &[u8]) -> Option<Vec<u8>> {
    let mut bytes = raw.iter();
    let mut out = Vec::new();
    while let Some(&byte) = bytes.next() {
        out.push(match byte {
            b'+' => b' ',
            b'%' => {
                let mut digit = || char::from(*bytes.next()?).to_digit(16);
                let (high, low) = (digit()?, digit()?);
                (high * 16 + low) as u8
            }
            other => other,
        });
    }
    Some(out)
}

/// A comma, "|", "$" or backslash after a backslash is plain; any other backslash is itself.
fn signs(value: &[u8]) -> Vec<Sign> {
    let mut out = Vec::new();
    let mut rest = value;
    loop {
        rest = match rest {
            [] => return out,
            [b'\\', special @ (b',' | b'|' | b'$' | b'\\'), rest @ ..] => {
                out.push(Sign::Plain(*special));
                rest
            }
            [byte, rest @ ..] => {
                out.push(Sign::Open(*byte));
                rest
            }
        };
    }
}

/// What the pairs ask, as a filter: alternatives joined by or in brackets, and the brackets by and. Or the first alternative
/// that has no meaning, by the first byte of its pair, and why.
pub fn question(pairs: &[Vec<Alternative>], sheet: &Sheet) -> Result<Filter<Question>, (usize, Fault)> {
    let mut brackets = Vec::new();
    for pair in pairs {
        let mut tests = Vec::new();
        for alternative in pair {
            let asked = meaning::searched(alternative, sheet).map_err(|fault| (alternative.place, fault))?;
            tests.push(Item::Test(asked, None));
        }
        brackets.push(Item::Bracket(Box::new(joined(Join::Or, tests))));
    }
    Ok(joined(Join::And, brackets))
}

/// The items, of which there is at least one, joined by one word.
fn joined(join: Join, items: Vec<Item<Question>>) -> Filter<Question> {
    let mut items = items.into_iter();
    let first = items.next().expect("a string has a pair, and a pair an alternative");
    Filter { first, rest: items.map(|item| (join, item)).collect() }
}
