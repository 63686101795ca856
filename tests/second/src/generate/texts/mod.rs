//! Texts of each kind: readable ones for cards, texts near a given one, and texts on the edge of what can be read.
//!
//! A relation shows itself only where filter and card nearly agree, so most texts are drawn near another one.

mod dates;
mod numbers;
mod periods;
mod tokens;
mod words;

use super::random::Random;
use crate::block::Kind;
use crate::date::Date;
use crate::meaning::read_value;
use crate::token::Pattern;

/// The longest text of an entry.
pub const LONGEST: usize = 255;

/// A text that a card may hold under a parameter of this kind.
pub fn readable(random: &mut Random, kind: Kind) -> Vec<u8> {
    match kind {
        Kind::String => words::readable(random),
        Kind::Number => numbers::readable(random),
        Kind::Date => dates::readable(random),
        Kind::Token => tokens::readable(random),
        Kind::Reference => words::reference(random),
        Kind::Period => periods::readable(random),
    }
}

/// A text near this one. Whether it can be read is left open.
pub fn near(random: &mut Random, kind: Kind, text: &[u8]) -> Vec<u8> {
    if random.once_in(6) {
        return text.to_vec();
    }
    match kind {
        Kind::String | Kind::Reference => words::near(random, text),
        Kind::Number => numbers::near(random, text),
        Kind::Date => dates::near(random, text),
        Kind::Token => tokens::near(random, text),
        Kind::Period => periods::near(random, text),
    }
}

/// A text near this one that a card may hold.
pub fn near_on_card(random: &mut Random, kind: Kind, text: &[u8]) -> Vec<u8> {
    let is_readable = |near: &[u8]| near.len() <= LONGEST && read_value(kind, near).is_some();
    first_good(random, kind, text, is_readable)
}

/// A text near a card's that a filter may ask for: near a period, a date near one of its own.
pub fn near_in_filter(random: &mut Random, kind: Kind, text: &[u8]) -> Vec<u8> {
    match kind {
        Kind::Period => {
            let date = periods::one_date(random, text);
            first_good(random, Kind::Date, &date, |near| is_asked(kind, near))
        }
        _ => first_good(random, kind, text, |near| is_asked(kind, near)),
    }
}

/// Whether a filter may ask for this text under an operation that the kind has, other than pr.
fn is_asked(kind: Kind, text: &[u8]) -> bool {
    match kind {
        Kind::Token => Pattern::read(text).is_some(),
        Kind::Period => Date::read(text).is_some(),
        _ => read_value(kind, text).is_some(),
    }
}

/// Draws near the text until one is good; the text itself is, so that it can stand in.
fn first_good(random: &mut Random, kind: Kind, text: &[u8], is_good: impl Fn(&[u8]) -> bool) -> Vec<u8> {
    for _ in 0..8 {
        let near = near(random, kind, text);
        if is_good(&near) {
            return near;
        }
    }
    text.to_vec()
}

/// A text on the edge of what can be read as this kind, on either side of it.
pub fn on_the_edge(random: &mut Random, kind: Kind) -> Vec<u8> {
    let edge = match kind {
        Kind::String => words::readable(random),
        Kind::Number => numbers::on_the_edge(random),
        Kind::Date => dates::on_the_edge(random),
        Kind::Token => random.one(&["", "|", "||", "|a", "a|", "a", "a|b", "|||", "a|b|"]).into(),
        Kind::Reference => random.one(&["", " ", "a", "|", "0"]).into(),
        Kind::Period => periods::on_the_edge(random),
    };
    if random.once_in(4) {
        return one_byte_changed(random, &edge);
    }
    edge
}

/// The text with one byte exchanged, put in or taken out.
pub fn one_byte_changed(random: &mut Random, text: &[u8]) -> Vec<u8> {
    let at = random.below(text.len() + 1);
    changed_at(random, text, at)
}

/// The text with the byte at this place exchanged or taken out, or with one put in before it.
pub fn changed_at(random: &mut Random, text: &[u8], at: usize) -> Vec<u8> {
    let mut changed = text.to_vec();
    if at == text.len() {
        changed.push(telling_byte(random));
        return changed;
    }
    match random.below(6) {
        0 => changed.insert(at, telling_byte(random)),
        1 => drop(changed.remove(at)),
        2 => changed[at] ^= 0x20,
        3 => changed[at] = changed[at].wrapping_add(random.one(&[1, 255])),
        _ => changed[at] = telling_byte(random),
    }
    changed
}

/// A byte that some rule speaks of, or its neighbour.
fn telling_byte(random: &mut Random) -> u8 {
    let telling = b" ()[]\"\\/|_-+.:,ZTzt0123459@AZ[`az{abfnrtuEe\n\r\t\x00\x1F\x7E\x7F\x80\xFF\xC3\x96\xB6";
    match random.below(8) {
        0 => random.byte(),
        _ => random.one(telling),
    }
}
