//! Search strings for a case: pairs of the sheet's names with texts of its cards, spelled in many ways.

use super::{Case, Random};
use crate::block::{self, Kind, SIZE};

const PREFIXES: [&[u8]; 12] = [b"", b"", b"", b"eq", b"ne", b"gt", b"lt", b"ge", b"le", b"sa", b"eb", b"ap"];
const TEXTS: [&[u8]; 12] = [
    b"",
    b"1974",
    b"1974-06",
    b"12",
    b"12.0",
    b"loinc|1",
    b"http://loinc.org|",
    b"|a",
    b"|",
    b"a\\|b",
    b"a\\,b",
    b"x$y\\z",
];

/// A search string, of the case's number alone.
pub fn query(seed: u64, number: u64, case: &Case) -> Vec<u8> {
    let mut random = Random::new(!seed, number);
    let mut pairs = Vec::new();
    let most = if random.once_in(12) { 18 } else { 3 };
    for _ in 0..1 + random.below(most) {
        pairs.push(pair(&mut random, case));
    }
    let mut text = pairs.join(&b'&');
    if random.once_in(20) {
        let place = random.below(text.len() + 1);
        let byte = random.one(b"&=%+,\\|$\x00\xC3a0");
        text.insert(place, byte);
    }
    if random.once_in(40) {
        text.resize(1020 + random.below(8), b'a');
    }
    if random.once_in(100) {
        text.clear();
    }
    text
}

fn pair(random: &mut Random, case: &Case) -> Vec<u8> {
    let parameters = block::read_sheet(&case.sheet).map(|sheet| sheet.parameters).unwrap_or_default();
    let served = |place: &usize| parameters[*place].kind.is_some() && parameters[*place].bundle.is_none();
    let mut places: Vec<usize> = (0..parameters.len()).collect();
    if !random.once_in(30) {
        places.retain(served);
    }
    let (place, kind, name) = match places.is_empty() || random.once_in(60) {
        true => (0, None, &b"title"[..]),
        false => {
            let place = random.one(&places);
            (place, parameters[place].kind, &parameters[place].name[..])
        }
    };
    let mut out = encoded(random, name);
    out.push(b'=');
    let most = if random.once_in(15) { 12 } else { 2 };
    for index in 0..1 + random.below(most) {
        if index > 0 {
            out.extend(random.one(&[&b","[..], b",", b"%2C", b"%2c"]));
        }
        let mut value = prefix(random, kind).to_vec();
        value.extend(text(random, case, place, kind));
        if !random.once_in(8) {
            value = escaped(&value);
        }
        out.extend(encoded(random, &value));
    }
    out
}

/// A prefix that the kind takes, or once in a while any.
fn prefix(random: &mut Random, kind: Option<Kind>) -> &'static [u8] {
    match kind {
        _ if random.once_in(60) => random.one(&PREFIXES),
        Some(Kind::Number) => random.one(&PREFIXES[..9]),
        Some(Kind::Date | Kind::Period) => random.one(&PREFIXES[..11]),
        _ => b"",
    }
}

/// A text under the place, for a string its beginning, or one of a few others.
fn text(random: &mut Random, case: &Case, place: usize, kind: Option<Kind>) -> Vec<u8> {
    let cards = case.cards.chunks(SIZE).take(4).chain([&case.card[..]]);
    let under: Vec<Vec<u8>> = cards
        .filter_map(|card| block::read_card(card).ok())
        .flat_map(|card| card.entries)
        .filter(|entry| usize::from(entry.head) == place)
        .map(|entry| entry.text.to_vec())
        .collect();
    if random.once_in(30) {
        return random.one(&TEXTS).to_vec();
    }
    if under.is_empty() || random.once_in(8) {
        return match kind {
            Some(Kind::Number) => b"12".to_vec(),
            Some(Kind::Date | Kind::Period) => random.one(&[&b"1974"[..], b"1974-06", b"2001"]).to_vec(),
            _ => b"a".to_vec(),
        };
    }
    let text = &under[random.below(under.len())];
    let end = match kind {
        Some(Kind::Period) => text.iter().position(|&byte| byte == b'/').filter(|&slash| slash > 0),
        Some(Kind::String) if random.once_in(2) => Some(random.below(text.len() + 1)),
        _ if random.once_in(20) => Some(random.below(text.len() + 1)),
        _ => None,
    };
    let start = match (kind, end) {
        (Some(Kind::Period), None) => text.iter().position(|&byte| byte == b'/').map_or(0, |slash| slash + 1),
        _ => 0,
    };
    text[start..end.unwrap_or(text.len())].to_vec()
}

/// With a backslash before what would cut, most bars left as they are.
fn escaped(text: &[u8]) -> Vec<u8> {
    let mut out = Vec::new();
    for &byte in text {
        if matches!(byte, b',' | b'\\' | b'$') {
            out.push(b'\\');
        }
        out.push(byte);
    }
    out
}

/// Bytes that would be taken for something else are encoded, and some others too.
fn encoded(random: &mut Random, text: &[u8]) -> Vec<u8> {
    let mut out = Vec::new();
    for &byte in text {
        match byte {
            b' ' if random.once_in(2) => out.push(b'+'),
            b'&' | b'=' | b'%' | b'+' => out.extend(format!("%{byte:02X}").bytes()),
            _ if random.once_in(12) => out.extend(format!("%{byte:02x}").bytes()),
            _ => out.push(byte),
        }
    }
    out
}
