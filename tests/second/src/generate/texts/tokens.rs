//! Tokens.

use super::words;
use crate::generate::random::Random;
use crate::token::NAMESPACES;

/// The last three, behind a bar, begin or end in the middle of a letter.
const CODES: [&[u8]; 12] =
    [b"1234-5", b"1234-6", b"a", b"A", b"a|b", b"|", b"loinc", b"mg", b"\xC3\x96l", b"\x96l", b"\xB6l", b"a\xC3|\x96"];
const SYSTEMS: [&[u8]; 11] = [
    b"",
    b"urn:x",
    b"http://loinc.org/",
    b"http://loinc.or",
    b"Loinc",
    b"loinc2",
    b"loin",
    b"snomedct",
    b"ucu",
    b"urn:\xC3\x89",
    b"urn:\xC3",
];

/// A token on a card, most often with one of the known systems.
pub fn readable(random: &mut Random) -> Vec<u8> {
    let system = system(random);
    let code: Vec<u8> = random.one(&CODES).into();
    match random.below(4) {
        // A code that holds a bar would be split there if no bar stood before it.
        0 if !code.contains(&b'|') => code,
        _ => [system.as_slice(), b"|", &code].concat(),
    }
}

fn system(random: &mut Random) -> Vec<u8> {
    let (short, full) = random.one(&NAMESPACES);
    match random.below(5) {
        0 => short.to_vec(),
        1 => random.one(&SYSTEMS).into(),
        _ => full.to_vec(),
    }
}

/// The same token in another form, with another system or code, or in other case.
pub fn near(random: &mut Random, text: &[u8]) -> Vec<u8> {
    let mut parts = text.splitn(2, |&byte| byte == b'|');
    let first = parts.next().unwrap_or_default();
    let (own_system, own_code) = match parts.next() {
        Some(code) => (first, code),
        None => (&b""[..], first),
    };
    let mut system = match random.below(4) {
        0 => system(random),
        1 => short_name(own_system),
        2 if random.once_in(4) => words::near(random, &short_name(own_system)),
        _ => own_system.to_vec(),
    };
    let mut code = match random.below(5) {
        0 => random.one(&CODES).into(),
        1 => words::near(random, own_code),
        _ => own_code.to_vec(),
    };
    if random.once_in(2) {
        words::other_case(random, &mut system);
        words::other_case(random, &mut code);
    }
    match random.below(6) {
        0 => code,
        1 => [b"|", code.as_slice()].concat(),
        2 => [system.as_slice(), b"|"].concat(),
        _ => [system.as_slice(), b"|", &code].concat(),
    }
}

/// The short name of a system that has one.
fn short_name(system: &[u8]) -> Vec<u8> {
    let known = NAMESPACES.iter().find(|(_, full)| *full == system);
    known.map_or(system, |(short, _)| short).to_vec()
}
