//! Texts of filters: tests over what cards hold, joined and put in brackets, with spaces wherever they may stand.

use super::archive::{Archive, Entry, Member};
use super::random::Random;
use super::texts;
use crate::block::Kind;
use crate::filter::OPERATIONS;
use crate::meaning::has_meaning;

/// A test that has a meaning, with a condition inside its path if it asks for a member of a bundle.
pub fn test(random: &mut Random, archive: &Archive) -> Vec<u8> {
    if archive.members().is_empty() || random.once_in(2) {
        return plain_test(random, archive);
    }
    chosen_test(random, archive)
}

/// A test at the top that has a meaning; its value is near a text that some card holds under its name.
pub fn plain_test(random: &mut Random, archive: &Archive) -> Vec<u8> {
    let (place, kind) = archive.parameter(random);
    let word = served_word(random, kind);
    let value = match word {
        b"pr" => truth(random),
        _ => {
            let text = archive.text_under(random, place, kind);
            texts::near_in_filter(random, kind, &text)
        }
    };
    spell_test(random, archive.name(place), word, &value)
}

/// A test of a member, of which there must be some, with a condition inside its path.
pub fn chosen_test(random: &mut Random, archive: &Archive) -> Vec<u8> {
    let member = random.one(&archive.members());
    path(random, archive, member).concat()
}

/// The parts of such a test: the bundle's name, a bracket, the condition, a bracket, a dot, and the test of the member.
/// Both ask for what stands at one occurrence.
fn path(random: &mut Random, archive: &Archive, member: Member) -> [Vec<u8>; 6] {
    let entries = archive.at_one_occurrence(random, member.bundle);
    let members = archive.members_of(member.bundle);
    let count = random.one(&[1, 1, 2, 2, 3]);
    let inner = |_| {
        let asked = random.one(&members);
        member_test(random, archive, asked, &entries)
    };
    let tests: Vec<_> = (0..count).map(inner).collect();
    let depth = random.below(2);
    let condition = join(random, &tests, depth);
    let test = member_test(random, archive, member, &entries);
    [archive.name(member.bundle).to_vec(), b"[".into(), condition, b"]".into(), b".".into(), test]
}

/// A test of a member without its path. Mostly it asks for what one of the entries holds, or for something near that.
fn member_test(random: &mut Random, archive: &Archive, member: Member, entries: &[&Entry]) -> Vec<u8> {
    let Member { place, kind, .. } = member;
    let same = if kind == Kind::Reference { b"re" } else { b"eq" };
    let word = if random.once_in(2) { same } else { served_word(random, kind) };
    let here = entries.iter().find(|entry| entry.place == place);
    let text = match here {
        Some(entry) if !random.once_in(4) => entry.text.clone(),
        _ => archive.text_under(random, place, kind),
    };
    let value = match word {
        b"pr" => truth(random),
        _ if random.once_in(2) => text,
        _ => texts::near_in_filter(random, kind, &text),
    };
    spell_test(random, archive.name(place), word, &value)
}

/// A test of a member with a condition, of which any name may stand where it must not and any test may lack its meaning.
pub fn doubtful_path(random: &mut Random, archive: &Archive) -> Vec<u8> {
    let member = random.one(&archive.members());
    let mut parts = path(random, archive, member);
    let any_name = archive.name(random.below(archive.parameters.len())).to_vec();
    match random.below(8) {
        0 => parts[0] = any_name,
        1 => parts[0] = texts::one_byte_changed(random, &parts[0]),
        2 | 3 => parts[5] = doubtful(random, archive, member.place, member.kind),
        4 => parts[2] = doubtful_path(random, archive),
        _ => {
            let inner = random.one(&archive.members_of(member.bundle));
            let tests = [parts[2].clone(), doubtful(random, archive, inner.place, inner.kind)];
            parts[2] = join(random, &tests, 1);
        }
    }
    if random.once_in(3) {
        parts[5] = doubtful(random, archive, member.place, member.kind);
    }
    parts.concat()
}

/// A test of a bundle or of a member without a path, and with any word and value.
pub fn bare_test(random: &mut Random, archive: &Archive) -> Vec<u8> {
    let member = random.one(&archive.members());
    let name = archive.name(random.one(&[member.place, member.bundle]));
    let (word, _) = random.one(&OPERATIONS);
    let value = texts::on_the_edge(random, member.kind);
    spell_test(random, name, word, &value)
}

/// A path with one of its parts missing, twice, changed for another or with a space before it, or with more than its
/// parts. Some are allowed.
pub fn misspelled_path(random: &mut Random, archive: &Archive) -> Vec<u8> {
    let member = random.one(&archive.members());
    let mut parts = path(random, archive, member);
    let at = random.below(parts.len());
    let part = parts[at].clone();
    let [name, _, condition, ..] = parts.clone();
    match random.below(11) {
        0 => parts[at] = Vec::new(),
        1 => parts[at] = [&part[..], &part].concat(),
        2 | 3 => parts[at] = [b" ", &part[..]].concat(),
        4 => parts[at] = random.one(&["(", ")", "[", "]", ".", " "]).into(),
        5 => parts[5].extend_from_slice(random.one(&["]", ")", " ]", "].a eq 1", "[a eq 1].a eq 1"]).as_bytes()),
        6 => parts[3] = [b"][", &condition[..], b"]"].concat(),
        7 => parts[4] = [b".", &name[..], b"."].concat(),
        8 => parts[2].extend_from_slice(random.one(&["(", ")", "[", "]"]).as_bytes()),
        9 => parts[0] = random.one(&["not", "not ", "and", "or"]).into(),
        _ => parts[5] = path(random, archive, member).concat(),
    }
    parts.concat()
}

/// A test that may lack its meaning for any reason: its name, its operation or its value.
pub fn doubtful_test(random: &mut Random, archive: &Archive) -> Vec<u8> {
    let (place, kind) = archive.parameter(random);
    doubtful(random, archive, place, kind)
}

/// Such a test of the parameter at this place, without a path before its name.
fn doubtful(random: &mut Random, archive: &Archive, place: usize, kind: Kind) -> Vec<u8> {
    let mut name = archive.name(place).to_vec();
    if random.once_in(4) {
        name = match random.below(4) {
            0 => texts::one_byte_changed(random, &name),
            1 => [&name[..], &name[..]].concat(),
            2 => archive.name(random.below(archive.parameters.len())).to_vec(),
            _ => random.one(&["ward", "And", "NOT", "not-x", "android", "_", "Title", "or"]).into(),
        };
    }
    let word = match random.below(3) {
        0 => random.one(&OPERATIONS).0,
        _ => served_word(random, kind),
    };
    let value = match random.below(4) {
        0 => truth(random),
        1 => {
            let text = archive.text_under(random, place, kind);
            texts::near(random, kind, &text)
        }
        2 if word == b"pr" => random.one(&["", "tru", "truee", "yes", "1", "falsee", "fals"]).into(),
        _ => {
            let other = random.one(&Kind::ALL);
            let kind = if random.once_in(4) { other } else { kind };
            texts::on_the_edge(random, kind)
        }
    };
    spell_test(random, &name, word, &value)
}

/// true or false, in any case.
pub fn truth(random: &mut Random) -> Vec<u8> {
    let mut value: Vec<u8> = random.one(&["true", "false"]).into();
    for byte in &mut value {
        if random.once_in(4) {
            byte.make_ascii_uppercase();
        }
    }
    value
}

/// The word of an operation that the kind has.
pub fn served_word(random: &mut Random, kind: Kind) -> &'static [u8] {
    loop {
        let (word, operation) = random.one(&OPERATIONS);
        if has_meaning(kind, operation) {
            return word;
        }
    }
}

/// The text of a test.
pub fn spell_test(random: &mut Random, name: &[u8], word: &[u8], value: &[u8]) -> Vec<u8> {
    let mut text = name.to_vec();
    spaces(random, 1, &mut text);
    text.extend_from_slice(word);
    spaces(random, 1, &mut text);
    spell_value(random, value, &mut text);
    text
}

/// Writes a value as a bare word or as a string. A byte that a string cannot hold gives way to another. Now and then a
/// backslash and a letter stand behind the value.
fn spell_value(random: &mut Random, value: &[u8], text: &mut Vec<u8>) {
    let may_stand = |byte: &u8| byte.is_ascii_graphic() && *byte != b')' && *byte != b']';
    let may_be_bare = !value.is_empty() && value[0] != b'"' && value.iter().all(may_stand);
    if may_be_bare && !random.once_in(3) {
        text.extend_from_slice(value);
        return;
    }
    text.push(b'"');
    for &byte in value {
        match byte {
            b'"' | b'\\' => text.extend([b'\\', byte]),
            b'/' if random.once_in(2) => text.extend(b"\\/"),
            0x08 => text.extend(b"\\b"),
            0x0C => text.extend(b"\\f"),
            0x0A => text.extend(b"\\n"),
            0x0D => text.extend(b"\\r"),
            0x09 => text.extend(b"\\t"),
            0x00..=0x1F => text.push(b'?'),
            _ => text.push(byte),
        }
    }
    match random.below(128) {
        0 | 1 => text.extend([b'\\', random.one(b"')0BNTavx \"\\/bfnrt")]),
        2 => text.extend(b"\\u0041"),
        _ => {}
    }
    text.push(b'"');
}

/// Joins the tests, in their order, with brackets no deeper than this, and with spaces at either end.
pub fn join(random: &mut Random, tests: &[Vec<u8>], depth: usize) -> Vec<u8> {
    let mut text = Vec::new();
    spaces(random, 0, &mut text);
    let mut rest = tests;
    while !rest.is_empty() {
        if rest.len() < tests.len() {
            spaces(random, 1, &mut text);
            text.extend_from_slice(random.one(&[b"and", &b"or"[..]]));
            spaces(random, 1, &mut text);
        }
        // A bracket takes some of the tests that are left.
        let in_bracket = depth > 0 && random.once_in(3);
        let taken = if in_bracket { 1 + random.below(rest.len()) } else { 1 };
        let (here, behind) = rest.split_at(taken);
        if in_bracket {
            let inner = join(random, here, depth - 1);
            text.extend(bracket(random, &inner));
        } else {
            text.extend_from_slice(&here[0]);
        }
        rest = behind;
    }
    spaces(random, 0, &mut text);
    text
}

/// Two tests with a word of the grammar too many, missing or misspelled: before them, between them or behind them.
pub fn misjoin(random: &mut Random, tests: &[Vec<u8>; 2]) -> Vec<u8> {
    let wrong =
        ["", "AND", "Or", "nor", "an", "ands", "o", "not", "or or", "and and", "and not", "or (", ") or", "]", ","];
    let [before, between, behind] = match random.below(4) {
        0 => [random.one(&["not", "not not", "and", "or", "not and", "("]), "and", ""],
        1 => ["", "or", random.one(&["and", "or", "not", "and not", "()", ")", "]"])],
        _ => ["", random.one(&wrong), ""],
    };
    let first = &tests[0];
    let mut second = tests[1].clone();
    if random.once_in(2) {
        second = bracket(random, &second);
    }
    let parts = [before.as_bytes(), first, between.as_bytes(), &second, behind.as_bytes()];
    let mut text = Vec::new();
    for part in parts {
        text.extend_from_slice(part);
        spaces(random, usize::from(!part.is_empty()), &mut text);
    }
    text
}

/// The filter in brackets, after not in half of the cases.
pub fn bracket(random: &mut Random, filter: &[u8]) -> Vec<u8> {
    let mut text = Vec::new();
    if random.once_in(2) {
        text.extend_from_slice(b"not");
        spaces(random, 0, &mut text);
    }
    text.push(b'(');
    text.extend_from_slice(filter);
    text.push(b')');
    text
}

/// The filter with one byte changed; in half of the cases that is a byte of the grammar, or the one behind it.
pub fn one_byte_changed(random: &mut Random, filter: &[u8]) -> Vec<u8> {
    let byte_of_grammar = random.one(b" ()\"\\[].");
    let places: Vec<usize> = (0..filter.len()).filter(|&at| filter[at] == byte_of_grammar).collect();
    if places.is_empty() || random.once_in(2) {
        return texts::one_byte_changed(random, filter);
    }
    let at = random.one(&places) + random.below(2);
    texts::changed_at(random, filter, at)
}

/// Writes some spaces, mostly the least number.
fn spaces(random: &mut Random, least: usize, text: &mut Vec<u8>) {
    let more = if random.once_in(8) { 1 + random.below(2) } else { 0 };
    text.resize(text.len() + least + more, b' ');
}
