//! Inputs that go to a limit of the definition, or one past it.

use super::Case;
use super::archive::{Archive, Card, Entry, record, sheet_block};
use super::damage::{self, head_size};
use super::filters;
use super::modes::{case_of, cells};
use super::random::Random;
use super::texts;
use crate::block::{self, CARD, Kind, MARKED_CARD, MARKED_SHEET, Parameter, SHEET, SUMMED};
use crate::filter::{DEEPEST, LONGEST, MOST_TESTS};
use crate::operations::{self, MOST_CARDS};

/// One of the inputs of this file.
pub fn make(random: &mut Random) -> Case {
    match random.below(12) {
        0 => full_sheet(random),
        1 => full_card(random),
        2 => full_run(random),
        3 => fitting_list(random),
        4 => long_filter(random),
        5 => deep_filter(random),
        6 => many_tests(random),
        7 => long_text(random),
        8 => one_entry_more(random),
        9 => deep_path(random),
        10 => many_inner_tests(random),
        _ => empty_sheet(random),
    }
}

/// Where the entries of a full block end: at the last byte that they may use, one before it or one past it.
fn end(random: &mut Random) -> usize {
    random.one(&[SUMMED - 1, SUMMED, SUMMED, SUMMED + 1])
}

/// A sheet whose names fill it, with up to 33 parameters. On a marked one the first or the last is a bundle, and some of
/// the others are its members.
fn full_sheet(random: &mut Random) -> Case {
    let mut archive = Archive::new(random, 1, 3, 2);
    archive.cards[0].entries.clear();
    let first = random.one(&[SHEET, SHEET, MARKED_SHEET]);
    let count = random.one(&[16, 17, 31, 32, 33]);
    let bytes = shares(end(random) - 2 - head_size(first) * count, count);
    let letter = b"abcdefghijklmnopqrstuvwxyzABCDEFGHI";
    let mut parameters: Vec<Parameter> = Vec::new();
    for (index, length) in bytes.into_iter().enumerate() {
        let mut name = vec![b'-'; length];
        name[0] = letter[index];
        parameters.push(Parameter { kind: Some(random.one(&Kind::ALL)), bundle: None, name });
    }
    if first == MARKED_SHEET {
        let bundle = random.one(&[0, count - 1]);
        let named = random.one(&[bundle, bundle, bundle, bundle, count]);
        parameters[bundle].kind = None;
        let members = parameters.iter_mut().filter(|parameter| parameter.kind.is_some());
        members.filter(|_| random.once_in(3)).for_each(|parameter| parameter.bundle = Some(named));
    }
    // The names have room to change places in length, so that one can be at the limit or past it.
    if random.once_in(2) {
        let longest = block::LONGEST_NAME + random.below(2);
        let spare = longest - parameters[0].name.len();
        let (first, rest) = parameters.split_at_mut(1);
        if rest[0].name.len() > spare {
            rest[0].name.truncate(rest[0].name.len() - spare);
            first[0].name.resize(longest, b'-');
        }
    }
    let asked = parameters[random.one(&[0, count - 1])].name.clone();
    let value = filters::truth(random);
    let filter = filters::spell_test(random, &asked, b"pr", &value);
    let mut case = case_of(random, &archive, filter);
    case.sheet = sheet_block(first, &parameters);
    case
}

/// A sheet without parameters. It is sound, so a filter is refused for its names.
fn empty_sheet(random: &mut Random) -> Case {
    let archive = Archive::new(random, 1, 3, 2);
    let test = filters::test(random, &archive);
    let filter = filters::join(random, &[test], 1);
    let mut case = case_of(random, &archive, filter);
    case.sheet = sheet_block(random.one(&[SHEET, MARKED_SHEET]), &[]);
    case
}

/// A card with up to 65 entries, whose texts fill it, some with large check sums, and differ from each other.
fn full_card(random: &mut Random) -> Case {
    let mut archive = Archive::new(random, 3, 3, 3);
    let (place, _) = archive.parameter(random);
    archive.parameters[place].kind = Some(Kind::String);
    archive.cards.retain(|card| card.entries.is_empty());
    let form = random.one(&[CARD, MARKED_CARD]);
    let count = random.one(&[2, 3, 8, 63, 64, 65]);
    let lengths = shares(end(random) - 6 - head_size(form) * count, count);
    let mut entries = Vec::new();
    let first = random.one(b"a\xE8");
    for (index, length) in lengths.into_iter().enumerate() {
        let mut text = vec![first + index as u8 / 8; length];
        text[length - 1] = first + index as u8 % 8;
        entries.push(Entry { place, occurrence: random.byte(), text });
    }
    let head = block::card_head(form, record(random), count).expect("few entries");
    let written: Vec<_> = entries.iter().map(Entry::written).collect();
    let block = block::sealed(block::spell_entries(&head, &written).expect("no share is over 255"));

    archive.cards.push(Card { first: form, record: 0, entries });
    let last = archive.cards.len() - 1;
    let text = archive.cards[last].entries[random.one(&[0, count - 1])].text.clone();
    let value = texts::near_in_filter(random, Kind::String, &text);
    let word = random.one(&[b"eq", b"ne", b"co", b"sw", b"ew"]);
    let filter = filters::spell_test(random, archive.name(place), word, &value);
    let mut case = case_of(random, &archive, filter);
    case.cards.truncate(last * block::SIZE);
    case.cards.extend_from_slice(&block);
    case.card = block;
    case
}

/// A full card whose count is one too large. Where zeros have room for the head of that entry, its text is empty.
fn one_entry_more(random: &mut Random) -> Case {
    let mut archive = Archive::new(random, 1, 2, 0);
    let (place, _) = archive.parameter(random);
    archive.parameters[place].kind = Some(Kind::String);
    let first = random.one(&[CARD, MARKED_CARD]);
    let lengths = shares(SUMMED - random.below(5) - 6 - 2 * head_size(first), 2);
    let entry = |length| Entry { place, occurrence: random.byte(), text: vec![b'a'; length] };
    let entries = lengths.into_iter().map(entry).collect();
    archive.cards.push(Card { first, record: record(random), entries });
    let filter = filters::spell_test(random, archive.name(place), b"eq", b"");
    let mut case = case_of(random, &archive, filter);
    let last = case.cards.len() - block::SIZE;
    case.cards[last + 5] += 1;
    block::store_sum(&mut case.cards[last..]);
    case.card = case.cards[last..].to_vec();
    case
}

/// A run of about 128 cards, perhaps with a part of one more, or with a damaged one anywhere; perhaps all of them match.
fn full_run(random: &mut Random) -> Case {
    let cards = random.one(&[0, 1, MOST_CARDS - 1, MOST_CARDS, MOST_CARDS, MOST_CARDS + 1, 2 * MOST_CARDS]);
    let most_entries = random.one(&[0, 2]);
    let archive = Archive::new(random, 3, cards, most_entries);
    let test = match most_entries {
        0 => {
            let (place, _) = archive.parameter(random);
            filters::spell_test(random, archive.name(place), b"pr", b"false")
        }
        _ => filters::test(random, &archive),
    };
    let mut case = case_of(random, &archive, test);
    if cards > 0 && random.once_in(3) {
        let at = block::SIZE * random.below(cards);
        damage::card(random, &mut case.cards[at..at + block::SIZE], &archive);
    }
    let more = random.one(&[0, 0, 0, 1, block::SIZE - 1]);
    case.cards.resize(case.cards.len() + more, 0);
    if random.once_in(2) {
        case.list = cells(random, MOST_CARDS);
    }
    case
}

/// A list that is as long as the matches are many, one shorter or one longer.
fn fitting_list(random: &mut Random) -> Case {
    let cards = 1 + random.below(12);
    let archive = Archive::new(random, 2, cards, 3);
    let test = filters::test(random, &archive);
    let mut case = case_of(random, &archive, test);
    let mut list = [0; MOST_CARDS];
    let matches = operations::select(&case.sheet, &case.filter, &case.cards, &mut list).unwrap_or(0);
    let length = (matches + random.below(3)).saturating_sub(1);
    case.list = cells(random, length);
    case
}

/// A filter of about 1,024 bytes, or of none or one.
fn long_filter(random: &mut Random) -> Case {
    let archive = Archive::new(random, 3, 2, 3);
    let (place, _) = archive.parameter(random);
    let length = random.one(&[0, 1, LONGEST - 1, LONGEST, LONGEST, LONGEST + 1]);
    let test = filters::test(random, &archive);
    let mut filter = match random.below(4) {
        0 => [test, vec![b' '; LONGEST]].concat(),
        1 => [b"a".repeat(LONGEST - 20), b" eq ".to_vec(), b"b".repeat(30)].concat(),
        2 => [test, b" and ".to_vec(), archive.name(place).to_vec(), b" eq ".to_vec(), vec![b'x'; LONGEST]].concat(),
        _ => [vec![b' '; LONGEST - test.len() % LONGEST], test].concat(),
    };
    if filter.len() > length && random.once_in(2) {
        filter.drain(..filter.len() - length);
    }
    filter.truncate(length);
    case_of(random, &archive, filter)
}

/// Brackets around a filter, about 8 deep.
fn deep_filter(random: &mut Random) -> Case {
    let archive = Archive::new(random, 2, 3, 3);
    let depth = random.one(&[DEEPEST - 1, DEEPEST, DEEPEST, DEEPEST + 1]);
    let mut filter = filters::plain_test(random, &archive);
    for level in 0..depth {
        filter = filters::bracket(random, &filter);
        if level + 1 < depth && random.once_in(4) {
            let test = filters::plain_test(random, &archive);
            filter = match random.below(2) {
                0 => [filter, b" or ".to_vec(), test].concat(),
                _ => [test, b" and ".to_vec(), filter].concat(),
            };
        }
    }
    case_of(random, &archive, filter)
}

/// Brackets of both sorts, about 8 deep: round ones around a condition and in it, or square ones in square ones.
fn deep_path(random: &mut Random) -> Case {
    let archive = Archive::with_bundles(random, 1, 3, 6);
    let depth = random.one(&[DEEPEST - 1, DEEPEST, DEEPEST, DEEPEST + 1]);
    let outside = random.below(depth);
    let member = archive.members()[0];
    let name = archive.name(member.place);
    let mut filter = [name, b" pr true"].concat();
    let square = |filter: Vec<u8>| [archive.name(member.bundle), b"[", &filter, b"].", name, b" pr true"].concat();
    if random.once_in(4) {
        filter = (0..depth).fold(filter, |filter, _| square(filter));
    } else {
        for level in 0..depth {
            filter = if level + 1 + outside == depth { square(filter) } else { filters::bracket(random, &filter) };
        }
    }
    case_of(random, &archive, filter)
}

/// About 32 tests, most of them in conditions.
fn many_inner_tests(random: &mut Random) -> Case {
    let archive = Archive::with_bundles(random, 1, 3, 6);
    let member = archive.members()[0];
    let name = archive.name(member.place);
    let mut left = random.one(&[MOST_TESTS - 1, MOST_TESTS, MOST_TESTS, MOST_TESTS + 1]);
    let mut tests = Vec::new();
    while left > 1 {
        let inner = 1 + random.below(left - 1);
        left -= 1 + inner;
        let condition = vec![[name, b" pr true"].concat(); inner].join(&b" or "[..]);
        tests.push([archive.name(member.bundle), b"[", &condition, b"].", name, b" pr true"].concat());
    }
    tests.extend((0..left).map(|_| filters::plain_test(random, &archive)));
    let filter = filters::join(random, &tests, 1);
    case_of(random, &archive, filter)
}

/// Open brackets of both sorts and tests up to a limit or just before it, and something that may want one more.
pub fn no_room(random: &mut Random) -> Case {
    let archive = Archive::new(random, 2, 2, 2);
    let depth = random.one(&[0, DEEPEST - 1, DEEPEST, DEEPEST]);
    let mut text = Vec::new();
    let mut tests = 1;
    for _ in 0..depth {
        let (open, more) = random.one(&[("(", 0), ("( ", 0), ("not (", 0), ("a[", 1)]);
        text.extend_from_slice(open.as_bytes());
        tests += more;
    }
    let most = random.one(&[tests, MOST_TESTS - 1, MOST_TESTS, MOST_TESTS]);
    for _ in tests..most {
        text.extend_from_slice(random.one(&["a eq 1 and ", "a eq 1 or "]).as_bytes());
    }
    let behind =
        "(|not|not |not(|nota eq 1|a[|a[ |a|a eq 1|a eq 1)|a eq 1]|a eq 1 |a eq 1 a|a eq 1 or|a eq 1 x|a eq \"1\"";
    let behind: Vec<&str> = behind.split('|').collect();
    text.extend_from_slice(random.one(&behind).as_bytes());
    case_of(random, &archive, text)
}

/// About 32 tests.
fn many_tests(random: &mut Random) -> Case {
    let archive = Archive::new(random, 2, 3, 3);
    let (place, _) = archive.parameter(random);
    let count = random.one(&[MOST_TESTS - 1, MOST_TESTS, MOST_TESTS, MOST_TESTS + 1]);
    let test = |_| {
        let value = filters::truth(random);
        [archive.name(place), b" pr ", &value].concat()
    };
    let mut tests: Vec<Vec<u8>> = (0..count).map(test).collect();
    if random.once_in(4) {
        let last = tests.len() - 1;
        tests[last] = filters::doubtful_test(random, &archive);
    }
    let depth = random.below(4);
    let filter = filters::join(random, &tests, depth);
    case_of(random, &archive, filter)
}

/// A text of about 255 bytes, and a value that may be longer.
fn long_text(random: &mut Random) -> Case {
    let mut archive = Archive::new(random, 1, 2, 1);
    let (place, _) = archive.parameter(random);
    let kind = random.one(&[Kind::String, Kind::Token, Kind::Reference]);
    archive.parameters[place].kind = Some(kind);
    let length = texts::LONGEST - random.below(3);
    let mut text: Vec<u8> = (0..length).map(|_| random.one(b"abAB")).collect();
    if kind == Kind::Token && random.once_in(2) {
        text[random.below(length - 1)] = b'|';
    }
    text[length - 1] = random.one(b"az");
    let entry = Entry { place, occurrence: random.byte(), text: text.clone() };
    let card = Card { first: random.one(&[CARD, MARKED_CARD]), record: record(random), entries: vec![entry] };
    archive.cards = vec![card.clone(), card];
    let mut value = texts::near_in_filter(random, kind, &text);
    match random.below(6) {
        0 => value.extend_from_slice(&text[..random.below(60)]),
        1 => value = text[length - 1 - random.below(4)..].to_vec(),
        2 => value = [&text[..], &[b'a'; 256]].concat(),
        _ => {}
    }
    let word: &[u8] = match kind {
        Kind::String => random.one(&[b"eq", b"ne", b"co", b"sw", b"ew"]),
        Kind::Token => random.one(&[b"eq", b"ne"]),
        _ => b"re",
    };
    let filter = filters::spell_test(random, archive.name(place), word, &value);
    case_of(random, &archive, filter)
}

/// A number of bytes in so many shares, as even as can be and at most 255 each.
fn shares(bytes: usize, count: usize) -> Vec<usize> {
    let share = |index| bytes / count + usize::from(index < bytes % count);
    (0..count).map(|index| share(index).min(texts::LONGEST)).collect()
}
