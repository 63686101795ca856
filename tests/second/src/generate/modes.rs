//! The modes: each makes inputs of one sort, so that every rule is met often enough.

use super::Case;
use super::archive::{Archive, Card, Entry, record};
use super::damage;
use super::filters;
use super::limits;
use super::random::Random;
use super::texts;
use crate::block::{self, CARD, Kind, MARKED_CARD};
use crate::filter::{DEEPEST, MOST_TESTS, OPERATIONS};

/// A mode: how often it is drawn, and what makes its inputs.
pub struct Mode {
    pub name: &'static str,
    pub weight: usize,
    pub make: fn(&mut Random) -> Case,
}

pub const MODES: [Mode; 21] = [
    Mode { name: "tests over cards", weight: 18, make: tests_over_cards },
    Mode { name: "one test over many cards", weight: 25, make: one_test },
    Mode { name: "long chains", weight: 7, make: long_chain },
    Mode { name: "conditions over occurrences", weight: 18, make: conditions_over_occurrences },
    Mode { name: "conditions near what cards hold", weight: 8, make: conditions_over_cards },
    Mode { name: "one byte of a filter changed", weight: 12, make: one_byte },
    Mode { name: "filters cut short", weight: 6, make: cut_short },
    Mode { name: "at a limit of the grammar", weight: 3, make: limits::no_room },
    Mode { name: "tests joined wrongly", weight: 2, make: misjoined },
    Mode { name: "paths spelled wrongly", weight: 4, make: misspelled_paths },
    Mode { name: "doubtful tests", weight: 6, make: doubtful_tests },
    Mode { name: "doubtful paths", weight: 5, make: doubtful_paths },
    Mode { name: "every operation", weight: 3, make: every_operation },
    Mode { name: "values on the edge", weight: 5, make: edge_values },
    Mode { name: "damaged sheets", weight: 5, make: damaged_sheet },
    Mode { name: "bundles made wrongly", weight: 5, make: bad_bundles },
    Mode { name: "damaged cards", weight: 6, make: damaged_cards },
    Mode { name: "texts on the edge", weight: 5, make: edge_texts },
    Mode { name: "limits", weight: 5, make: limits::make },
    Mode { name: "several faults at once", weight: 2, make: several_faults },
    Mode { name: "any bytes", weight: 1, make: any_bytes },
];

/// The input of this sheet, these cards and this filter. The list may be too short, and it may have cells to spare.
pub fn case_of(random: &mut Random, archive: &Archive, filter: Vec<u8>) -> Case {
    let cards = archive.run();
    let count = archive.cards.len();
    let card = match count {
        0 => Card { first: random.one(&[CARD, MARKED_CARD]), record: record(random), entries: Vec::new() }.block(),
        _ => archive.cards[random.below(count)].block(),
    };
    let list_length = random.below(count + 3);
    let list = cells(random, list_length);
    Case { sheet: archive.sheet(), filter, card, cards, list, rows: Vec::new(), buffer: Vec::new(), from: 0 }
}

/// A list with something in every cell.
pub fn cells(random: &mut Random, length: usize) -> Vec<u32> {
    (0..length).map(|_| random.draw() as u32).collect()
}

/// A few tests over a few cards.
fn tests_over_cards(random: &mut Random) -> Case {
    let cards = random.below(5);
    let archive = Archive::new(random, 6, cards, 6);
    let filter = good_filter(random, &archive, 5);
    case_of(random, &archive, filter)
}

/// Some tests that have a meaning, joined.
pub fn good_filter(random: &mut Random, archive: &Archive, most_tests: usize) -> Vec<u8> {
    let count = 1 + random.below(most_tests);
    let tests: Vec<_> = (0..count).map(|_| filters::test(random, archive)).collect();
    let depth = random.one(&[0, 0, 1, 2, 3]);
    filters::join(random, &tests, depth)
}

/// One test over many cards that hold one text each, all of them near one another.
fn one_test(random: &mut Random) -> Case {
    let mut archive = Archive::new(random, 1, 0, 0);
    let (place, kind) = archive.parameter(random);
    let anchor = texts::readable(random, kind);
    let first = random.one(&[CARD, CARD, CARD, MARKED_CARD]);
    for record in 0..4 + random.below(20) as u32 {
        let text = texts::near_on_card(random, kind, &anchor);
        let entry = Entry { place, occurrence: random.byte(), text };
        archive.cards.push(Card { first, record, entries: vec![entry] });
    }
    let test = filters::plain_test(random, &archive);
    let mut case = case_of(random, &archive, test);
    if !random.once_in(8) {
        case.list = cells(random, archive.cards.len());
    }
    case
}

/// Many short tests in deep brackets, most of them of pr, so that every join has both sides to tell apart.
fn long_chain(random: &mut Random) -> Case {
    let archive = Archive::new(random, 4, 6, 3);
    let count = 2 + random.below(MOST_TESTS - 1);
    let test = |_| match random.once_in(4) {
        true => filters::plain_test(random, &archive),
        false => {
            let (place, _) = archive.parameter(random);
            let value = filters::truth(random);
            filters::spell_test(random, archive.name(place), b"pr", &value)
        }
    };
    let tests: Vec<_> = (0..count).map(test).collect();
    let filter = filters::join(random, &tests, DEEPEST);
    case_of(random, &archive, filter)
}

/// Conditions that hold at some occurrences of a card and not at others.
fn conditions_over_occurrences(random: &mut Random) -> Case {
    let archive = Archive::over_occurrences(random);
    let filter = conditions(random, &archive);
    case_of(random, &archive, filter)
}

/// Conditions near what some cards hold under the members of a bundle.
fn conditions_over_cards(random: &mut Random) -> Case {
    let cards = 1 + random.below(5);
    let archive = Archive::with_bundles(random, 2, cards, 8);
    let filter = conditions(random, &archive);
    case_of(random, &archive, filter)
}

/// One or two tests with a condition, and perhaps one at the top.
fn conditions(random: &mut Random, archive: &Archive) -> Vec<u8> {
    let count = random.one(&[1, 1, 2]);
    let test = |_| match random.once_in(8) {
        true => filters::plain_test(random, archive),
        false => filters::chosen_test(random, archive),
    };
    let tests: Vec<_> = (0..count).map(test).collect();
    let depth = random.below(2);
    filters::join(random, &tests, depth)
}

/// A good filter with exactly one byte exchanged, put in or taken out.
fn one_byte(random: &mut Random) -> Case {
    let archive = Archive::new(random, 3, 3, 4);
    let filter = good_filter(random, &archive, 3);
    let filter = filters::one_byte_changed(random, &filter);
    case_of(random, &archive, filter)
}

/// A good filter cut off anywhere, with something behind it that may go on there or may not.
fn cut_short(random: &mut Random) -> Case {
    let archive = Archive::with_bundles(random, 2, 2, 4);
    let mut filter = match random.once_in(2) {
        true => good_filter(random, &archive, 3),
        false => conditions(random, &archive),
    };
    filter.truncate(random.below(filter.len() + 1));
    let behind = "||| |(|)|[|]|].|.|\"|\\|\\u|a|e|q| and| or |or| not|not |not(|x eq 1|1|\x1F|\x7F";
    let behind: Vec<&str> = behind.split('|').collect();
    filter.extend_from_slice(random.one(&behind).as_bytes());
    if filter.is_empty() {
        filter.push(b' ');
    }
    case_of(random, &archive, filter)
}

/// Two good tests, mostly joined as no filter joins them.
fn misjoined(random: &mut Random) -> Case {
    let archive = Archive::new(random, 3, 3, 4);
    let tests = [filters::test(random, &archive), filters::test(random, &archive)];
    let filter = filters::misjoin(random, &tests);
    case_of(random, &archive, filter)
}

/// A path with brackets, dots and spaces as no path has them, alone or beside a good test.
fn misspelled_paths(random: &mut Random) -> Case {
    let archive = Archive::with_bundles(random, 2, 3, 6);
    let path = filters::misspelled_path(random, &archive);
    let filter = match random.below(3) {
        0 => {
            let tests = [path, filters::plain_test(random, &archive)];
            filters::join(random, &tests, 1)
        }
        1 => filters::bracket(random, &path),
        _ => path,
    };
    case_of(random, &archive, filter)
}

/// Paths of which some names stand outside their scope, and some tests have no meaning.
fn doubtful_paths(random: &mut Random) -> Case {
    let archive = Archive::with_bundles(random, 3, 2, 6);
    let count = 1 + random.below(2);
    let test = |_| match random.below(6) {
        0 => filters::test(random, &archive),
        1 => filters::bare_test(random, &archive),
        _ => filters::doubtful_path(random, &archive),
    };
    let tests: Vec<_> = (0..count).map(test).collect();
    let filter = filters::join(random, &tests, 2);
    case_of(random, &archive, filter)
}

/// Tests of which some have no meaning.
fn doubtful_tests(random: &mut Random) -> Case {
    let archive = Archive::new(random, 5, 2, 4);
    let count = 1 + random.below(4);
    let test = |_| match random.once_in(2) {
        true => filters::test(random, &archive),
        false => filters::doubtful_test(random, &archive),
    };
    let tests: Vec<_> = (0..count).map(test).collect();
    let filter = filters::join(random, &tests, 2);
    case_of(random, &archive, filter)
}

/// One test of any operation, whether its kind has it or not, with a value that the kind can read.
fn every_operation(random: &mut Random) -> Case {
    let archive = Archive::new(random, 3, 2, 3);
    let (place, kind) = archive.parameter(random);
    let (word, _) = random.one(&OPERATIONS);
    let text = archive.text_under(random, place, kind);
    let value = texts::near_in_filter(random, kind, &text);
    let filter = filters::spell_test(random, archive.name(place), word, &value);
    case_of(random, &archive, filter)
}

/// One test whose value is on the edge of what can be read.
fn edge_values(random: &mut Random) -> Case {
    let archive = Archive::new(random, 2, 2, 2);
    let (place, kind) = archive.parameter(random);
    let word = filters::served_word(random, kind);
    let value = texts::on_the_edge(random, kind);
    let filter = filters::spell_test(random, archive.name(place), word, &value);
    case_of(random, &archive, filter)
}

/// A damaged sheet under good cards.
fn damaged_sheet(random: &mut Random) -> Case {
    let mut archive = Archive::new(random, 8, 2, 3);
    let filter = good_filter(random, &archive, 2);
    if random.once_in(4) {
        damage::bad_names(random, &mut archive);
        return case_of(random, &archive, filter);
    }
    let mut case = case_of(random, &archive, filter);
    damage::sheet(random, &mut case.sheet);
    case
}

/// One or two damaged cards among good ones. The matched card is one of them, or of another size.
fn damaged_cards(random: &mut Random) -> Case {
    let count = 1 + random.below(6);
    let archive = Archive::new(random, 5, count, 4);
    let filter = good_filter(random, &archive, 2);
    let mut case = case_of(random, &archive, filter);
    for _ in 0..1 + random.below(2) {
        let at = block::SIZE * random.below(count);
        let card = &mut case.cards[at..at + block::SIZE];
        damage::card(random, card, &archive);
        case.card = card.to_vec();
    }
    if random.once_in(6) {
        let size = random.one(&[0, 1, block::SUMMED, block::SIZE - 1, block::SIZE + 1, 2 * block::SIZE]);
        case.card.resize(size, 0);
    }
    if random.once_in(6) {
        let size = case.cards.len() - random.one(&[1, 4, block::SIZE - 1]);
        case.cards.truncate(size);
    }
    case
}

/// Cards with texts on the edge of what can be read, which none under a bundle can.
fn edge_texts(random: &mut Random) -> Case {
    let mut archive = Archive::new(random, 2, 2, 1);
    let filter = good_filter(random, &archive, 2);
    let kinds: Vec<Option<Kind>> = archive.parameters.iter().map(|parameter| parameter.kind).collect();
    for card in &mut archive.cards {
        let place = random.below(kinds.len());
        let kind = kinds[place].unwrap_or(random.one(&Kind::ALL));
        let text = texts::on_the_edge(random, kind);
        card.entries.push(Entry { place, occurrence: random.byte(), text });
    }
    case_of(random, &archive, filter)
}

/// A sheet with bundles on which one thing about them was changed, mostly to what is not allowed.
fn bad_bundles(random: &mut Random) -> Case {
    let mut archive = Archive::with_bundles(random, 3, 3, 4);
    let filter = good_filter(random, &archive, 2);
    damage::bad_bundles(random, &mut archive);
    case_of(random, &archive, filter)
}

/// Faults in sheet, filter, cards and list, each in half of the cases: the table's order decides.
fn several_faults(random: &mut Random) -> Case {
    let mut case = damaged_cards(random);
    if random.once_in(2) {
        damage::sheet(random, &mut case.sheet);
    }
    match random.below(4) {
        0 => case.filter = filters::one_byte_changed(random, &case.filter),
        1 => case.filter.resize(random.one(&[0, 1025]), b' '),
        2 => case.filter = doubtful_tests(random).filter,
        _ => {}
    }
    if random.once_in(2) {
        case.list.clear();
    }
    case
}

/// Bytes without any sense.
fn any_bytes(random: &mut Random) -> Case {
    let mut bytes = |most: usize| -> Vec<u8> {
        let length = random.below(most + 1);
        (0..length).map(|_| random.byte()).collect()
    };
    let (sheet, filter, card, cards) = (bytes(600), bytes(40), bytes(600), bytes(1100));
    let list = cells(random, 3);
    Case { sheet, filter, card, cards, list, rows: Vec::new(), buffer: Vec::new(), from: 0 }
}
