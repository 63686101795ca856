//! Cards that hold the same texts as another one under the names that are used, and all else drawn anew.

use super::archive::{Entry, record};
use super::{Random, texts};
use crate::block::{self, CARD, MARKED_CARD, MOST_ENTRIES, Sheet};
use crate::filter::{self, Filter};
use crate::meaning;
use crate::{rows, search};
use std::collections::BTreeSet;

/// The places of the parameters that are used.
pub type Used = BTreeSet<usize>;

/// Those that a filter names, in its conditions too. A text that is no filter uses none.
pub fn used_by_filter(text: &[u8], sheet: &Sheet) -> Used {
    filter::read(text).map_or_else(Used::new, |filter| used(filter, |test| meaning::find(&test.path, sheet)))
}

/// Those that rows name, if they are good.
pub fn used_by_rows(rows: &[u32], text: &[u8], sheet: &Sheet) -> Used {
    rows::read(rows, text, sheet).map_or_else(Used::new, |filter| used(filter, |question| Some(question.place)))
}

/// Those that a search string names.
pub fn used_by_query(text: &[u8], sheet: &Sheet) -> Used {
    let alternatives = search::read(text).unwrap_or_default().into_iter().flatten();
    alternatives.filter_map(|alternative| meaning::find(&[alternative.name], sheet)).collect()
}

fn used<T>(filter: Filter<T>, place: impl Fn(T) -> Option<usize>) -> Used {
    let mut places = Used::new();
    let _ = filter.try_map(&mut |test| {
        places.extend(place(test));
        Ok::<(), ()>(())
    });
    places
}

/// An entry, and whether the card has to hold it.
struct Drawn {
    entry: Entry,
    needed: bool,
}

/// A card that fits the sheet as this one does, with the same texts under the places used, under members of bundles in the
/// same occurrences. Their order, what is there twice, the other places, the form and the record number are drawn anew.
pub fn alike(random: &mut Random, sheet: &Sheet, card: &[u8], used: &Used) -> Option<Vec<u8>> {
    let read = block::read_card(card).ok()?;
    meaning::held(&read, sheet)?;
    let is_member = |place: usize| sheet.parameters[place].bundle.is_some();
    let mut needed = BTreeSet::new();
    let mut entries = Vec::new();
    for entry in &read.entries {
        let (place, text) = (usize::from(entry.head), entry.text.to_vec());
        if used.contains(&place) {
            needed.insert((place, if is_member(place) { entry.mark } else { 0 }, text));
        } else {
            others(random, sheet, Entry { place, occurrence: entry.mark, text }, &mut entries);
        }
    }
    let has_occurrences = needed.iter().any(|(place, occurrence, _)| is_member(*place) && *occurrence != 0);
    for (place, occurrence, text) in needed {
        for copy in 0..random.one(&[1, 1, 2]) {
            let occurrence = if is_member(place) { occurrence } else { random.byte() };
            let entry = Entry { place, occurrence, text: text.clone() };
            put(random, &mut entries, Drawn { entry, needed: copy == 0 });
        }
    }
    strangers(random, sheet, used, &mut entries);
    let form = if has_occurrences { MARKED_CARD } else { random.one(&[CARD, MARKED_CARD]) };
    Some(written(random, form, card[0], entries))
}

/// An entry that is not used: left out, left as it is, there twice, or with a text near its own.
fn others(random: &mut Random, sheet: &Sheet, entry: Entry, entries: &mut Vec<Drawn>) {
    let kind = sheet.parameters[entry.place].kind.expect("a text of a card that fits");
    for _ in 0..random.below(3) {
        let mut entry = entry.clone();
        if random.once_in(2) {
            entry.text = texts::near_on_card(random, kind, &entry.text);
        }
        put(random, entries, Drawn { entry, needed: false });
    }
}

/// Some entries under places that are not used, at occurrences that the card may have and at others.
fn strangers(random: &mut Random, sheet: &Sheet, used: &Used, entries: &mut Vec<Drawn>) {
    let parameters = sheet.parameters.iter().enumerate().filter(|(place, _)| !used.contains(place));
    let kinds: Vec<_> = parameters.filter_map(|(place, parameter)| Some((place, parameter.kind?))).collect();
    if kinds.is_empty() {
        return;
    }
    for _ in 0..random.below(4) {
        let (place, kind) = random.one(&kinds);
        let entry = Entry { place, occurrence: random.one(&[0, 1, 2, 3, 255]), text: texts::readable(random, kind) };
        put(random, entries, Drawn { entry, needed: false });
    }
}

fn put(random: &mut Random, entries: &mut Vec<Drawn>, drawn: Drawn) {
    entries.insert(random.below(entries.len() + 1), drawn);
}

/// The card's block. What finds no room is left out where it may be; what has to be there has room in the other card's form.
fn written(random: &mut Random, mut form: u8, own_form: u8, mut entries: Vec<Drawn>) -> Vec<u8> {
    let record = record(random);
    loop {
        let listed: Vec<_> = entries.iter().map(|drawn| drawn.entry.written()).collect();
        let block = block::write_card_as(form, record, &listed).filter(|_| listed.len() <= MOST_ENTRIES);
        if let Some(block) = block {
            return block;
        }
        match entries.iter().position(|drawn| !drawn.needed) {
            Some(at) => drop(entries.remove(at)),
            None => form = own_form,
        }
    }
}
