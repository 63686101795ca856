//! Sheets and cards before they become blocks, so that filters can be drawn near what the cards hold.

use super::random::Random;
use super::texts;
use crate::block::{self, BUNDLE, CARD, Kind, MARKED_CARD, MARKED_SHEET, Parameter, SHEET};

/// A sheet's parameters and some cards that fit it.
pub struct Archive {
    /// The sheet's first byte, which tells its form.
    pub first: u8,
    pub parameters: Vec<Parameter>,
    pub cards: Vec<Card>,
}

/// A card; its first byte tells its form.
#[derive(Clone)]
pub struct Card {
    pub first: u8,
    pub record: u32,
    pub entries: Vec<Entry>,
}

/// One entry of a card. The occurrence is lost on a card whose form has none.
#[derive(Clone)]
pub struct Entry {
    pub place: usize,
    pub occurrence: u8,
    pub text: Vec<u8>,
}

/// A member of a bundle.
#[derive(Clone, Copy)]
pub struct Member {
    pub place: usize,
    pub kind: Kind,
    pub bundle: usize,
}

impl Archive {
    /// A sheet with some parameters, perhaps of the marked form and with bundles, and cards with some entries each.
    pub fn new(random: &mut Random, most_parameters: usize, cards: usize, most_entries: usize) -> Archive {
        let first = random.one(&[SHEET, SHEET, MARKED_SHEET]);
        let mut parameters = parameters(random, most_parameters);
        if block::is_marked(first) {
            for _ in 0..random.below(3) {
                add_bundle(random, &mut parameters);
            }
        }
        let mut archive = Archive { first, parameters, cards: Vec::new() };
        archive.add_cards(random, cards, most_entries);
        archive
    }

    /// A marked sheet with a bundle and a member at least, and cards as above.
    pub fn with_bundles(random: &mut Random, most_parameters: usize, cards: usize, most_entries: usize) -> Archive {
        let parameters = parameters(random, most_parameters);
        let mut archive = Archive { first: MARKED_SHEET, parameters, cards: Vec::new() };
        while archive.members().is_empty() || random.once_in(2) {
            add_bundle(random, &mut archive.parameters);
        }
        archive.add_cards(random, cards, most_entries);
        archive
    }

    /// A sheet with bundles, and cards whose parameters hold one of two texts at each of a few occurrences, so that
    /// conditions hold at some of them and not at others.
    pub fn over_occurrences(random: &mut Random) -> Archive {
        let mut archive = Archive::with_bundles(random, 2, 0, 0);
        let pair = |(place, kind)| (place, [texts::readable(random, kind), texts::readable(random, kind)]);
        let pairs: Vec<_> = archive.with_texts().into_iter().map(pair).collect();
        for _ in 0..1 + random.below(4) {
            let first = random.one(&[CARD, MARKED_CARD, MARKED_CARD, MARKED_CARD]);
            let mut card = Card { first, record: record(random), entries: Vec::new() };
            for _ in 0..1 + random.below(3) {
                let occurrence = random.one(&[0, 1, 2, 255]);
                for (place, pair) in &pairs {
                    if !random.once_in(4) {
                        let entry = Entry { place: *place, occurrence, text: pair[random.below(2)].clone() };
                        card.entries.insert(random.below(card.entries.len() + 1), entry);
                    }
                }
            }
            archive.cards.push(card);
        }
        archive
    }

    /// Adds cards, some of the form that the sheet has not. Texts under one place are near each other, and a card has few
    /// occurrences, so that entries share them.
    fn add_cards(&mut self, random: &mut Random, cards: usize, most_entries: usize) {
        let anchor = |(place, kind)| (place, kind, texts::readable(random, kind));
        let anchors: Vec<_> = self.with_texts().into_iter().map(anchor).collect();
        let mixed = block::is_marked(self.first) || random.once_in(6);
        let forms: &[u8] = if mixed { &[CARD, MARKED_CARD, MARKED_CARD] } else { &[CARD] };
        for _ in 0..cards {
            let occurrences = [random.one(&[0, 1, 2, 255]), random.one(&[0, 1, 2, 255])];
            let mut card = Card { first: random.one(forms), record: record(random), entries: Vec::new() };
            for _ in 0..random.below(most_entries + 1) {
                let (place, kind, anchor) = &anchors[random.below(anchors.len())];
                let text = texts::near_on_card(random, *kind, anchor);
                card.entries.push(Entry { place: *place, occurrence: random.one(&occurrences), text });
            }
            self.cards.push(card);
        }
    }

    /// The places that have texts, with their kinds: all but the bundles.
    fn with_texts(&self) -> Vec<(usize, Kind)> {
        let parameters = self.parameters.iter().enumerate();
        parameters.filter_map(|(place, parameter)| Some((place, parameter.kind?))).collect()
    }

    /// One place at the top that has texts, and its kind.
    pub fn parameter(&self, random: &mut Random) -> (usize, Kind) {
        let mut parameters = self.with_texts();
        parameters.retain(|&(place, _)| self.parameters[place].bundle.is_none());
        random.one(&parameters)
    }

    /// The members of bundles.
    pub fn members(&self) -> Vec<Member> {
        let member = |(place, kind)| Some(Member { place, kind, bundle: self.parameters[place].bundle? });
        self.with_texts().into_iter().filter_map(member).collect()
    }

    /// The members of this bundle.
    pub fn members_of(&self, bundle: usize) -> Vec<Member> {
        self.members().into_iter().filter(|member| member.bundle == bundle).collect()
    }

    /// The places of the bundles.
    pub fn bundles(&self) -> Vec<usize> {
        let places = 0..self.parameters.len();
        places.filter(|&place| self.parameters[place].kind.is_none()).collect()
    }

    pub fn name(&self, place: usize) -> &[u8] {
        &self.parameters[place].name
    }

    /// A text that a card holds under the place, or another of the kind if no card holds any.
    pub fn text_under(&self, random: &mut Random, place: usize, kind: Kind) -> Vec<u8> {
        let entries = self.cards.iter().flat_map(|card| &card.entries);
        let under: Vec<_> = entries.filter(|entry| entry.place == place).collect();
        if under.is_empty() {
            return texts::readable(random, kind);
        }
        under[random.below(under.len())].text.clone()
    }

    /// The entries of one card at an occurrence that some member of the bundle has there; none if no card holds any.
    pub fn at_one_occurrence(&self, random: &mut Random, bundle: usize) -> Vec<&Entry> {
        let is_member = |entry: &Entry| self.parameters[entry.place].bundle == Some(bundle);
        let entries = self.cards.iter().flat_map(|card| card.entries.iter().map(move |entry| (card, entry)));
        let members: Vec<(&Card, &Entry)> = entries.filter(|(_, entry)| is_member(entry)).collect();
        if members.is_empty() {
            return Vec::new();
        }
        let (card, chosen) = random.one(&members);
        card.entries.iter().filter(|entry| entry.occurrence == chosen.occurrence).collect()
    }

    /// The sheet's block.
    pub fn sheet(&self) -> Vec<u8> {
        sheet_block(self.first, &self.parameters)
    }

    /// The cards' blocks, one behind the other.
    pub fn run(&self) -> Vec<u8> {
        self.cards.iter().flat_map(Card::block).collect()
    }
}

impl Card {
    /// The card's block. Entries that find no room are left out.
    pub fn block(&self) -> Vec<u8> {
        let entries: Vec<_> = self.entries.iter().map(Entry::written).collect();
        let mut kept = entries.len().min(block::MOST_ENTRIES);
        loop {
            if let Some(block) = block::write_card_as(self.first, self.record, &entries[..kept]) {
                return block;
            }
            kept -= 1;
        }
    }
}

impl Entry {
    pub fn written(&self) -> block::Entry<'_> {
        block::Entry { head: self.place as u8, mark: self.occurrence, text: &self.text }
    }
}

/// The block of a sheet, whether its parameters are right or not. What finds no room is cut off.
pub fn sheet_block(first: u8, parameters: &[Parameter]) -> Vec<u8> {
    let entry = |parameter| {
        let Parameter { kind, bundle, name }: &Parameter = parameter;
        let mark = bundle.map_or(0, |place| place as u8 + 1);
        block::Entry { head: kind.map_or(BUNDLE, Kind::number), mark, text: name }
    };
    let entries: Vec<_> = parameters.iter().map(entry).collect();
    let head = block::sheet_head(first, entries.len()).expect("few parameters");
    block::sealed(block::spell_entries(&head, &entries).expect("short names"))
}

/// Some parameters of any kind, at least one, with different names that have room on a sheet of either form.
fn parameters(random: &mut Random, most: usize) -> Vec<Parameter> {
    let wanted = 1 + random.below(most);
    let mut parameters: Vec<Parameter> = Vec::new();
    while parameters.len() < wanted {
        let parameter = Parameter { kind: Some(random.one(&Kind::ALL)), bundle: None, name: name(random) };
        let at = parameters.len();
        if !insert(&mut parameters, at, parameter) && random.once_in(4) {
            break;
        }
    }
    parameters
}

/// Adds a bundle with some members, each at any place. Now and then a member has the name of another bundle's.
fn add_bundle(random: &mut Random, parameters: &mut Vec<Parameter>) {
    let others: Vec<Vec<u8>> = parameters.iter().filter(|it| it.bundle.is_some()).map(|it| it.name.clone()).collect();
    let bundle_name = name(random);
    let at = random.below(parameters.len() + 1);
    if !insert(parameters, at, Parameter { kind: None, bundle: None, name: bundle_name.clone() }) {
        return;
    }
    for _ in 0..1 + random.below(3) {
        let name = match others.is_empty() || random.once_in(2) {
            true => name(random),
            false => others[random.below(others.len())].clone(),
        };
        let bundle = parameters.iter().position(|it| it.bundle.is_none() && it.name == bundle_name);
        let at = random.below(parameters.len() + 1);
        insert(parameters, at, Parameter { kind: Some(random.one(&Kind::ALL)), bundle, name });
    }
}

/// Puts a parameter in at this place, if the sheet is sound with it, and tells whether it did.
fn insert(parameters: &mut Vec<Parameter>, at: usize, parameter: Parameter) -> bool {
    let mut more = parameters.clone();
    more.insert(at, parameter);
    let bundles = more.iter_mut().filter_map(|parameter| parameter.bundle.as_mut());
    bundles.filter(|place| **place >= at).for_each(|place| *place += 1);
    let is_sound = block::read_sheet(&sheet_block(MARKED_SHEET, &more)).is_ok();
    if is_sound {
        *parameters = more;
    }
    is_sound
}

/// A name, often one that is easily mistaken for another or for a word of the grammar.
fn name(random: &mut Random) -> Vec<u8> {
    let known = [
        "title", "Title", "titl", "titles", "birth", "code", "pages", "subject", "_", "_id", "a", "A", "a-", "a_",
        "a1", "And", "OR", "nOt", "and-", "not-x", "orb", "n", "no", "eq", "true", "android",
    ];
    if !random.once_in(3) {
        return random.one(&known).into();
    }
    let length = match random.below(4) {
        0 => block::LONGEST_NAME - random.below(2),
        _ => 1 + random.below(6),
    };
    let mut name = vec![random.one(b"_azAZ")];
    name.extend((1..length).map(|_| random.one(b"_-09azAZ")));
    name
}

/// A record number. Small ones repeat.
pub fn record(random: &mut Random) -> u32 {
    match random.below(4) {
        0 => random.below(5) as u32,
        1 => random.one(&[0, 1, 255, 256, 65_535, 65_536, 16_777_216, u32::MAX]),
        _ => random.draw() as u32,
    }
}
