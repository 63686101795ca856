//! What the values of cards tell about a test that none of them meets.

use crate::asked::Asked;
use crate::kind;
use crate::letters::Near;
use crate::sheet::Sheet;
use crate::system;
use std::cmp::Ordering::{self, Greater, Less};
use std::collections::BTreeMap;

/// How many systems are kept of a field.
const MOST_SYSTEMS: usize = 64;

/// Something that was found, how often, and where first: the card's index, its record number and the value.
#[derive(Clone, Debug, Default)]
pub struct Clue {
    pub count: u64,
    pub first: Option<(u64, u32, Vec<u8>)>,
}

impl Clue {
    pub fn found(&mut self, (index, record): Place, value: &[u8]) {
        self.count += 1;
        self.first.get_or_insert_with(|| (index, record, value.to_vec()));
    }

    fn add(&mut self, other: Clue) {
        self.count += other.count;
        self.first = self.first.take().into_iter().chain(other.first).min_by_key(|first| first.0);
    }

    /// The first value.
    pub fn example(&self) -> &[u8] {
        self.first.as_ref().map_or(b"", |(_, _, value)| value)
    }
}

/// What was found out about a test.
#[derive(Clone, Debug, Default)]
pub struct Clues {
    /// How many cards meet it, and how many have its field, where none does.
    pub met: u64,
    pub cards: u64,
    /// Cards whose date, period or number the value lies in or overlaps.
    pub overlapping: Clue,
    /// Values that differ in little, and in what the first does.
    pub near: Clue,
    pub differences: Vec<&'static str>,
    /// Values that hold the text somewhere, that hold all its words, and that end with it as an address does.
    pub holding: Clue,
    pub words: Clue,
    pub ending: Clue,
    /// Tokens with the same code.
    pub same_code: Clue,
    /// The systems of the field's tokens, and how many values have each.
    pub systems: BTreeMap<Vec<u8>, u64>,
    /// The least and the greatest value of a date or a number.
    pub ends: Option<(Vec<u8>, Vec<u8>)>,
}

impl Clues {
    pub fn add(&mut self, other: Clues) {
        self.met += other.met;
        self.cards += other.cards;
        let earlier = |one: &Clue, more: &Clue| match (&one.first, &more.first) {
            (Some(one), Some(more)) => more.0 < one.0,
            (one, more) => one.is_none() && more.is_some(),
        };
        if earlier(&self.near, &other.near) {
            self.differences = other.differences;
        }
        self.overlapping.add(other.overlapping);
        self.near.add(other.near);
        self.holding.add(other.holding);
        self.words.add(other.words);
        self.ending.add(other.ending);
        self.same_code.add(other.same_code);
        for (system, count) in other.systems {
            *self.systems.entry(system).or_default() += count;
        }
        if let Some((least, greatest)) = other.ends {
            self.widen(&least);
            self.widen(&greatest);
        }
    }

    /// Takes a value into the least and the greatest.
    fn widen(&mut self, value: &[u8]) {
        let (least, greatest) = self.ends.get_or_insert_with(|| (value.to_vec(), value.to_vec()));
        if compare(value, least) == Less {
            *least = value.to_vec();
        }
        if compare(value, greatest) == Greater {
            *greatest = value.to_vec();
        }
    }
}

/// Numbers by their size, dates by their spelling, which has the year first.
fn compare(one: &[u8], other: &[u8]) -> Ordering {
    let number = |text: &[u8]| str::from_utf8(text).ok().and_then(|text| text.parse::<f64>().ok());
    match number(one).zip(number(other)) {
        Some((one, other)) => one.total_cmp(&other),
        None => one.cmp(other),
    }
}

/// Where a value stands: the card's index, and its record number.
type Place = (u64, u32);

/// What is looked for, made ready once for many values.
pub struct Sought<'a> {
    asked: &'a Asked,
    /// The word of the field's kind.
    pub kind: &'static str,
    /// What the value says, of a token its code: to be compared with little care, in small letters, and by its words.
    near: Option<Near>,
    small: Vec<u8>,
    words: Vec<String>,
}

impl<'a> Sought<'a> {
    pub fn new(sheet: &Sheet, asked: &'a Asked) -> Sought<'a> {
        let kind = kind::by_number(sheet.parameters[asked.place].kind).map_or("", |kind| kind.word);
        let text = if kind == "token" { system::split(&asked.value).1 } else { &asked.value };
        let small = text.to_ascii_lowercase();
        Sought { asked, kind, near: Near::new(text), words: words(&small), small }
    }

    /// Looks at a value that does not stand in the relation that is asked.
    pub fn look_at(&self, clues: &mut Clues, place: Place, value: &[u8]) {
        let operator = self.asked.operator.as_str();
        match self.kind {
            "date" | "number" => clues.widen(value),
            "token" if operator == "eq" => self.look_at_token(clues, place, value),
            "string" if ["eq", "co", "sw", "ew"].contains(&operator) => self.look_at_string(clues, place, value),
            "reference" if operator == "re" => {
                self.look_near(clues, place, value, value);
                if system::is_end_of(&value.to_ascii_lowercase(), &self.small) {
                    clues.ending.found(place, value);
                }
            }
            _ => {}
        }
    }

    /// Looks whether a value, or a part of it, differs in little.
    fn look_near(&self, clues: &mut Clues, place: Place, part: &[u8], value: &[u8]) {
        let stands = |asked: &str, value: &str| match self.asked.operator.as_str() {
            "co" => value.contains(asked),
            "sw" => value.starts_with(asked),
            "ew" => value.ends_with(asked),
            _ => value == asked,
        };
        if let Some(differences) = self.near.as_ref().and_then(|near| near.differences(part, stands)) {
            if clues.near.count == 0 {
                clues.differences = differences;
            }
            clues.near.found(place, value);
        }
    }

    /// Looks whether a string holds what is asked elsewhere, or its words in another order.
    fn look_at_string(&self, clues: &mut Clues, place: Place, value: &[u8]) {
        self.look_near(clues, place, value, value);
        let is_part =
            |small: &[u8]| !self.small.is_empty() && small.windows(self.small.len()).any(|part| part == self.small);
        if self.asked.operator != "co" && is_part(&value.to_ascii_lowercase()) {
            clues.holding.found(place, value);
        }
        if self.words.len() > 1 {
            let there = words(&value.to_ascii_lowercase());
            if self.words.iter().all(|word| there.contains(word)) {
                clues.words.found(place, value);
            }
        }
    }

    /// Looks at a token: its system, and whether its code is the one that is asked, or nearly.
    fn look_at_token(&self, clues: &mut Clues, place: Place, value: &[u8]) {
        let (system, code) = system::split(value);
        let is_full = clues.systems.len() >= MOST_SYSTEMS;
        match clues.systems.get_mut(system) {
            Some(count) => *count += 1,
            None if is_full => {}
            None => {
                clues.systems.insert(system.to_vec(), 1);
            }
        }
        if !self.small.is_empty() && code.eq_ignore_ascii_case(&self.small) {
            clues.same_code.found(place, value);
        }
        self.look_near(clues, place, code, value);
    }
}

/// The words of a text, without points and the like at their ends.
fn words(text: &[u8]) -> Vec<String> {
    let text = String::from_utf8_lossy(text);
    let bare = |word: &str| word.trim_matches(|c: char| c.is_ascii_punctuation()).to_string();
    text.split_whitespace().map(bare).filter(|word| !word.is_empty()).collect()
}
