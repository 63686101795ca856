//! What the cards have under each parameter of a sheet: how many, an example, what the values look like; and which record
//! numbers there are.

use crate::block::{self, SIZE};
use crate::cards::{self, AtFault};
use crate::input::Input;
use crate::kind;
use crate::looks::{self, Look, Spelling};
use crate::report::Failure;
use crate::sheet::Sheet;
use crate::text;
use std::ops::Range;
use std::sync::atomic::{AtomicUsize, Ordering};

/// What values may look like that are of another kind.
pub struct Likeness {
    /// The kind that the values look like.
    pub kind: &'static str,
    /// One value that does, and several.
    pub one: &'static str,
    pub many: &'static str,
    /// The kinds that this is doubtful for.
    doubtful: &'static [&'static str],
    /// How a value is spelled that looks like it.
    spelling: fn(&Look, &[u8], own: &str) -> Option<Spelling>,
}

/// Likenesses, the more telling first. A further one is another row. Numbers under a token are only those that no code is
/// spelled like: codes of digits alone are common.
pub const LIKENESSES: [Likeness; 5] = [
    Likeness {
        kind: "date",
        one: "a date",
        many: "dates",
        doubtful: &["string", "number", "token", "reference"],
        spelling: |look, _, _| look.date,
    },
    Likeness {
        kind: "period",
        one: "a period",
        many: "periods",
        doubtful: &["string", "token", "reference"],
        spelling: |look, _, _| look.period,
    },
    Likeness {
        kind: "period",
        one: "a date or a period",
        many: "dates or periods",
        doubtful: &["string", "token", "reference"],
        spelling: |look, _, _| look.date.or(look.period),
    },
    Likeness {
        kind: "number",
        one: "a number",
        many: "numbers",
        doubtful: &["string", "token"],
        spelling: |look, value, own| if own == "token" { look.certain_number(value) } else { look.number },
    },
    Likeness {
        kind: "token",
        one: "a token",
        many: "tokens",
        doubtful: &["string", "reference"],
        spelling: |look, value, _| (look.address && value.contains(&b'|')).then_some(Spelling::Readable),
    },
];

/// How many of the values that do not look like a kind are shown, and how many examples of a field's values.
const OTHERS: usize = 2;
const EXAMPLES: usize = 3;
/// Digits alone may be labels, as those of wards and telephones are: numbers are doubted where one in so many is none. Numbers
/// of one or two digits are those of wards and the like where there are at most so many of them.
const LABELS_TO_NUMBER: u64 = 4;
const MOST_WARDS: u32 = 20;
/// Bare years count as dates where so many times as many values are years as are other digits alone: else they are codes.
const YEARS_TO_DIGITS: u64 = 9;

/// Where a list has to come quickly and a field has more values than so many, only those of half of the cards are looked at; where
/// these are still more, of half of them; and so on, up to one card in 64. So a share is that of 256 values at least.
const ENOUGH: u64 = 512;
const HALVINGS: usize = 6;

/// A value with the index of its card.
pub type Found = (u64, Vec<u8>);

/// The values that look like one kind.
#[derive(Clone, Debug, Default)]
pub struct Alike {
    pub count: u64,
    /// How many of them cannot be read as the kind, and the first of those.
    pub unreadable: u64,
    pub first_unreadable: Option<Found>,
    /// The first values that look like something else.
    others: Firsts<OTHERS>,
}

/// The first values of some sort, so many of them, each once.
#[derive(Clone, Debug, Default)]
struct Firsts<const MOST: usize>(Vec<Found>);

impl<const MOST: usize> Firsts<MOST> {
    /// Keeps a value, if it is one of the first.
    fn take(&mut self, index: u64, value: &[u8]) {
        if self.0.len() < MOST && self.0.iter().all(|(_, other)| other != value) {
            self.0.push((index, value.to_vec()));
        }
    }

    /// The first of these and of others.
    fn with(&self, other: &Firsts<MOST>) -> Firsts<MOST> {
        let mut found = [&self.0[..], &other.0].concat();
        found.sort();
        let mut firsts = Firsts::default();
        for (index, value) in &found {
            firsts.take(*index, value);
        }
        firsts
    }
}

impl Alike {
    fn add(&mut self, other: Alike) {
        self.count += other.count;
        self.unreadable += other.unreadable;
        self.first_unreadable = first(self.first_unreadable.take(), other.first_unreadable, |found| found.0);
        self.others = self.others.with(&other.others);
    }

    /// Counts a value that looks like the kind.
    fn take(&mut self, spelling: Spelling, index: u64, value: &[u8]) {
        self.count += 1;
        if spelling == Spelling::Other {
            self.unreadable += 1;
            self.first_unreadable.get_or_insert_with(|| (index, value.to_vec()));
        }
    }
}

/// What the cards have under one parameter, as far as its values are looked at.
#[derive(Clone, Debug, Default)]
pub struct Field {
    /// Whether only some of the values are.
    pub is_sample: bool,
    pub cards: u64,
    pub values: u64,
    /// The first values.
    examples: Firsts<EXAMPLES>,
    pub alike: [Alike; LIKENESSES.len()],
    /// The first values that look like nothing.
    plain: Firsts<OTHERS>,
    /// How many values are digits alone: likely years, and others.
    years: u64,
    digits: u64,
    /// How many of them are labels; how many have one or two digits, and which; and how many values say nothing.
    labels: u64,
    small: u64,
    small_numbers: u128,
    pub blank: u64,
    /// How many values seem to be in another encoding, and the first card that has one: index, record and why.
    pub strange: u64,
    pub first_strange: Option<(u64, u32, &'static str)>,
}

impl Field {
    /// Adds what another processor has counted.
    fn add(&mut self, other: Field) {
        self.cards += other.cards;
        self.values += other.values;
        self.years += other.years;
        self.digits += other.digits;
        self.labels += other.labels;
        self.small += other.small;
        self.small_numbers |= other.small_numbers;
        self.blank += other.blank;
        self.strange += other.strange;
        self.examples = self.examples.with(&other.examples);
        self.first_strange = first(self.first_strange.take(), other.first_strange, |strange| strange.0);
        self.plain = self.plain.with(&other.plain);
        self.alike.iter_mut().zip(other.alike).for_each(|(alike, more)| alike.add(more));
    }

    /// The first values, and the first of all.
    pub fn examples(&self) -> impl Iterator<Item = &[u8]> {
        self.examples.0.iter().map(|(_, value)| &value[..])
    }

    pub fn example(&self) -> Option<&[u8]> {
        self.examples().next()
    }

    /// The first values that do not look like a kind.
    pub fn others(&self, alike: &Alike) -> Vec<Found> {
        self.plain.with(&alike.others).0
    }

    /// Whether bare digits under it are codes: they are not all likely years.
    pub fn has_codes(&self) -> bool {
        self.digits > 0
    }

    /// How many values are digits alone that may be labels.
    fn labels(&self) -> u64 {
        let are_wards = self.small_numbers.count_ones() <= MOST_WARDS;
        self.labels + if are_wards { self.small } else { 0 }
    }

    /// What more than half of the values look like, if it is another kind's.
    pub fn looks_like(&self) -> Option<(&'static Likeness, &Alike)> {
        let are_codes = self.years < YEARS_TO_DIGITS * self.digits;
        let likely = |likeness: &Likeness, alike: &Alike| {
            let codes = if are_codes && ["date", "period"].contains(&likeness.kind) { self.years } else { 0 };
            let numbers = alike.count.saturating_sub(self.labels());
            let are_labels = likeness.kind == "number" && alike.count > LABELS_TO_NUMBER * numbers;
            2 * alike.count.saturating_sub(codes) > self.values - self.blank && !are_labels
        };
        LIKENESSES.iter().zip(&self.alike).find(|(likeness, alike)| likely(likeness, alike))
    }
}

/// Of two that may be there, the one with the lower index.
fn first<T>(one: Option<T>, other: Option<T>, index: impl Fn(&T) -> u64) -> Option<T> {
    one.into_iter().chain(other).min_by_key(index)
}

/// What all cards hold.
pub struct Held {
    pub cards: u64,
    /// The fields of the sheet, by their places.
    pub fields: Vec<Field>,
    /// The record numbers that several cards bear, in order, each with how many.
    pub repeated: Vec<(u32, u64)>,
    /// For each value that is watched for whether a card has it.
    pub seen: Vec<bool>,
}

/// What one processor has counted.
#[derive(Default)]
pub struct Tally {
    fields: Vec<Sampled>,
    /// The places whose values are looked at on every card of each turn, as bits.
    wanted: [u32; HALVINGS + 1],
    /// The highest lot of a card that is looked at.
    highest_lot: u64,
    seen: Vec<bool>,
    records: Vec<u32>,
    /// The runs of cards whose record numbers rise, and whether there is a piece in which they do not.
    risen: Vec<Risen>,
    falls: bool,
}

/// A field by the turns of the cards that are looked at for it: those before some turn no longer are.
#[derive(Clone, Default)]
struct Sampled {
    by_turn: [Field; HALVINGS + 1],
    from: usize,
    /// How many values there are from that turn on.
    values: u64,
}

impl Sampled {
    /// Whether a turn more can be left out.
    fn has_enough(&self) -> bool {
        self.values > ENOUGH && self.from < HALVINGS
    }

    /// Leaves out the turns that there are enough values without, and those before one that is given.
    fn thin(&mut self, from: usize) {
        while self.from < from || self.has_enough() {
            self.values -= std::mem::take(&mut self.by_turn[self.from]).values;
            self.from += 1;
        }
    }

    /// Adds what another processor has counted, which may have left out fewer turns. None leaves out one that all values together would
    /// not: so the same turns are left in every run.
    fn add(&mut self, other: Sampled) {
        self.from = self.from.max(other.from);
        self.by_turn.iter_mut().zip(other.by_turn).for_each(|(field, more)| field.add(more));
        self.by_turn[..self.from].fill(Field::default());
        self.values = self.by_turn.iter().map(|field| field.values).sum();
    }

    /// The field by all cards that are looked at.
    fn field(self) -> Field {
        let mut sum = Field { is_sample: self.from > 0, ..Field::default() };
        self.by_turn.into_iter().for_each(|field| sum.add(field));
        sum
    }
}

/// A run of cards whose record numbers rise: their indexes, and the first and the last number.
struct Risen {
    cards: Range<u64>,
    first: u32,
    last: u32,
}

/// What is counted of a parameter.
#[derive(Clone, Default)]
struct Asked {
    counts: bool,
    /// The word of its kind, and which likenesses are doubtful for it.
    word: &'static str,
    doubtful: Vec<usize>,
    /// The watched values of it, by their numbers.
    watched: Vec<usize>,
}

/// Counts what cards have under some parameters.
pub struct Counter<'a> {
    sheet: &'a Sheet,
    asked: Vec<Asked>,
    watched: Vec<Vec<u8>>,
    /// Whether of many values only some are looked at, and from which turn on some processor looks at them, by parameter: with what it has
    /// the turns before would be left out at the end, so that the others leave them out too.
    is_quick: bool,
    from: Vec<AtomicUsize>,
}

impl<'a> Counter<'a> {
    /// A counter for the parameters at these places, which watches for values of theirs.
    pub fn new(sheet: &'a Sheet, places: impl IntoIterator<Item = usize>, watched: &[(usize, Vec<u8>)]) -> Counter<'a> {
        let mut asked = vec![Asked::default(); sheet.parameters.len()];
        for place in places {
            let word = kind::by_number(sheet.parameters[place].kind).map_or("", |kind| kind.word);
            let doubtful = (0..LIKENESSES.len()).filter(|&row| LIKENESSES[row].doubtful.contains(&word)).collect();
            let watched = (0..watched.len()).filter(|&number| watched[number].0 == place).collect();
            asked[place] = Asked { counts: true, word, doubtful, watched };
        }
        let from = asked.iter().map(|_| AtomicUsize::new(0)).collect();
        let watched = watched.iter().map(|(_, value)| value.clone()).collect();
        Counter { sheet, asked, watched, is_quick: false, from }
    }

    /// The same counter, for where a list has to come quickly.
    pub fn quick(self) -> Counter<'a> {
        Counter { is_quick: true, ..self }
    }

    /// A counter for all parameters.
    pub fn of_all(sheet: &'a Sheet) -> Counter<'a> {
        Counter::new(sheet, 0..sheet.parameters.len(), &[])
    }

    /// Goes through cards that all have to fit, and counts them. `ask` asks the library of a piece, given the index of its
    /// first card; `take` gets what it answered, up to a card that does not fit, and how many cards the piece has.
    pub fn pass<R: Send>(
        &self,
        cards: Input,
        ask: impl Fn(u64, &[u8]) -> (R, Option<AtFault>) + Sync,
        mut take: impl FnMut(R, u64) -> Result<(), Failure> + Send,
    ) -> Result<Held, Failure> {
        let name = cards.name.clone();
        let tallies = cards::pass(
            cards,
            |tally, first, piece| {
                let (answered, fault) = ask(first, piece);
                if fault.is_none() {
                    self.count(tally, first, piece);
                }
                (answered, fault, (piece.len() / SIZE) as u64)
            },
            |(answered, fault, count)| {
                take(answered, count)?;
                fault.map_or(Ok(()), |fault| Err(Failure::refused(fault.tell(&name, self.sheet))))
            },
        )?;
        Ok(self.sum(tallies))
    }

    /// Counts the cards of a piece.
    pub fn count(&self, tally: &mut Tally, first: u64, piece: &[u8]) {
        if tally.fields.is_empty() {
            tally.fields = vec![Sampled::default(); self.asked.len()];
            tally.seen = vec![false; self.watched.len()];
            self.note_wanted(tally);
        }
        if tally.fields.iter().zip(&self.from).any(|(field, from)| field.from < from.load(Ordering::Relaxed)) {
            self.thin(tally);
        }
        let start = tally.records.len();
        let (cards, _) = piece.as_chunks::<SIZE>();
        tally.records.extend(cards.iter().map(record));
        tally.note_order(first, start);
        let mut lot = lot_of(first);
        for (card, index) in cards.iter().zip(first..) {
            // Of a long file nearly all cards are passed over here.
            if lot <= tally.highest_lot {
                let turn = if self.is_quick { turn(lot) } else { 0 };
                if has_any(card, tally.wanted[turn]) {
                    self.count_card(tally, index, card, turn);
                }
            }
            lot = lot.wrapping_add(LOT);
        }
    }

    /// Counts a card. An entry of a card that does not fit may be of no parameter, and is passed over.
    fn count_card(&self, tally: &mut Tally, index: u64, card: &[u8; SIZE], turn: usize) {
        let (mut seen, mut changes) = (0_u32, false);
        for item in block::items(card) {
            let place = usize::from(item.byte);
            let Some(asked) = self.asked.get(place).filter(|asked| asked.counts) else { continue };
            let is_new = seen & 1 << place == 0;
            seen |= 1 << place;
            let sampled = &mut tally.fields[place];
            if turn >= sampled.from {
                let field = &mut sampled.by_turn[turn];
                count_value(field, asked, index, item.text, is_new);
                if let Some(why) = Some(item.text).filter(|text| !text.is_ascii()).and_then(text::other_encoding) {
                    field.strange += 1;
                    field.first_strange.get_or_insert((index, record(card), why));
                }
                sampled.values += 1;
                changes |= sampled.has_enough();
            }
            for &number in
                asked.watched.iter().filter(|&&number| is_value(asked.word, item.text, &self.watched[number]))
            {
                changes |= !tally.seen[number];
                tally.seen[number] = true;
            }
        }
        if self.is_quick && changes {
            self.thin(tally);
        }
    }

    /// Leaves out the turns that there are enough values without.
    fn thin(&self, tally: &mut Tally) {
        for (field, from) in tally.fields.iter_mut().zip(&self.from) {
            field.thin(from.load(Ordering::Relaxed));
            from.fetch_max(field.from, Ordering::Relaxed);
        }
        self.note_wanted(tally);
    }

    /// Notes which places are to be looked at on cards of each turn: those that have not enough values without it, and those of watched
    /// values that are not seen yet.
    fn note_wanted(&self, tally: &mut Tally) {
        let Tally { fields, seen, wanted, highest_lot, .. } = tally;
        for (turn, wanted) in wanted.iter_mut().enumerate() {
            let is_wanted = |(place, asked): &(usize, &Asked)| {
                asked.counts && (fields[*place].from <= turn || asked.watched.iter().any(|&number| !seen[number]))
            };
            *wanted = self.asked.iter().enumerate().filter(is_wanted).fold(0, |bits, (place, _)| bits | 1 << place);
        }
        *highest_lot = u64::MAX >> wanted.iter().take_while(|wanted| self.is_quick && **wanted == 0).count();
    }

    /// What all processors have counted.
    pub fn sum(&self, tallies: Vec<Tally>) -> Held {
        let mut fields = vec![Sampled::default(); self.asked.len()];
        let mut seen = vec![false; self.watched.len()];
        let (mut records, mut risen, mut falls) = (Vec::new(), Vec::new(), false);
        for tally in tallies {
            records.push(tally.records);
            risen.extend(tally.risen);
            falls |= tally.falls;
            fields.iter_mut().zip(tally.fields).for_each(|(field, more)| field.add(more));
            seen.iter_mut().zip(tally.seen).for_each(|(seen, more)| *seen |= more);
        }
        if self.is_quick {
            for field in &mut fields {
                field.thin(0);
            }
        }
        let cards = records.iter().map(|records| records.len() as u64).sum();
        let repeated = if rises(risen, falls) { Vec::new() } else { repeated(records.concat()) };
        Held { cards, fields: fields.into_iter().map(Sampled::field).collect(), repeated, seen }
    }
}

impl Tally {
    /// Notes whether the record numbers of a piece, which are kept from a place on, rise.
    fn note_order(&mut self, first: u64, start: usize) {
        let records = &self.records[start..];
        self.falls |= !records.is_sorted_by(|one, next| one < next);
        let (false, [low, ..], [.., high]) = (self.falls, records, records) else { return };
        let cards = first..first + records.len() as u64;
        match self.risen.last_mut() {
            Some(before) if before.cards.end == first && before.last < *low => {
                before.cards.end = cards.end;
                before.last = *high;
            }
            _ => self.risen.push(Risen { cards, first: *low, last: *high }),
        }
    }
}

/// Whether record numbers rise over all cards: then none is borne twice. In most archives they do.
fn rises(mut risen: Vec<Risen>, falls: bool) -> bool {
    risen.sort_by_key(|risen| risen.cards.start);
    !falls && risen.windows(2).all(|pair| pair[0].last < pair[1].first)
}

/// The numbers that stand several times among these, in order, each with how many times.
fn repeated(mut records: Vec<u32>) -> Vec<(u32, u64)> {
    // This sort is quick where there are few runs that rise.
    records.sort_unstable();
    let runs = records.chunk_by(|one, other| one == other).filter(|run| run.len() > 1);
    runs.map(|run| (run[0], run.len() as u64)).collect()
}

/// Whether a card has a text under one of some places, which are bits. A field that few cards have is looked for on all of them, so that
/// this goes from length to length and looks at nothing else.
fn has_any(card: &[u8; SIZE], places: u32) -> bool {
    if block::is_marked(card) { has_any_behind::<3>(card, places) } else { has_any_behind::<2>(card, places) }
}

/// The same, where a text has so many bytes before it: its place first, its length last. A card at fault may say that it goes on behind
/// its end.
fn has_any_behind<const HEAD: usize>(card: &[u8; SIZE], places: u32) -> bool {
    let mut at = block::CARD_HEAD;
    for _ in 0..card[block::CARD_HEAD - 1] {
        if at + HEAD > SIZE {
            return false;
        }
        if places >> (card[at] % 32) & 1 == 1 {
            return true;
        }
        at += HEAD + usize::from(card[at + HEAD - 1]);
    }
    false
}

/// What the lots of two cards in a row differ by.
const LOT: u64 = 0x9E37_79B9_7F4A_7C15;

/// The lot of a card, by its index: as good as drawn, and the same in every run.
fn lot_of(index: u64) -> u64 {
    index.wrapping_mul(LOT)
}

/// The turn of a card by its lot: half of the cards have turn 0, half of the others 1, and so on up to the last.
fn turn(lot: u64) -> usize {
    const LAST: u64 = 1 << (63 - HALVINGS);
    (lot | LAST).leading_zeros() as usize
}

/// The record number of a card. It is read from its bytes: to ask the library of every card would take longer than all else here.
pub fn record(card: &[u8; SIZE]) -> u32 {
    u32::from_le_bytes([card[1], card[2], card[3], card[4]])
}

/// Counts a value, and what it looks like; its card too, where it is the card's first.
fn count_value(field: &mut Field, asked: &Asked, index: u64, value: &[u8], is_new: bool) {
    field.cards += u64::from(is_new);
    field.values += 1;
    field.examples.take(index, value);
    if asked.doubtful.is_empty() {
        return;
    }
    if value.first().is_none_or(u8::is_ascii_whitespace) && value.trim_ascii().is_empty() {
        field.blank += 1;
        return;
    }
    // Of what can be read as a number only digits alone can be a date.
    let look = if asked.word == "number" && value.contains(&b'.') { Look::NONE } else { looks::look(value) };
    let look = Look { address: look.address && asked.word != "token", ..look };
    if look == Look::NONE {
        field.plain.take(index, value);
        return;
    }
    field.years += u64::from(look.year);
    field.digits += u64::from(look.digits);
    field.labels += u64::from(look.label);
    if let (true, [tens @ .., ones]) = (look.digits && !look.label && value.len() <= 2, value) {
        field.small += 1;
        field.small_numbers |= 1 << (tens.first().map_or(0, |tens| 10 * (tens - b'0')) + (ones - b'0'));
    }
    for &row in &asked.doubtful {
        match (LIKENESSES[row].spelling)(&look, value, asked.word) {
            Some(spelling) => field.alike[row].take(spelling, index, value),
            None => field.alike[row].others.take(index, value),
        }
    }
}

/// Whether a card has a certain text: a string somewhere in it, a token with or without its system, and a reference as it is.
fn is_value(kind: &str, value: &[u8], text: &[u8]) -> bool {
    let Some(start) = value.len().checked_sub(text.len()) else { return false };
    if kind == "string" {
        return text.is_empty() || value.windows(text.len()).any(|part| part.eq_ignore_ascii_case(text));
    }
    value[start..].eq_ignore_ascii_case(text) && (start == 0 || value[start - 1] == b'|')
}
