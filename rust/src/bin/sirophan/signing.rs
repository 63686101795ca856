//! What is asked for a page, and the page that is made of what was found.

use crate::advice::Question;
use crate::block::SIZE;
use crate::cards::AtFault;
use crate::columns::{Columns, Row};
use crate::doubt;
use crate::in_words;
use crate::input::Input;
use crate::kind;
use crate::matching;
use crate::might_be::{self, MightBe};
use crate::page::{self, Fact, Page, Part};
use crate::report::{Failure, Message};
use crate::seal;
use crate::sha256::Hash;
use crate::survey::Survey;
use crate::tally::{Held, record};
use crate::text::{counted, grouped};
use crate::version;
use sirophan::filter::Filter;
use std::slice;

/// What the cards are called on a page, whatever their file is.
const CARDS_NAME: &str = "cards.bin";

/// What was found for a page.
pub struct Found {
    pub records: Vec<u32>,
    rows: Vec<Row>,
    /// How many cards might be on the list, by sort; none where it is not known.
    might_be: Vec<Option<u64>>,
    pub held: Held,
    pub sheet_hash: Hash,
    pub cards_hash: Hash,
    /// Whether they were gone through once, as cards from a pipe are.
    one_walk: bool,
    pub warnings: Vec<Message>,
}

/// What was found on a piece.
struct Piece {
    records: Vec<u32>,
    rows: Vec<Row>,
    might_be: Vec<Option<u64>>,
}

/// A question that is to be answered by a page.
pub struct Asking<'a> {
    pub question: &'a Question,
    pub columns: Option<Columns>,
    survey: Survey<'a>,
    sorts: Vec<MightBe>,
}

impl<'a> Asking<'a> {
    /// Of a question that has a meaning.
    pub fn new(question: &'a Question, columns: Option<Columns>) -> Asking<'a> {
        let survey = Survey::new(slice::from_ref(question));
        let sorts = might_be::of(question, &survey.asked);
        Asking { question, columns, survey, sorts }
    }

    /// Asks of all cards, hashes them on the way, and holds them to the seal beside them. Where they come through a pipe, or are to be
    /// taken as if they did, there is one walk over them.
    pub fn ask(&self, path: &str, cards: Input, as_pipe: bool) -> Result<Found, Failure> {
        let is_file = cards.size.is_some();
        let one_walk = as_pipe || !is_file;
        let (cards, hashed) = cards.hashed();
        let (mut records, mut rows) = (Vec::new(), Vec::new());
        let mut might_be = vec![Some(0); self.sorts.len()];
        let ask = |first, piece: &[u8]| self.ask_piece(first, piece);
        let held = self.survey.counter().pass(cards, ask, |piece, _| {
            records.extend(piece.records);
            rows.extend(piece.rows);
            add(&mut might_be, &piece.might_be);
            Ok(())
        })?;
        let cards_hash = hashed.so_far();
        if is_file {
            seal::hold_hash(path, cards_hash)?;
        }
        let second = if one_walk { "-" } else { path };
        let warnings = self.survey.warnings(CARDS_NAME, second, &held, &records);
        let sheet_hash = Hash::of(&self.question.sheet.block);
        Ok(Found { records, rows, might_be, held, sheet_hash, cards_hash, one_walk, warnings })
    }

    /// Asks of the runs of a piece before the first that is refused, and answers what is refused.
    fn ask_piece(&self, first: u64, piece: &[u8]) -> (Piece, Option<AtFault>) {
        let might_be = vec![Some(0); self.sorts.len()];
        let mut found = Piece { records: Vec::new(), rows: Vec::new(), might_be };
        let fault = matching::in_piece(self.question, first, piece, |run, on_list| {
            for card in matching::cards(run, on_list) {
                found.records.push(record(card));
                found.rows.extend(self.columns.iter().map(|columns| columns.row(card)));
            }
            let counts: Vec<Option<u64>> =
                self.sorts.iter().map(|sort| sort.count(self.question, run, on_list)).collect();
            add(&mut found.might_be, &counts);
        });
        (found, fault)
    }

    /// The page of an answer, in the order in which it is read.
    pub fn page(&self, found: &Found, date: &str) -> Page {
        let (matching, cards) = (found.records.len() as u64, found.held.cards);
        let match_ = if matching == 1 { "matches" } else { "match" };
        let outcome = format!("{} of {} {match_}.", grouped(matching), counted(cards, "card"));
        let mut parts = asked(&self.question.text);
        parts.extend([Part::Heading(page::TESTS), self.tests()]);
        parts.extend([Part::Heading(page::ANSWER), Part::Outcome(outcome)]);
        parts.extend(self.list(found));
        parts.extend([Part::Heading(page::HELD), self.fields(found)]);
        parts.push(if found.warnings.is_empty() {
            let none = "Nothing is doubted. Doubts go by rules of thumb, and that there are none proves nothing.";
            Part::Sentence(none.into())
        } else {
            Part::Messages(found.warnings.clone())
        });
        parts.extend(found.one_walk.then(|| Part::Sentence(page::ONE_WALK.into())));
        parts.push(Part::Heading(page::MIGHT_BE));
        parts.extend(self.might_be(found));
        parts.push(Part::Heading(page::ARCHIVE));
        parts.push(Part::Facts(vec![
            Fact { mark: page::CARDS, value: grouped(cards).into() },
            Fact { mark: page::SHEET_HASH, value: found.sheet_hash.to_string().into() },
            Fact { mark: page::CARDS_HASH, value: found.cards_hash.to_string().into() },
        ]));
        parts.extend(made(date, "These are all the cards of this archive that match the question above."));
        Page { title: "Which cards match".into(), parts }
    }

    /// Each test in words, with its parts.
    fn tests(&self) -> Part {
        let sheet = &self.question.sheet;
        let rows = self.survey.asked.iter().map(|asked| {
            let words = in_words::told(sheet, asked).into_bytes();
            let kind = kind::word_of(sheet.parameters[asked.place].kind).into_bytes();
            let field = sheet.path(asked.place, 0).into_bytes();
            let operator = asked.operator.clone().into_bytes();
            [words, field, kind, operator, asked.value.clone()].map(|cell| vec![cell]).to_vec()
        });
        let head = ["Test", "Field", "Kind", "Operator", "Value"].map(String::from).to_vec();
        Part::Table { head, rows: rows.collect() }
    }

    /// The list.
    fn list(&self, found: &Found) -> Vec<Part> {
        if found.records.is_empty() {
            return vec![Part::Sentence(page::EMPTY.into())];
        }
        let Some(columns) = &self.columns else { return vec![Part::Numbers(found.records.clone())] };
        let rows = found.rows.iter().map(|row| (row.record, row.told()));
        vec![
            Part::Facts(vec![Fact { mark: page::COLUMNS, value: columns.names.join(",").into() }]),
            Part::Cards { head: columns.names.clone(), rows: rows.collect() },
        ]
    }

    /// What the cards have under each field that is asked.
    fn fields(&self, found: &Found) -> Part {
        let sheet = &self.question.sheet;
        let rows = doubt::places(&self.survey.asked).into_iter().map(|place| {
            let field = &found.held.fields[place];
            let [with, without, values] = [field.cards, found.held.cards - field.cards, field.values].map(grouped);
            let words = [sheet.path(place, 0), kind::word_of(sheet.parameters[place].kind), with, without, values];
            let examples = field.examples().map(<[u8]>::to_vec).collect();
            words.map(|word| vec![word.into_bytes()]).into_iter().chain([examples]).collect()
        });
        let head = ["Field", "Kind", "Cards with it", "Cards without it", "Values", "Examples"];
        Part::Table { head: head.map(String::from).to_vec(), rows: rows.collect() }
    }

    /// What is not on the list and might be.
    fn might_be(&self, found: &Found) -> Vec<Part> {
        if self.sorts.is_empty() {
            return vec![Part::Sentence("Nothing: each test asks whether a field is there.".into())];
        }
        let rows = self.sorts.iter().zip(&found.might_be).map(|(sort, count)| {
            let count = count.map_or("not counted".into(), grouped);
            [count, sort.told.clone()].map(|word| vec![word.into_bytes()]).to_vec()
        });
        vec![Part::Table { head: ["Cards", "Which"].map(String::from).to_vec(), rows: rows.collect() }]
    }
}

/// Adds counts to others. What is not known of a part is not known of the whole.
fn add(sums: &mut [Option<u64>], counts: &[Option<u64>]) {
    for (sum, count) in sums.iter_mut().zip(counts) {
        *sum = sum.zip(*count).map(|(sum, count)| sum + count);
    }
}

/// The question in its three spellings, as far as it has them.
fn asked(text: &[u8]) -> Vec<Part> {
    let plain = sirophan::plain(text).ok();
    let read = plain.as_deref().and_then(Filter::with_every_bracket);
    let spellings = [(page::SENT, Some(text.to_vec())), (page::PLAIN, plain), (page::READ, read)];
    let facts = spellings.into_iter().filter_map(|(mark, value)| Some(Fact { mark, value: value? }));
    vec![Part::Heading(page::QUESTION), Part::Facts(facts.collect())]
}

/// How the page was made, the date, and a line to sign.
fn made(date: &str, statement: &'static str) -> Vec<Part> {
    vec![
        Part::Heading(page::MADE),
        Part::Facts(vec![Fact { mark: page::VERSION, value: version::told().into() }, Page::unknown_fingerprint()]),
        Part::Heading(page::SIGNED),
        Part::Facts(vec![Fact { mark: page::DATE, value: date.into() }]),
        Part::Signature(statement),
    ]
}

/// The most bytes of a question that is refused that a page shows.
const MOST_SHOWN: usize = 2048;

/// What the page of a refusal tells beside why: what is known before the cards are read.
pub struct Refusing<'a> {
    question: &'a Question,
    cards: Option<u64>,
}

impl<'a> Refusing<'a> {
    pub fn new(question: &'a Question, cards: &Input) -> Refusing<'a> {
        Refusing { question, cards: cards.size.map(|size| size / SIZE as u64) }
    }

    /// The page: that there is no answer, and why. It has no list.
    pub fn page(&self, messages: &[Message], date: &str) -> Page {
        let text = &self.question.text;
        let mut parts = asked(&text[..text.len().min(MOST_SHOWN)]);
        if text.len() > MOST_SHOWN {
            let more = counted((text.len() - MOST_SHOWN) as u64, "byte");
            parts.push(Part::Sentence(format!("and {more} more.")));
        }
        parts.extend([Part::Heading(page::ANSWER), Part::Outcome(page::NO_ANSWER.into())]);
        parts.extend([Part::Messages(messages.to_vec()), Part::Heading(page::ARCHIVE)]);
        let cards = self.cards.map(|cards| Fact { mark: page::CARDS, value: grouped(cards).into() });
        let sheet = Fact { mark: page::SHEET_HASH, value: Hash::of(&self.question.sheet.block).to_string().into() };
        parts.push(Part::Facts(cards.into_iter().chain([sheet]).collect()));
        parts.extend(made(date, "There is no list: nothing is known of which cards match."));
        Page { title: page::NO_ANSWER.trim_end_matches('.').into(), parts }
    }
}
