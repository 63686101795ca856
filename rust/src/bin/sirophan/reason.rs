//! What is told of tests that no card meets, and of an answer without cards.

use crate::advice::Question;
use crate::asked::Asked;
use crate::clues::{Clue, Clues};
use crate::kind;
use crate::letters;
use crate::report::Message;
use crate::system;
use crate::tally::Held;
use crate::text::{counted, grouped, quoted, row, spell};

/// How many systems and how many tests are named.
const NAMED: usize = 3;
const TESTS_NAMED: usize = 8;

/// The operator that asks for less where one on this kind is met by no card, if there is one: dates and periods that overlap,
/// numbers that are less precise.
pub fn overlap(kind: &str, operator: &str) -> Option<&'static str> {
    match (kind, operator) {
        ("date" | "period", "eq" | "co" | "sa" | "eb" | "ge" | "le") => Some("po"),
        ("number", "eq") => Some("co"),
        _ => None,
    }
}

/// What one walk tells: that no card has a field, and of a single test that no card meets it.
pub fn of_one_walk(question: &Question, asked: &[Asked], held: &Held, matching: u64) -> Vec<Message> {
    let told = |asked: &&Asked| is_nowhere(held, asked);
    let mut messages: Vec<Message> =
        asked.iter().filter(told).filter_map(|asked| without_field(question, asked)).collect();
    if let ([asked], 0, true) = (asked, matching, messages.is_empty()) {
        let field = &held.fields[asked.place];
        messages.extend(plain_zero(question, asked, held, (!field.is_sample).then_some(field.cards), None));
    }
    messages
}

/// What two walks tell.
pub fn of_two_walks(
    question: &Question,
    asked: &[Asked],
    held: &Held,
    matching: u64,
    clues: &[Option<Clues>],
) -> Vec<Message> {
    let is_alone = asked.len() == 1;
    let unmet = |clues: &&Option<Clues>| clues.as_ref().is_some_and(|clues| clues.met == 0);
    let reasons = asked.iter().zip(clues).filter(|(_, clues)| unmet(clues)).filter_map(|(asked, clues)| {
        let clues = clues.as_ref()?;
        if is_nowhere(held, asked) {
            return without_field(question, asked);
        }
        let found = reason(question, asked, clues, matching == 0);
        found.or_else(|| {
            plain_zero(question, asked, held, Some(clues.cards), clues.ends.as_ref())
                .filter(|_| is_alone && matching == 0)
        })
    });
    let mut messages: Vec<Message> = reasons.collect();
    if matching == 0 && !is_alone {
        messages.push(by_themselves(asked, held, clues));
    }
    messages
}

/// Whether no card has a test's field: where values are enough for a sample there are some.
fn is_nowhere(held: &Held, asked: &Asked) -> bool {
    let field = &held.fields[asked.place];
    field.values == 0 && !field.is_sample
}

/// No card has the field; that a test asks for just this is no reason.
fn without_field(question: &Question, asked: &Asked) -> Option<Message> {
    let path = question.sheet.path(asked.place, 0);
    let asks_for_none = asked.operator == "pr" && asked.value.eq_ignore_ascii_case(b"false");
    let told = format!("no card meets `{}`: no card has {path}.", asked.shown);
    let help = "`sirophan fields` shows what the cards have.";
    (!asks_for_none).then(|| Message::warning(told, help).about("no_card_has_field", &path))
}

/// Why a test is met by no card, as far as is known. Beside a list nothing is told that a reader would see in the texts.
fn reason(question: &Question, asked: &Asked, clues: &Clues, is_empty: bool) -> Option<Message> {
    let path = question.sheet.path(asked.place, 0);
    let kind = kind::by_number(question.sheet.parameters[asked.place].kind)?.word;
    let of_token = if kind == "token" { token_reason(asked, clues) } else { None };
    let (code, clue, why, help) = of_token
        .or_else(|| near_reason(clues).filter(|_| is_empty || !clues.differences.contains(&letters::POINTS)))
        .or_else(|| overlap_reason(kind, asked, clues))
        .or_else(|| part_reason(asked, clues).filter(|_| is_empty))?;
    let message = Message::warning(format!("no card meets `{}`: {why}.", asked.shown), help);
    Some(message.about(code, &path).figures([("found", clue)]))
}

/// A code for the reason, how much was found, why, and what to do.
type Reason = (&'static str, u64, String, String);

/// So many values, and what they do: `1 value has`, `3 values have`.
fn values(count: u64, one: &str, many: &str) -> String {
    format!("{} {}", counted(count, "value"), if count == 1 { one } else { many })
}

/// The system is on no card, or in another spelling; or the code is there with another one.
fn token_reason(asked: &Asked, clues: &Clues) -> Option<Reason> {
    let (written, code) = system::split(&asked.value);
    let has_bar = asked.value.contains(&b'|');
    let meant = system::meant(written);
    let there = clues.systems.keys().any(|system| system.eq_ignore_ascii_case(meant));
    if has_bar && !written.is_empty() && !there {
        return Some(system_reason(asked, clues, written, meant, code));
    }
    let Clue { count, .. } = clues.same_code;
    if !has_bar || count == 0 {
        return None;
    }
    let under = if written.is_empty() { "with a system" } else { "with another system" };
    let why =
        format!("{} this code {under}, such as {}", values(count, "has", "have"), spell(clues.same_code.example()));
    let help = format!("`{}` asks for it whichever its system.", asked.told("eq", code));
    Some(("other_system", count, why, help))
}

/// No card has the system.
fn system_reason(asked: &Asked, clues: &Clues, written: &[u8], meant: &[u8], code: &[u8]) -> Reason {
    let name = spell(written);
    let stands = if meant == written { name.clone() } else { format!("{}, which {name} stands for", spell(meant)) };
    let alike = clues
        .systems
        .iter()
        .filter(|(system, _)| system::are_alike(system, written) || system::are_alike(system, meant));
    let without = format!("`{}` asks without a system", asked.told("eq", code));
    if let Some((system, &count)) = alike.max_by_key(|(_, count)| **count) {
        let why = format!("no card has the system {stands}, and {} {}", values(count, "has", "have"), spell(system));
        let askable = system::meant(system) == &system[..] && !code.is_empty();
        let help = match (askable, code.is_empty()) {
            (true, _) => {
                let whole = [&system[..], b"|", code].concat();
                format!("`{}` asks for that; {without}.", asked.told("eq", &whole))
            }
            (false, true) => "A filter cannot ask for a system of that name.".into(),
            (false, false) => format!("A filter cannot ask for a system of that name; {without}."),
        };
        return ("system_spelling", count, why, help);
    }
    let mut systems: Vec<(&Vec<u8>, &u64)> = clues.systems.iter().collect();
    systems.sort_by_key(|(_, count)| std::cmp::Reverse(**count));
    let named = systems.iter().take(NAMED).map(|(system, count)| {
        let name = if system.is_empty() { "no system".into() } else { spell(system) };
        format!("{name} ({})", counted(**count, "value"))
    });
    let help = format!("The cards have {}.", row(&named.collect::<Vec<String>>(), "and"));
    ("no_card_has_system", 0, format!("no card has the system {stands}"), help)
}

/// Values that differ in what a reader hardly sees.
fn near_reason(clues: &Clues) -> Option<Reason> {
    let Clue { count, first } = &clues.near;
    let (_, record, value) = first.as_ref()?;
    let differ = values(*count, "differs", "differ");
    let why = format!("{differ} only in {}, such as {}", row(&clues.differences, "and"), quoted(value));
    let help = format!("Such texts are compared byte by byte: copy it from a card. It stands on record {record}.");
    Some(("letters", *count, why, help))
}

/// Dates and periods that overlap what is asked, or numbers that are less precise.
fn overlap_reason(kind: &str, asked: &Asked, clues: &Clues) -> Option<Reason> {
    let operator = overlap(kind, &asked.operator)?;
    let Clue { count, first } = &clues.overlapping;
    let (_, _, value) = first.as_ref()?;
    let (cards, value) = (counted(*count, "card"), spell(value));
    let have = if *count == 1 { "has" } else { "have" };
    let asks = spell(&asked.value);
    let why = match (kind, asked.operator.as_str()) {
        ("number", _) => format!("{cards} {have} a less precise number that {asks} may lie in, such as {value}"),
        (_, "eq") => format!("{cards} {have} a {kind} that overlaps {asks} and does not lie in it, such as {value}"),
        (_, "co") => format!("{cards} {have} a {kind} that overlaps {asks} and does not hold it, such as {value}"),
        _ => format!("{cards} {have} a {kind} that overlaps {asks}, such as {value}"),
    };
    let them = if *count == 1 { "it" } else { "them" };
    Some(("overlap", *count, why, format!("`{}` finds {them}.", asked.told(operator, &asked.value))))
}

/// Texts that hold what is asked, and references that end with it.
fn part_reason(asked: &Asked, clues: &Clues) -> Option<Reason> {
    if clues.ending.count > 0 {
        let ends = values(clues.ending.count, "differs", "differ");
        let why = format!("{ends} only in what stands before it, such as {}", spell(clues.ending.example()));
        let help = "A reference is asked by its whole text, as the cards have it.".to_string();
        return Some(("reference_spelling", clues.ending.count, why, help));
    }
    if clues.holding.count == 0 && clues.words.count > 0 {
        let has = values(clues.words.count, "has", "have");
        let why = format!("{has} its words in another order, such as {}", quoted(clues.words.example()));
        let tests: Vec<String> = String::from_utf8_lossy(&asked.value)
            .split_whitespace()
            .map(|word| asked.told("co", word.trim_matches(|c: char| c.is_ascii_punctuation()).as_bytes()))
            .collect();
        return Some(("word_order", clues.words.count, why, format!("`{}` asks for the words.", tests.join(" and "))));
    }
    let count = clues.holding.count;
    let hold = values(count, "holds", "hold");
    let why = format!("{hold} it as a part, such as {}", quoted(clues.holding.example()));
    let them = if count == 1 { "it" } else { "them" };
    let finds = format!("`{}` finds {them}.", asked.told("co", &asked.value));
    (count > 0).then_some(("part_of_text", count, why, finds))
}

/// No reason is known: how many cards have the field, where that is known, and what they hold. A field that is doubted needs no
/// more words.
fn plain_zero(
    question: &Question,
    asked: &Asked,
    held: &Held,
    cards: Option<u64>,
    ends: Option<&(Vec<u8>, Vec<u8>)>,
) -> Option<Message> {
    let field = &held.fields[asked.place];
    let path = question.sheet.path(asked.place, 0);
    if field.looks_like().is_some() {
        return None;
    }
    let have = match cards {
        Some(1) => format!("1 of {} has {path}", counted(held.cards, "card")),
        Some(cards) => format!("{} of {} have {path}", grouped(cards), counted(held.cards, "card")),
        None => format!("cards have {path}"),
    };
    let values = match (ends, field.example()) {
        (Some((least, greatest)), _) => format!(", with values from {} to {}", spell(least), spell(greatest)),
        (None, Some(example)) => format!(", such as {}", quoted(example)),
        (None, None) => String::new(),
    };
    let told = format!("no card meets `{}`: {have}{values}.", asked.shown);
    Some(Message::note(told).about("no_card_meets", &path).figures(cards.map(|cards| ("cards", cards))))
}

/// How many cards meet each test by itself, where none meets all that is asked.
fn by_themselves(asked: &[Asked], held: &Held, clues: &[Option<Clues>]) -> Message {
    let counts = asked.iter().zip(clues).filter_map(|(asked, clues)| clues.as_ref().map(|clues| (asked, clues.met)));
    let counts: Vec<String> = counts.map(|(asked, met)| format!("`{}` {}", asked.shown, grouped(met))).collect();
    let more = counts.len().saturating_sub(TESTS_NAMED);
    let mut named: Vec<String> = counts.into_iter().take(TESTS_NAMED).collect();
    if more > 0 {
        named.push(format!("and {} more", grouped(more as u64)));
    }
    let told =
        format!("asked by itself, each is met by so many of {}: {}.", counted(held.cards, "card"), named.join(", "));
    Message::note(told).code("by_themselves").figures([("cards", held.cards)])
}
