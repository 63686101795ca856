//! `sirophan fields`: what the cards have under each field of a sheet.

use crate::advice;
use crate::arguments::Arguments;
use crate::cards::Fit;
use crate::field_doubt;
use crate::input::{self, Input, shown};
use crate::json;
use crate::kind;
use crate::report::{self, Failure, Message, Output};
use crate::seal;
use crate::sheet::Sheet;
use crate::table;
use crate::tally::{Counter, Field, Held};
use crate::text::{counted, grouped, spell};
use crate::width;

/// The most characters of an example that are shown.
const SHOWN: usize = 40;

/// Counts, and answers with a row for each field and the doubts about them.
pub fn run(arguments: &Arguments) -> Result<(), Failure> {
    let [sheet_name, cards_name] = [&arguments.paths[0], &arguments.paths[1]];
    let sheet = Sheet::read(input::read(sheet_name)?);
    let cards = Input::open(cards_name)?;
    advice::require_sound(&shown(sheet_name), &sheet)?;
    seal::hold(sheet_name, &sheet.block, Some(&cards))?;
    let counter = Counter::of_all(&sheet);
    let fit = Fit::new(&sheet);
    let select = |first, piece: &[u8]| fit.select_piece(first, piece);
    let held = counter.pass(cards, select, |_, _| Ok(()))?;
    let mut warnings = field_doubt::of_cards(&shown(cards_name), &held, |_| false);
    warnings.extend(field_doubt::of_fields(&sheet, &held, 0..held.fields.len()));
    if arguments.json { show_json(&sheet, &held, &warnings) } else { show(&sheet, &held, &warnings) }
}

/// The fields as a table, and the doubts below it.
fn show(sheet: &Sheet, held: &Held, warnings: &[Message]) -> Result<(), Failure> {
    let mut output = Output::new();
    output.line(counted(held.cards, "card"))?;
    let head = ["field", "kind", "cards", "values", "example"].map(String::from);
    let rows = held.fields.iter().enumerate().map(|(place, field)| {
        let kind = kind::word_of(sheet.parameters[place].kind);
        [sheet.path(place, 0), kind, grouped(field.cards), grouped(field.values), example(field)]
    });
    let rows: Vec<[String; 5]> = [head].into_iter().chain(rows).collect();
    table::lines(&rows).iter().try_for_each(|line| output.line(line))?;
    let columns = width::of_stream(width::OUTPUT);
    warnings.iter().try_for_each(|warning| output.line(warning.lines(columns)))?;
    output.flush()
}

/// An example, cut where it is long.
fn example(field: &Field) -> String {
    let Some(text) = field.example() else { return String::new() };
    let spelled = spell(text);
    match spelled.char_indices().nth(SHOWN) {
        Some((end, _)) => format!("{}...", &spelled[..end]),
        None => spelled,
    }
}

/// The fields as JSON.
fn show_json(sheet: &Sheet, held: &Held, warnings: &[Message]) -> Result<(), Failure> {
    let object = |(place, field): (usize, &Field)| {
        let doubts = field_doubt::of_field(sheet, held, place);
        let doubts: Vec<String> = doubts.iter().map(|doubt| json::string(&doubt.text)).collect();
        json::object(&[
            ("field", json::string(&sheet.path(place, 0))),
            ("kind", json::string(&kind::word_of(sheet.parameters[place].kind))),
            ("cards", field.cards.to_string()),
            ("values", field.values.to_string()),
            ("example", field.example().map_or("null".into(), json::bytes)),
            ("looks_like", field.looks_like().map_or("null".into(), |(likeness, _)| json::string(likeness.kind))),
            ("warnings", json::array(&doubts)),
        ])
    };
    let fields: Vec<String> = held.fields.iter().enumerate().map(object).collect();
    let mut output = Output::new();
    let pairs = [("cards", held.cards.to_string()), ("fields", json::array(&fields)), report::warnings(warnings)];
    output.line(json::object(&pairs))?;
    output.flush()
}
