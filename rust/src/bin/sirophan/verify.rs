//! `sirophan verify`: whether all that is in a folder goes together, its blocks and its description.

use crate::advice::{self, Question, Words};
use crate::arguments::Arguments;
use crate::block::{self, SIZE};
use crate::cards::{self, AtFault, Fit, RUN};
use crate::description::{Cards, Faults};
use crate::field_doubt;
use crate::input::{self, Input};
use crate::json;
use crate::pack::{self, FILTER, path_in};
use crate::report::{self, Failure, Message, Output};
use crate::seal;
use crate::sheet::Sheet;
use crate::tally::{Counter, Held, Tally};
use crate::text::{counted, grouped};
use std::path::Path;

/// What a folder was found to hold.
struct Found {
    what: &'static str,
    parameters: u64,
    /// How many tests its filter has, if it has one.
    tests: Option<u64>,
    held: Held,
    /// Whether there is a seal, which holds.
    sealed: bool,
}

/// Verifies the blocks, the description, or both, whichever are there.
pub fn run(arguments: &Arguments) -> Result<(), Failure> {
    let folder = &arguments.paths[0];
    let there = |name: &str| Path::new(&path_in(folder, name)).exists();
    let mut found = Vec::new();
    let described = if there("sheet.txt") && (there("cards.txt") || there("cards.csv")) {
        let (told, sheet) = description(arguments, folder)?;
        found.push((told, pack::cards_path(folder)?, sheet.clone()));
        Some(sheet)
    } else {
        None
    };
    if found.is_empty() || there("sheet.bin") || there("cards.bin") {
        let (told, packed) = blocks(folder)?;
        found.push((told, path_in(folder, "cards.bin"), packed.clone()));
        described.map_or(Ok(()), |described| compare(folder, &described, &packed))?;
    }
    // Both hold the same, and so one of them is doubted.
    let warnings = found.last().map_or_else(Vec::new, |(found, cards, sheet)| {
        let mut warnings = field_doubt::of_cards(cards, &found.held, |_| true);
        warnings.extend(field_doubt::of_fields(sheet, &found.held, 0..found.held.fields.len()));
        warnings
    });
    show(arguments, found.into_iter().map(|(found, ..)| found).collect(), &warnings)
}

/// Writes what was found; in JSON the warnings stand in the last line.
fn show(arguments: &Arguments, found: Vec<Found>, warnings: &[Message]) -> Result<(), Failure> {
    let mut output = Output::new();
    let last = found.len().saturating_sub(1);
    for (number, Found { what, parameters, tests, held, sealed }) in found.into_iter().enumerate() {
        if arguments.json {
            output.line(json::object(&[
                ("verified", json::string(what)),
                ("cards", held.cards.to_string()),
                ("parameters", parameters.to_string()),
                ("tests", tests.map_or("null".into(), |tests| tests.to_string())),
                ("sealed", sealed.to_string()),
                report::warnings(if number == last { warnings } else { &[] }),
            ]))?;
        } else {
            let (cards, parameters) = (counted(held.cards, "card"), counted(parameters, "parameter"));
            let filter = tests.map_or(String::new(), |tests| format!(", a filter with {}", counted(tests, "test")));
            let seal = if sealed { ", a seal" } else { "" };
            output
                .line(format_args!("the {what}: {cards}, a sheet with {parameters}{filter}{seal}: all go together"))?;
        }
    }
    output.flush()?;
    arguments.warn(warnings);
    Ok(())
}

/// Reads a description as for packing, and writes nothing; answers its sheet too.
fn description(arguments: &Arguments, folder: &str) -> Result<(Found, Sheet), Failure> {
    let name = path_in(folder, FILTER);
    let filter = pack::read_filter(&name)?;
    arguments.say(filter.iter().flat_map(|filter| &filter.notes));
    let sheet = pack::read_sheet(arguments, folder)?;
    let mut cards = Cards::open(&pack::cards_path(folder)?, &sheet)?;
    let counter = Counter::of_all(&sheet);
    let mut tally = Tally::default();
    while let Some(card) = cards.next()? {
        counter.count(&mut tally, cards.count - 1, &card);
    }
    arguments.say(&cards.description.notes());
    cards.description.faults.none()?;
    let held = counter.sum(vec![tally]);
    let tests = check_filter(&sheet, path_in(folder, "sheet.txt"), name, filter.map(|filter| filter.text().to_vec()))?;
    Ok((Found { what: "description", parameters: sheet.parameters.len() as u64, tests, held, sealed: false }, sheet))
}

/// The number of a filter's tests, where there is a filter, and it has a meaning.
fn check_filter(
    sheet: &Sheet,
    sheet_name: String,
    text_name: String,
    text: Option<Vec<u8>>,
) -> Result<Option<u64>, Failure> {
    let Some(text) = text else { return Ok(None) };
    let question = Question { sheet_name, text_name, sheet: sheet.clone(), words: Words::Filter, text };
    Ok(Some(question.check()? as u64))
}

/// Asks the library of each block; answers the sheet too.
fn blocks(folder: &str) -> Result<(Found, Sheet), Failure> {
    let [sheet_name, text_name, cards_name] = ["sheet.bin", FILTER, "cards.bin"].map(|name| path_in(folder, name));
    let sheet = Sheet::read(input::read(&sheet_name)?);
    let text = if Path::new(&text_name).exists() { Some(input::read_text(&text_name)?) } else { None };
    let cards = Input::open(&cards_name)?;
    advice::require_sound(&sheet_name, &sheet)?;
    seal::hold(&sheet_name, &sheet.block, Some(&cards))?;
    let is_file = cards.size.is_some();
    let held = verify_cards(&sheet, &cards_name, cards)?;
    let sealed = is_file && seal::hold_cards(&cards_name)?;
    let tests = check_filter(&sheet, sheet_name, text_name, text)?;
    Ok((Found { what: "blocks", parameters: sheet.parameters.len() as u64, tests, held, sealed }, sheet))
}

/// How many parameters the sheet of a folder has, where it and all cards are sound and go together.
pub fn sound_blocks(folder: &str) -> Result<u64, Failure> {
    let [sheet_name, cards_name] = ["sheet.bin", "cards.bin"].map(|name| path_in(folder, name));
    let sheet = Sheet::read(input::read(&sheet_name)?);
    let cards = Input::open(&cards_name)?;
    advice::require_sound(&sheet_name, &sheet)?;
    verify_cards(&sheet, &cards_name, cards)?;
    Ok(sheet.parameters.len() as u64)
}

/// Nothing, where sound blocks hold what a sound description says, whichever form they have.
fn compare(folder: &str, described: &Sheet, packed: &Sheet) -> Result<(), Failure> {
    let differs = |what: String| {
        let help = "One of them has changed since it was packed. `sirophan pack` makes the blocks anew.".into();
        Err(Failure::at_fault(Message { help: vec![help], ..Message::error(what) }))
    };
    let [sheet_text, sheet_name] = ["sheet.txt", "sheet.bin"].map(|name| path_in(folder, name));
    if described.parameters != packed.parameters {
        return differs(format!("{sheet_name} is not the sheet that {sheet_text} describes."));
    }
    let (cards_text, cards_name) = (pack::cards_path(folder)?, path_in(folder, "cards.bin"));
    let mut cards = Cards::open(&cards_text, described)?;
    let mut blocks = Input::open(&cards_name)?;
    let mut packed = [0; SIZE];
    while let Some(card) = cards.next()? {
        let (index, record) = (cards.count - 1, block::record(&card));
        if blocks.fill(&mut packed)? < SIZE {
            return differs(format!(
                "{cards_name} has {} only, and {cards_text} describes more.",
                counted(index, "card")
            ));
        }
        if block::record(&packed) != record || !block::items(&packed).eq(block::items(&card)) {
            return differs(format!("{cards_name}: card {index} is not record {record} as {cards_text} describes it."));
        }
    }
    if blocks.fill(&mut packed)? == 0 {
        return Ok(());
    }
    let count = grouped(cards.count);
    differs(format!("{cards_name} has more cards than the {count} that {cards_text} describes."))
}

/// What the cards hold, where all of them fit; else what is wrong with those that do not.
fn verify_cards(sheet: &Sheet, name: &str, cards: Input) -> Result<Held, Failure> {
    let fit = Fit::new(sheet);
    let counter = Counter::of_all(sheet);
    let mut faults = Faults::default();
    let mut count = 0;
    let tallies = cards::pass(
        cards,
        |tally: &mut Tally, first, piece| {
            counter.count(tally, first, piece);
            (faults_of_piece(&fit, first, piece), piece.len() / SIZE)
        },
        |(found, cards)| {
            for fault in found {
                faults.add(count, format!("{name}: {fault}"));
            }
            count += cards as u64;
            Ok(())
        },
    )?;
    faults.none().map_err(Failure::of_archive)?;
    Ok(counter.sum(tallies))
}

/// What is wrong with the cards of a piece. Behind a card that does not fit the others are tried again.
fn faults_of_piece(fit: &Fit, first: u64, piece: &[u8]) -> Vec<String> {
    let mut faults = Vec::new();
    let (whole, rest) = piece.split_at(piece.len() - piece.len() % SIZE);
    let mut at = 0;
    while at < whole.len() {
        let run = &whole[at..whole.len().min(at + RUN * SIZE)];
        match fit.select(run, &mut [0; RUN]) {
            Ok(_) => at += run.len(),
            Err(refusal) => {
                let fault = AtFault::new(refusal, first + (at / SIZE) as u64, run);
                faults.extend(cards::located(fault.refusal.place as u64, &fault.block, fit.sheet));
                at += (refusal.place + 1) * SIZE;
            }
        }
    }
    if !rest.is_empty() {
        let bytes = counted(rest.len() as u64, "byte");
        faults.push(format!("behind its last whole card it has {bytes}. A card has {SIZE}."));
    }
    faults
}
