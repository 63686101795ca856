//! `sirophan show --description` and `--csv`: blocks in the words that `sirophan pack` reads. Each card is looked at before the first is
//! written, so that there is all or nothing.

use crate::advice;
use crate::arguments::Arguments;
use crate::block::{self, SIZE, Sort};
use crate::cards;
use crate::columns::{Columns, Row};
use crate::csv::{self, Layout};
use crate::description::{CARD, MARKED_CARD, SHEET, WITH_BUNDLES};
use crate::input::Input;
use crate::kind;
use crate::report::{Failure, Message, Output};
use crate::sheet::{self, Sheet};
use crate::show;
use crate::text::{counted, spell};

/// How wide the heads of lines are, if they are not longer.
const HEAD: usize = 10;

/// Writes a file of blocks: a sheet, or cards.
pub fn run(arguments: &Arguments) -> Result<(), Failure> {
    let usage = |text: &str| Err(Failure::Usage(text.into()));
    let path = match &arguments.paths[..] {
        _ if arguments.json || (arguments.csv && arguments.description) => {
            return usage("Blocks are written in one form: --json, --csv or --description.");
        }
        [path] if path == "-" => {
            return usage("The blocks are read twice, and standard input can be only once: give a file.");
        }
        [path] => path,
        _ => return usage("A description and a table are of one file, the sheet's or the cards'."),
    };
    let mut first = [0; SIZE];
    let filled = Input::open(path)?.fill(&mut first)?;
    if filled == SIZE && Sort::of(&first) == Sort::Sheet {
        return write_sheet(arguments, path);
    }
    let sheet = show::sheet_beside(path);
    if sheet.block.is_empty() {
        let told = format!("{path}: there is no sheet.bin beside it, which has the names of the fields.");
        return Err(Failure::refused(Message::error(told)));
    }
    advice::require_sound("sheet.bin beside the cards", &sheet)?;
    if arguments.csv { write_table(arguments, path, &sheet) } else { write_cards(arguments, path, &sheet) }
}

/// Writes sheet.txt.
fn write_sheet(arguments: &Arguments, path: &str) -> Result<(), Failure> {
    let sheet = Sheet::read(Input::open(path)?.whole()?);
    advice::require_sound(path, &sheet)?;
    if arguments.csv {
        return Err(Failure::refused(Message::error(format!("{path} is a sheet, and only cards make a table."))));
    }
    let mut output = Output::new();
    if block::is_marked(&sheet.block) && !sheet::has_bundles(&sheet.parameters) {
        output.line(format_args!("{SHEET:<HEAD$} {WITH_BUNDLES}"))?;
    }
    for (place, parameter) in sheet.parameters.iter().enumerate() {
        output.line(format_args!("{:<HEAD$} {}", kind::word_of(parameter.kind), sheet.path(place, 0)))?;
    }
    output.flush()
}

/// Goes through the cards that are wanted. One that does not fit ends it.
fn pass(
    arguments: &Arguments,
    path: &str,
    sheet: &Sheet,
    mut take: impl FnMut(u64, &[u8; SIZE]) -> Result<(), Failure>,
) -> Result<(), Failure> {
    let mut input = Input::open(path)?;
    let mut card = [0; SIZE];
    for index in 0.. {
        let filled = input.fill(&mut card)?;
        if filled == 0 {
            break;
        }
        let faults = match filled {
            SIZE => cards::located(index, &card, sheet),
            _ => vec![format!("behind its last whole card it has {}.", counted(filled as u64, "byte"))],
        };
        if !faults.is_empty() {
            let told = faults.into_iter().map(|fault| Message::error(format!("{path}: {fault}")));
            return Err(Failure::AtFault(told.collect()));
        }
        if arguments.record.is_none_or(|record| record == block::record(&card)) {
            take(index, &card)?;
        }
    }
    Ok(())
}

/// Writes cards.txt.
fn write_cards(arguments: &Arguments, path: &str, sheet: &Sheet) -> Result<(), Failure> {
    let mut count = 0;
    pass(arguments, path, sheet, |_, _| {
        count += 1;
        Ok(())
    })?;
    show::require_shown(arguments, count)?;
    let mut output = Output::new();
    pass(arguments, path, sheet, |_, card| {
        let items: Vec<block::Item> = block::items(card).collect();
        let needs_form = block::is_marked(card) && !fits_older_form(sheet, &items);
        let head = if needs_form { MARKED_CARD } else { CARD };
        output.line(format_args!("{head:<HEAD$} {}", block::record(card)))?;
        for item in items {
            let path = sheet.path(usize::from(item.byte), item.mark);
            output.line(format_args!("{path:<HEAD$} {}", spell(item.text)))?;
        }
        Ok(())
    })?;
    output.flush()
}

/// Whether `record:` gives a card with these entries the form with occurrences: some have one, and all that do are members of bundles.
fn fits_older_form(sheet: &Sheet, items: &[block::Item]) -> bool {
    let is_member = |item: &block::Item| sheet.parameters[usize::from(item.byte)].bundle > 0;
    block::has_marks(items) && items.iter().all(|item| item.mark == 0 || is_member(item))
}

/// Writes cards.csv: the same texts under the same fields.
fn write_table(arguments: &Arguments, path: &str, sheet: &Sheet) -> Result<(), Failure> {
    let columns = Columns::all(sheet);
    let mut layout = Layout::default();
    let mut count = 0;
    pass(arguments, path, sheet, |index, card| {
        let row = row(sheet, &columns, card);
        count += 1;
        layout.widen(&row);
        no_columns(&columns, &row).map_or(Ok(()), |why| {
            let told = format!("{path}: card {index}, record {}: {why}", row.record);
            let help = "It cannot be put into columns. `sirophan show --description` writes all that cards hold.";
            Err(Failure::refused(Message { help: vec![help.into()], ..Message::error(told) }))
        })
    })?;
    show::require_shown(arguments, count)?;
    layout.name_all(&columns);
    let mut output = Output::new();
    output.raw(&csv::line(&layout.head(sheet, &columns)))?;
    pass(arguments, path, sheet, |_, card| output.raw(&csv::line(&layout.cells(&row(sheet, &columns, card)))))?;
    output.flush()
}

/// A card as a row. Outside bundles occurrences say nothing.
fn row(sheet: &Sheet, columns: &Columns, card: &[u8; SIZE]) -> Row {
    let mut row = columns.row(card);
    for (cell, place) in row.cells.iter_mut().zip(&columns.places) {
        if sheet.parameters[*place].bundle == 0 {
            for value in cell {
                value.occurrence = 0;
            }
        }
    }
    row
}

/// Why a card cannot be put into columns, if it cannot.
fn no_columns(columns: &Columns, row: &Row) -> Option<String> {
    let cells = row.cells.iter().zip(&columns.names);
    cells.flat_map(|(values, name)| values.iter().map(move |value| (value, name))).find_map(|(value, name)| {
        let why = match str::from_utf8(&value.text) {
            Ok("") => "an empty text, and an empty cell is none",
            Ok(text) if text.contains('\0') => "a zero byte",
            Ok(_) => return None,
            Err(_) => "bytes that are no UTF-8",
        };
        Some(format!("{name} has {why}."))
    })
}
