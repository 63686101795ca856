//! `sirophan pick` and `sirophan search`: the record numbers of the cards that match a filter or a search string.

use crate::advice::{Question, Words};
use crate::arguments::Arguments;
use crate::cards::{AtFault, Fit};
use crate::columns::{Columns, Row};
use crate::csv::{self, Layout};
use crate::explain;
use crate::input::{Input, shown};
use crate::json;
use crate::matching;
use crate::report::{self, Failure, Message, Output};
use crate::sheet::Sheet;
use crate::survey::Survey;
use crate::table;
use crate::text::spell;
use crate::visible;
use std::io::{self, IsTerminal, Write};
use std::slice;

/// By a filter.
pub fn run(arguments: &Arguments) -> Result<(), Failure> {
    list(Words::Filter, arguments)
}

/// By a search string.
pub fn search(arguments: &Arguments) -> Result<(), Failure> {
    list(Words::Search, arguments)
}

/// Selects from all cards. The list is held back until the last card has passed, unless it is to be streamed.
fn list(words: Words, arguments: &Arguments) -> Result<(), Failure> {
    let form = Form::of(arguments)?;
    let question = Question::read(arguments, words)?;
    let path = &arguments.paths[2];
    let mut cards = Input::open(path)?;
    cards.shows_progress = !(arguments.stream && io::stdout().is_terminal());
    question.check_sealed(arguments, Some(&cards))?;
    let columns = columns(arguments, &question)?;
    let survey = Survey::new(slice::from_ref(&question));
    let counter = survey.quick_counter();
    let fit = Fit { sheet: &question.sheet, asked: Some((words, question.text.clone())) };

    let table = columns.as_ref().map(|columns| (&question.sheet, columns));
    let mut list = List { table, form, ..List::new(arguments, true) };
    let select = |first, piece: &[u8]| match &columns {
        None => {
            let (found, fault) = fit.select_piece(first, piece);
            ((found, Vec::new()), fault)
        }
        Some(columns) => select_rows(&question, columns, first, piece),
    };
    let held = match counter.pass(cards, select, |found, count| list.add(found, count)) {
        Ok(held) => held,
        // What was streamed before a refusal comes out, without the count that would make it a list.
        Err(failure) => return Err(list.output.flush().err().unwrap_or(failure)),
    };
    let warnings = survey.warnings(&shown(path), path, &held, &list.listed);
    list.end(&warnings)
}

/// The forms of a list.
#[derive(Clone, Copy, PartialEq, Eq)]
enum Form {
    Lines,
    Json,
    Csv,
}

impl Form {
    /// The form that was asked for.
    fn of(arguments: &Arguments) -> Result<Form, Failure> {
        let usage = |text: &str| Err(Failure::Usage(text.into()));
        match (arguments.csv, arguments.json) {
            (true, true) => usage("A list is JSON or CSV: --json or --csv."),
            _ if arguments.stream && (arguments.csv || arguments.columns.is_some()) => {
                usage("--stream goes without --columns and --csv, which need the whole list.")
            }
            (true, false) => Ok(Form::Csv),
            (false, json) => Ok(if json { Form::Json } else { Form::Lines }),
        }
    }
}

/// The columns that a list has: those that are asked for, and in CSV else all.
fn columns(arguments: &Arguments, question: &Question) -> Result<Option<Columns>, Failure> {
    match &arguments.columns {
        Some(names) => Columns::read(&question.sheet, names).map(Some),
        None => Ok(arguments.csv.then(|| Columns::all(&question.sheet))),
    }
}

/// What is found on a piece: record numbers, and with columns a row for each.
pub type Found = (Vec<u32>, Vec<Row>);

/// Selects from a piece, with the columns of the cards that match.
fn select_rows(question: &Question, columns: &Columns, first: u64, piece: &[u8]) -> (Found, Option<AtFault>) {
    let mut rows: Vec<Row> = Vec::new();
    let fault = matching::in_piece(question, first, piece, |run, bits| {
        rows.extend(matching::cards(run, bits).map(|card| columns.row(card)));
    });
    ((rows.iter().map(|row| row.record).collect(), rows), fault)
}

/// The list of record numbers as it grows.
pub struct List<'a> {
    pub output: Output,
    pub listed: Vec<u32>,
    rows: Vec<Row>,
    cards: u64,
    /// The columns of its rows, and the sheet that names them.
    table: Option<(&'a Sheet, &'a Columns)>,
    form: Form,
    arguments: &'a Arguments,
    /// Whether the numbers are shown, or only how many they are.
    shows_numbers: bool,
}

impl<'a> List<'a> {
    /// A list without columns, in lines or JSON.
    pub fn new(arguments: &'a Arguments, shows_numbers: bool) -> List<'a> {
        let form = if arguments.json { Form::Json } else { Form::Lines };
        let (listed, rows) = (Vec::new(), Vec::new());
        List { output: Output::new(), listed, rows, cards: 0, table: None, form, arguments, shows_numbers }
    }

    /// Adds what was found on so many cards.
    pub fn add(&mut self, (found, rows): Found, cards: u64) -> Result<(), Failure> {
        self.cards += cards;
        if self.arguments.stream {
            found.iter().try_for_each(|record| self.record(*record))?;
        }
        self.listed.extend(found);
        self.rows.extend(rows);
        Ok(())
    }

    /// Writes a record number by itself.
    fn record(&mut self, record: u32) -> Result<(), Failure> {
        if self.arguments.json {
            return self.output.line(json::object(&[("record", record.to_string())]));
        }
        self.output.line(record)
    }

    /// Writes what was held back, says the warnings, and writes the count below them.
    pub fn end(mut self, warnings: &[Message]) -> Result<(), Failure> {
        let listed = std::mem::take(&mut self.listed);
        let is_held_back = self.shows_numbers && !self.arguments.stream;
        let held_back = if is_held_back { &listed } else { &[][..] };
        let matching = listed.len();
        let count = format!("{matching} of {}", self.cards);
        match (self.form, self.table) {
            (Form::Json, table) => {
                let records: Vec<String> = held_back.iter().map(u32::to_string).collect();
                let list = is_held_back.then(|| ("records", json::array(&records)));
                let rows = table.map(|(_, columns)| ("rows", self.rows_json(columns)));
                let counts = [("matching", matching.to_string()), ("cards", self.cards.to_string())];
                let pairs = list.into_iter().chain(rows).chain(counts).chain([report::warnings(warnings)]);
                self.output.line(json::object(&pairs.collect::<Vec<(&str, String)>>()))?;
                return self.output.flush();
            }
            (Form::Csv, Some((sheet, columns))) => {
                self.csv(sheet, columns)?;
                self.output.flush()?;
                // The table has cards alone, so that a spreadsheet takes it as it is.
                self.arguments.warn(warnings);
                let _ = writeln!(io::stderr(), "{count}");
                return Ok(());
            }
            (_, Some((_, columns))) => self.lines(columns)?,
            (_, None) => held_back.iter().try_for_each(|record| self.record(*record))?,
        }
        self.output.flush()?;
        self.arguments.warn(warnings);
        self.output.line(count)?;
        self.output.flush()
    }

    /// The list as a table, under the names of its columns.
    fn lines(&mut self, columns: &Columns) -> Result<(), Failure> {
        let head = [&[csv::RECORD.to_string()], &columns.names[..]].concat();
        let cell = |values: &Vec<Vec<u8>>| values.iter().map(|value| spell(value)).collect::<Vec<String>>().join("; ");
        let rows = self.rows.iter().map(|row| {
            let cells = row.told();
            [row.record.to_string()].into_iter().chain(cells.iter().map(cell)).collect()
        });
        let rows: Vec<Vec<String>> = [head].into_iter().chain(rows).collect();
        table::lines(&rows).iter().try_for_each(|line| self.output.line(line.trim_start()))
    }

    /// The list as objects, each with its values by the names of the columns.
    fn rows_json(&self, columns: &Columns) -> String {
        let row = |row: &Row| {
            let values = |values: &Vec<Vec<u8>>| explain::values_json(values);
            let cells: Vec<String> = row.told().iter().map(values).collect();
            let pairs: Vec<(&str, String)> = columns.names.iter().map(String::as_str).zip(cells).collect();
            json::object(&[("record", row.record.to_string()), ("values", json::object(&pairs))])
        };
        json::array(&self.rows.iter().map(row).collect::<Vec<String>>())
    }

    /// The list as a table for spreadsheets. Bytes that are no UTF-8 are shown by their numbers.
    fn csv(&mut self, sheet: &Sheet, columns: &Columns) -> Result<(), Failure> {
        let mut layout = Layout::default();
        self.rows.iter().for_each(|row| layout.widen(row));
        layout.name_all(columns);
        self.output.raw(&csv::line(&layout.head(sheet, columns)))?;
        for row in &self.rows {
            let shown = |cell: Vec<u8>| if str::from_utf8(&cell).is_ok() { cell } else { visible::plain(&cell).into() };
            self.output.raw(&csv::line(&layout.cells(row).into_iter().map(shown).collect::<Vec<Vec<u8>>>()))?;
        }
        Ok(())
    }
}
