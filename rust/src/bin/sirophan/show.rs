//! `sirophan show`: blocks as tables. It shows any bytes, sound or not.

use crate::advice;
use crate::arguments::Arguments;
use crate::block::{self, Item, SIZE, Sort};
use crate::cards;
use crate::describe;
use crate::input::{self, Input};
use crate::json;
use crate::kind;
use crate::progress::Progress;
use crate::report::{Failure, Message, Output};
use crate::sheet::Sheet;
use crate::table;
use crate::text::{counted, spell};
use std::path::Path;

/// Shows files one after the other. Cards are shown by the sheet that came before them, or by sheet.bin beside them.
pub fn run(arguments: &Arguments) -> Result<(), Failure> {
    if arguments.csv || arguments.description {
        return describe::run(arguments);
    }
    let mut view =
        View { output: Output::new(), record: arguments.record, json: arguments.json, sheet: None, shown: 0 };
    for path in &arguments.paths {
        view.file(path)?;
    }
    view.output.flush()?;
    require_shown(arguments, view.shown)
}

/// Nothing, where the record number that is asked for is on a card.
pub fn require_shown(arguments: &Arguments, shown: u64) -> Result<(), Failure> {
    match arguments.record {
        Some(record) if shown == 0 => {
            Err(Failure::refused(Message::error(format!("no card has the record number {record}."))))
        }
        _ => Ok(()),
    }
}

/// A cell of a table, and its value in JSON.
struct Cell {
    shown: String,
    json: String,
}

impl Cell {
    /// A cell with a word.
    fn word(word: String) -> Cell {
        Cell { json: json::string(&word), shown: word }
    }
}

/// A block as it is shown: a title, a table, and what is wrong with it.
struct Shown {
    title: String,
    /// What the title says, as JSON.
    pairs: Vec<(&'static str, String)>,
    /// The name of the rows, and of the columns.
    rows_name: &'static str,
    head: [&'static str; 3],
    rows: Vec<[Cell; 3]>,
    faults: Vec<String>,
}

impl Shown {
    /// The lines for people.
    fn lines(self) -> String {
        let rows = self.rows.into_iter().map(|row| row.map(|cell| cell.shown));
        let rows: Vec<[String; 3]> = [self.head.map(String::from)].into_iter().chain(rows).collect();
        let faults = self.faults.into_iter().map(|fault| format!("  ! {fault}"));
        let lines: Vec<String> = [self.title].into_iter().chain(table::lines(&rows)).chain(faults).collect();
        lines.join("\n")
    }

    /// One line of JSON.
    fn json(self) -> String {
        let object = |row: [Cell; 3]| {
            let pairs: Vec<(&str, String)> = self.head.into_iter().zip(row.map(|cell| cell.json)).collect();
            json::object(&pairs)
        };
        let rows: Vec<String> = self.rows.into_iter().map(object).collect();
        let faults: Vec<String> = self.faults.iter().map(|fault| json::string(fault)).collect();
        let rest = [(self.rows_name, json::array(&rows)), ("faults", json::array(&faults))];
        json::object(&[self.pairs, rest.to_vec()].concat())
    }
}

/// What is shown, and how.
struct View {
    output: Output,
    /// The record number whose cards alone are shown.
    record: Option<u32>,
    json: bool,
    sheet: Option<Sheet>,
    /// How many cards were shown.
    shown: u64,
}

impl View {
    /// Shows the blocks of a file.
    fn file(&mut self, path: &str) -> Result<(), Failure> {
        let mut file = Input::open(path)?;
        let beside = sheet_beside(path);
        let mut block = [0; SIZE];
        // Where all is shown, one sees how far it is.
        let mut progress = self.record.map(|_| Progress::new());
        for index in 0.. {
            if let Some(progress) = &mut progress {
                progress.show(|| cards::part_read(index * SIZE as u64, file.size));
            }
            match file.fill(&mut block)? {
                0 => break,
                SIZE => self.block(index, &block, &beside)?,
                size if self.record.is_none() => {
                    self.oddity(index, &format!("has only {}", counted(size as u64, "byte")))?;
                }
                _ => {}
            }
        }
        Ok(())
    }

    /// Shows a block.
    fn block(&mut self, index: u64, block: &[u8], beside: &Sheet) -> Result<(), Failure> {
        match Sort::of(block) {
            Sort::Sheet => {
                let read = Sheet::read(block.to_vec());
                let shown = sheet(&read);
                self.sheet = Some(read);
                if self.record.is_none() { self.write(shown) } else { Ok(()) }
            }
            Sort::Card if self.record.is_none_or(|record| record == block::record(block)) => {
                self.shown += 1;
                let shown = card(index, block, self.sheet.as_ref().unwrap_or(beside));
                self.write(shown)
            }
            Sort::Neither if self.record.is_none() => self.oddity(index, "is neither a sheet nor a card"),
            _ => Ok(()),
        }
    }

    /// Writes a block in the form that was asked for.
    fn write(&mut self, shown: Shown) -> Result<(), Failure> {
        self.output.line(if self.json { shown.json() } else { shown.lines() })
    }

    /// A block that is none.
    fn oddity(&mut self, index: u64, what: &str) -> Result<(), Failure> {
        if self.json {
            let faults = json::array(&[json::string(what)]);
            return self.output.line(json::object(&[("block", index.to_string()), ("faults", faults)]));
        }
        self.output.line(format_args!("block {index} {what}"))
    }
}

/// A sheet: its parameters, and what is wrong with it.
fn sheet(sheet: &Sheet) -> Shown {
    let row = |place: usize| {
        let number = Cell { shown: place.to_string(), json: place.to_string() };
        [number, Cell::word(kind::word_of(sheet.parameters[place].kind)), Cell::word(sheet.path(place, 0))]
    };
    let count = block::count(&sheet.block);
    Shown {
        title: format!("sheet with {}", counted(u64::from(count), "parameter")),
        pairs: Vec::new(),
        rows_name: "parameters",
        head: ["place", "kind", "name"],
        rows: (0..sheet.parameters.len()).map(row).collect(),
        faults: match sheet.refusal() {
            Some(refusal) => [vec![refusal.to_string()], sheet.faults()].concat(),
            None => Vec::new(),
        },
    }
}

/// A card: its texts by the sheet's names, and what is wrong with it.
fn card(index: u64, card: &[u8], sheet: &Sheet) -> Shown {
    let row = |item: Item| {
        let place = usize::from(item.byte);
        let kind = sheet.parameters.get(place).map(|parameter| parameter.kind);
        let word = kind.map_or("?".into(), kind::word_of);
        let words = kind.and_then(|kind| kind::in_words(kind, item.text));
        let text = Cell { shown: explained(item.text, words), json: json::bytes(item.text) };
        [Cell::word(sheet.path(place, item.mark)), Cell::word(word), text]
    };
    let (record, count) = (block::record(card), block::count(card));
    Shown {
        title: format!("card {index}, record {record}, {}", counted(u64::from(count), "entry")),
        pairs: vec![("card", index.to_string()), ("record", record.to_string())],
        rows_name: "entries",
        head: ["name", "kind", "text"],
        rows: block::items(card).map(row).collect(),
        faults: if sheet.block.is_empty() {
            advice::unsound(card).into_iter().collect()
        } else {
            advice::card_faults(sheet, card)
        },
    }
}

/// A text, and behind it what it says in words.
fn explained(text: &[u8], words: Option<String>) -> String {
    words.map_or(spell(text), |words| format!("{} ({words})", spell(text)))
}

/// The sheet.bin beside a file, or an empty sheet where there is none.
pub fn sheet_beside(path: &str) -> Sheet {
    let beside = Path::new(path).with_file_name("sheet.bin");
    Sheet::read(input::read(&beside.to_string_lossy()).unwrap_or_default())
}
