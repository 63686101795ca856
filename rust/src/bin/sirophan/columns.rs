//! Columns of a list: what the cards on it have under some fields.

use crate::block::{self, SIZE};
use crate::kind::BUNDLE;
use crate::report::Failure;
use crate::sheet::Sheet;
use crate::tally::record;
use crate::text::{nearest, row};

/// The fields that a list has columns for, by their places.
#[derive(Clone, Debug, Default)]
pub struct Columns {
    pub places: Vec<usize>,
    pub names: Vec<String>,
}

/// A value of a card, with its occurrence in its bundle.
#[derive(Clone, Debug, PartialEq, Eq)]
pub struct Value {
    pub occurrence: u8,
    pub text: Vec<u8>,
}

/// A card of a list: its record number, and for each column its values.
pub struct Row {
    pub record: u32,
    pub cells: Vec<Vec<Value>>,
}

impl Columns {
    /// The columns that were asked for, by the paths of their fields with a comma between.
    pub fn read(sheet: &Sheet, given: &str) -> Result<Columns, Failure> {
        let paths = sheet.paths();
        let place = |name: &str| {
            let found = (0..sheet.parameters.len())
                .find(|&place| sheet.parameters[place].kind != BUNDLE && sheet.path(place, 0) == name);
            found.ok_or_else(|| {
                let near = nearest(name, &paths);
                let help = match (&near[..], &paths[..]) {
                    ([], []) => String::new(),
                    ([], paths) => format!(" There are {}.", row(paths, "and")),
                    (near, _) => format!(" Is it {}?", row(near, "or")),
                };
                Failure::Usage(format!("{name} is no field of the sheet.{help}"))
            })
        };
        let names: Vec<String> = given.split(',').map(|name| name.trim().to_string()).collect();
        let places = names.iter().map(|name| place(name)).collect::<Result<Vec<usize>, Failure>>()?;
        Ok(Columns { places, names })
    }

    /// All fields of a sheet that have values.
    pub fn all(sheet: &Sheet) -> Columns {
        let places = (0..sheet.parameters.len()).filter(|&place| sheet.parameters[place].kind != BUNDLE).collect();
        Columns { places, names: sheet.paths() }
    }

    /// What a card has in the columns.
    pub fn row(&self, card: &[u8; SIZE]) -> Row {
        let cell = |&place: &usize| {
            let items = block::items(card).filter(|item| usize::from(item.byte) == place);
            items.map(|item| Value { occurrence: item.mark, text: item.text.to_vec() }).collect()
        };
        Row { record: record(card), cells: self.places.iter().map(cell).collect() }
    }
}

impl Row {
    /// The values of the columns as they are shown.
    pub fn told(&self) -> Vec<Vec<Vec<u8>>> {
        self.cells.iter().map(|cell| cell.iter().map(Value::told).collect()).collect()
    }
}

impl Value {
    /// The value with its occurrence, where it has one: values of other columns with the same belong to it.
    pub fn told(&self) -> Vec<u8> {
        match self.occurrence {
            0 => self.text.clone(),
            occurrence => [format!("#{occurrence} ").as_bytes(), &self.text].concat(),
        }
    }
}
