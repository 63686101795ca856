//! Cards in a table, cards.csv: read row by row, each of which is a card.

use super::{CardHead, Cards, Description, LONGEST_LINE, Line};
use crate::block::MOST_ENTRIES;
use crate::csv;
use crate::report::Failure;
use crate::text::{grouped, printable, spell};
use std::path::Path;

/// Whether a file is a table of cards, by the end of its name.
pub fn is_one(path: &str) -> bool {
    Path::new(path).extension().is_some_and(|end| end == "csv")
}

/// The head of a table of cards: the sign between its cells, and the names of its columns.
pub struct TableHead {
    separator: u8,
    names: Vec<String>,
}

impl Description {
    /// The next row of a table, with the number of its first line; none at the end. The sign between cells is that of the head, if that is
    /// read already.
    fn next_row(&mut self, separator: Option<u8>) -> Result<Option<(usize, Vec<u8>)>, Failure> {
        let (mut row, first) = (Vec::new(), self.number + 1);
        loop {
            let (mut bytes, _) = self.read_line().map_err(|reason| Failure::file(&self.name, "read", reason))?;
            if bytes.is_empty() {
                return Ok((!row.is_empty()).then_some((first, row)));
            }
            self.number += 1;
            self.drop_mark(&mut bytes)?;
            row.extend(bytes);
            // What is longer is cut, and is no card.
            if !csv::goes_on(&row, separator.unwrap_or_else(|| csv::separator(&row))) || row.len() >= LONGEST_LINE {
                return Ok(Some((first, row)));
            }
        }
    }

    /// The cells of a row that was read; its faults are kept.
    fn cells(&mut self, line: usize, row: &[u8], separator: u8) -> Option<Vec<Vec<u8>>> {
        let fault = match str::from_utf8(row) {
            _ if row.len() >= LONGEST_LINE => {
                format!("this row has over {} bytes. Is a quote missing?", grouped(LONGEST_LINE as u64))
            }
            _ if row.contains(&0) => "this row has zero bytes, as UTF-16 has. Save the file as UTF-8.".into(),
            Err(at) => {
                let byte = row[at.valid_up_to()];
                format!(
                    "this row is not UTF-8: it has the byte 0x{byte:02X}, perhaps of Latin-1. Save the file as UTF-8."
                )
            }
            Ok(_) => match csv::cells(row, separator) {
                Ok(cells) => return Some(cells),
                Err(fault) => fault.into(),
            },
        };
        self.fault(line, &fault);
        None
    }
}

impl Cards<'_> {
    /// Reads the head of a table: `record`, and then a field or a member of a bundle for each column.
    pub(super) fn read_table_head(&mut self) -> Result<(), Failure> {
        let Some((line, row)) = self.description.next_row(None)? else {
            self.description.fault(1, "there is no head. Its first row has the names of the fields, `record` first.");
            return Ok(());
        };
        let separator = csv::separator(&row);
        let cells = self.description.cells(line, &row, separator).unwrap_or_default();
        let names: Vec<String> = cells.iter().map(|cell| printable(cell.trim_ascii())).collect();
        if names.first().is_none_or(|name| name != csv::RECORD) {
            self.description.fault(line, "the first column is to be `record`, the record number of each card.");
        }
        for name in names.iter().skip(1).filter(|name| !name.is_empty()) {
            if let Err(fault) = self.place(name, false) {
                self.description.fault(line, &format!("{name}: {fault}"));
            }
        }
        self.table = Some(TableHead { separator, names });
        Ok(())
    }

    /// The next card of a table. Rows without a text are passed over, as spreadsheets may have them behind the last.
    pub(super) fn next_of_table(&mut self) -> Result<Option<Vec<u8>>, Failure> {
        let Some(TableHead { separator, names }) = self.table.take() else { return Ok(None) };
        let mut card = None;
        while let Some((line, row)) = self.description.next_row(Some(separator))? {
            let cells = self.description.cells(line, &row, separator).unwrap_or_default();
            if cells.iter().any(|cell| !cell.is_empty()) {
                card = Some(self.card_of_row(line, &names, cells));
                break;
            }
        }
        if card.is_none() {
            self.progress.clear();
        }
        self.table = Some(TableHead { separator, names });
        Ok(card)
    }

    /// The card of a row's cells. An empty cell is no value.
    fn card_of_row(&mut self, line: usize, names: &[String], cells: Vec<Vec<u8>>) -> Vec<u8> {
        let mut cells = cells.into_iter();
        let text = cells.next().unwrap_or_default();
        let record = self.record(&Line { number: line, head: csv::RECORD.into(), text });
        let head = CardHead { line, record, marked: false };
        let mut entries = Vec::new();
        for (text, column) in cells.zip(1..).filter(|(text, _)| !text.is_empty()) {
            match names.get(column).filter(|name| !name.is_empty()) {
                // One too many is enough to tell.
                Some(_) if entries.len() > MOST_ENTRIES => {}
                Some(name) => entries.extend(self.entry(head, Line { number: line, head: name.clone(), text })),
                None => {
                    let fault = format!("record {record}: {} stands in a column without a name.", spell(&text));
                    self.description.fault(line, &fault);
                }
            }
        }
        self.card(head, &entries)
    }
}
