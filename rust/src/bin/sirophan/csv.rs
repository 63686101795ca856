//! Tables with commas or semicolons between their cells, as spreadsheets write and read them (RFC 4180).

use crate::columns::{Columns, Row};
use crate::sheet::Sheet;
use std::collections::BTreeMap;

/// The first column of a table of cards.
pub const RECORD: &str = "record";

/// A row as it is written: cells that have a comma, a quote or a line end stand in quotes.
pub fn line(cells: &[Vec<u8>]) -> Vec<u8> {
    let written = cells.iter().map(|cell| {
        let plain = !cell.iter().any(|byte| b",;\"\r\n".contains(byte)) && cell.trim_ascii() == &cell[..];
        if plain { cell.clone() } else { [b"\"", &doubled(cell)[..], b"\""].concat() }
    });
    [written.collect::<Vec<Vec<u8>>>().join(&b','), b"\r\n".to_vec()].concat()
}

/// A text with each quote twice.
fn doubled(text: &[u8]) -> Vec<u8> {
    text.iter().flat_map(|&byte| std::iter::repeat_n(byte, if byte == b'"' { 2 } else { 1 })).collect()
}

/// The columns that cards need: for each field and occurrence as many as the card with most values has.
#[derive(Default)]
pub struct Layout {
    most: BTreeMap<(usize, u8), usize>,
}

impl Layout {
    /// Makes room for a card.
    pub fn widen(&mut self, row: &Row) {
        for (column, values) in row.cells.iter().enumerate() {
            let mut counts: BTreeMap<u8, usize> = BTreeMap::new();
            for value in values {
                *counts.entry(value.occurrence).or_default() += 1;
            }
            for (occurrence, count) in counts {
                let most = self.most.entry((column, occurrence)).or_default();
                *most = count.max(*most);
            }
        }
    }

    /// Makes room for fields that no card has, so that each is named.
    pub fn name_all(&mut self, columns: &Columns) {
        for column in 0..columns.places.len() {
            if self.most.range((column, 0)..=(column, u8::MAX)).next().is_none() {
                self.most.insert((column, 0), 1);
            }
        }
    }

    /// The names of the columns, a name for each value.
    pub fn head(&self, sheet: &Sheet, columns: &Columns) -> Vec<Vec<u8>> {
        let names = self.most.iter().flat_map(|(&(column, occurrence), &count)| {
            std::iter::repeat_n(sheet.path(columns.places[column], occurrence).into_bytes(), count)
        });
        [RECORD.into()].into_iter().chain(names).collect()
    }

    /// The cells of a card, empty where it has fewer values.
    pub fn cells(&self, row: &Row) -> Vec<Vec<u8>> {
        let cells = self.most.iter().flat_map(|(&(column, occurrence), &count)| {
            let values = row.cells[column].iter().filter(move |value| value.occurrence == occurrence);
            values.map(|value| value.text.clone()).chain(std::iter::repeat(Vec::new())).take(count)
        });
        [row.record.to_string().into_bytes()].into_iter().chain(cells).collect()
    }
}

/// The sign between the cells of a table: the first of the two that stands in its head.
pub fn separator(head: &[u8]) -> u8 {
    head.iter().copied().find(|byte| b",;".contains(byte)).unwrap_or(b',')
}

/// Whether a row goes on behind its line end, which stands in quotes. Only a quote at the start of a cell opens one.
pub fn goes_on(row: &[u8], separator: u8) -> bool {
    let (mut is_open, mut starts) = (false, true);
    for byte in row {
        is_open = match byte {
            b'"' if is_open || starts => !is_open,
            _ => is_open,
        };
        // Behind the first of two quotes the cell is closed, and the second opens it again.
        starts = !is_open && (*byte == separator || *byte == b'"');
    }
    is_open
}

/// The cells of a row.
pub fn cells(row: &[u8], separator: u8) -> Result<Vec<Vec<u8>>, &'static str> {
    let row = row.strip_suffix(b"\n").unwrap_or(row);
    let mut rest = row.strip_suffix(b"\r").unwrap_or(row);
    let mut cells = Vec::new();
    loop {
        let (cell, behind) = match rest.strip_prefix(b"\"") {
            Some(quoted) => quoted_cell(quoted)?,
            None => rest.split_at(rest.iter().position(|byte| *byte == separator).unwrap_or(rest.len())),
        };
        cells.push(if rest.starts_with(b"\"") { single(cell) } else { cell.to_vec() });
        match behind.split_first() {
            None => return Ok(cells),
            Some((sign, behind)) if *sign == separator => rest = behind,
            Some(_) => return Err("behind a cell in quotes stands something else than the next cell."),
        }
    }
}

/// A cell in quotes, whose first one is taken off, and what stands behind it.
fn quoted_cell(rest: &[u8]) -> Result<(&[u8], &[u8]), &'static str> {
    let mut at = 0;
    while at < rest.len() {
        match (rest[at], rest.get(at + 1)) {
            (b'"', Some(b'"')) => at += 2,
            (b'"', _) => return Ok((&rest[..at], &rest[at + 1..])),
            _ => at += 1,
        }
    }
    Err("a cell that begins with a quote has no other at its end.")
}

/// A text whose quotes stand twice.
fn single(text: &[u8]) -> Vec<u8> {
    let mut bytes = text.iter().peekable();
    let mut single = Vec::new();
    while let Some(&byte) = bytes.next() {
        if byte == b'"' {
            bytes.next_if(|next| **next == b'"');
        }
        single.push(byte);
    }
    single
}

#[cfg(test)]
mod tests {
    use super::*;

    /// Commas and semicolons, quotes, line ends in cells and at the end.
    #[test]
    fn rows() {
        let read = |row: &str, separator| {
            let cells = cells(row.as_bytes(), separator);
            cells.map(|cells| cells.into_iter().map(|cell| String::from_utf8(cell).unwrap()).collect::<Vec<String>>())
        };
        assert_eq!(read("1,\"x, \"\"y\"\"\"\r\n", b',').unwrap(), ["1", "x, \"y\""]);
        assert_eq!(read("1;\"x\ny\"\n", b';').unwrap(), ["1", "x\ny"]);
        assert_eq!(read("2;,\n", b';').unwrap(), ["2", ","]);
        assert_eq!(read(",", b',').unwrap(), ["", ""]);
        assert_eq!(read("\"\"\n", b',').unwrap(), [""]);
        assert_eq!(read("a \"b\" c,d", b',').unwrap(), ["a \"b\" c", "d"]);
        assert!(read("\"x\"y,1\n", b',').is_err() && read("\"x,1\n", b',').is_err());
        for row in ["1,\"x\n", "\"", "1,\"a\"\"\n", "1,\"a,\"\"b\n"] {
            assert!(goes_on(row.as_bytes(), b','), "{row}");
        }
        for row in ["1,\"x\n\"\n", "1\n", "1,5\" gun\n", "1,\"a\"\"b\"\n", "1,\"\"\n", "1;\"x\n"] {
            assert!(!goes_on(row.as_bytes(), b','), "{row}");
        }
        assert_eq!((separator(b"record;a,b"), separator(b"record,a;b"), separator(b"record")), (b';', b',', b','));
    }

    /// What is written is read again.
    #[test]
    fn written_and_read() {
        let cells =
            ["", "a", "a,b", "a;b", "\"", "a\"\"b", " a ", "x\r\ny", "Ström"].map(|cell| cell.as_bytes().to_vec());
        let row = line(&cells);
        assert_eq!(super::cells(&row, b',').unwrap(), cells);
        assert!(!goes_on(&row, b','));
    }
}
