//! The cases of `tests/cases.txt`: reading them, answering them, and spelling an answer.
//!
//! The head of that file says how it is written.

use crate::block::{self, CARD, Entry, Kind, MARKED_CARD, MARKED_SHEET, SHEET};
use crate::filter::OPERATIONS;
use crate::operations::{self, Refusal, Tally};
use std::fmt::Write;
use std::iter::Peekable;
use std::slice;

/// What the cells of a list hold before select and prepare, and the rows before a report, twice.
pub const UNTOUCHED: u32 = 999;

/// What the cells hold before explain.
pub const UNMARKED: u8 = 9;

/// The words for the kinds of texts, in the order of their numbers.
const KINDS: [&str; 6] = ["string", "number", "date", "token", "reference", "period"];

/// A block by name: a sheet or a card, sound or damaged.
#[derive(Debug)]
pub struct Block {
    pub name: String,
    pub bytes: Vec<u8>,
}

/// Everything that the file holds, in its order. A case names blocks by their index.
#[derive(Debug)]
pub struct Cases {
    pub blocks: Vec<Block>,
    pub cases: Vec<Case>,
}

/// One case.
#[derive(Debug)]
pub struct Case {
    pub operation: Operation,
    pub sheet: usize,
    /// The filter or the search string as the file writes it.
    pub written: String,
    /// Its bytes.
    pub filter: Vec<u8>,
    /// The answer that the file gives, found by hand.
    pub answer: String,
}

/// What a case asks for.
#[derive(Debug)]
pub enum Operation {
    Check,
    Match { card: usize },
    Select { cards: Vec<usize>, cells: usize },
    Explain { card: usize, cells: usize },
    Report { cards: Vec<usize>, rows: usize },
    Prepare { cells: usize },
    Judge { card: usize, rows: Vec<u32> },
    CheckSearch,
    MatchSearch { card: usize },
    SelectSearch { cards: Vec<usize>, cells: usize },
}

impl Operation {
    /// Whether the program `trial` runs it. The others are run by the tests of `compare`.
    pub fn is_run_by_trial(&self) -> bool {
        !matches!(
            self,
            Operation::Explain { .. } | Operation::Report { .. } | Operation::Prepare { .. } | Operation::Judge { .. }
        )
    }
}

impl Cases {
    /// Reads the file, or says which line cannot be read.
    pub fn read(file: &str) -> Result<Cases, String> {
        let mut found = Cases { blocks: Vec::new(), cases: Vec::new() };
        let lines = file.lines().zip(1..);
        let is_told = |(line, _): &(&str, u32)| !line.trim().is_empty() && !line.starts_with('#');
        let mut lines = lines.filter(is_told).peekable();
        while let Some((line, number)) = lines.next() {
            let parts = indented(&mut lines);
            found.definition(line, &parts).ok_or(format!("line {number}: {line}"))?;
        }
        Ok(found)
    }

    /// The bytes of the sheet.
    pub fn sheet_of(&self, case: &Case) -> &[u8] {
        &self.blocks[case.sheet].bytes
    }

    /// The bytes of the cards, one card after the other; none where none is asked for.
    pub fn cards_of(&self, case: &Case) -> Vec<u8> {
        let cards = match &case.operation {
            Operation::Check | Operation::CheckSearch | Operation::Prepare { .. } => &[],
            Operation::Match { card }
            | Operation::MatchSearch { card }
            | Operation::Explain { card, .. }
            | Operation::Judge { card, .. } => slice::from_ref(card),
            Operation::Select { cards, .. }
            | Operation::SelectSearch { cards, .. }
            | Operation::Report { cards, .. } => cards.as_slice(),
        };
        cards.iter().flat_map(|&card| &self.blocks[card].bytes).copied().collect()
    }

    /// What the second implementation answers.
    pub fn answer(&self, case: &Case) -> String {
        let sheet = self.sheet_of(case);
        let cards = self.cards_of(case);
        match &case.operation {
            Operation::Check => spell_checked(operations::check(sheet, &case.filter)),
            Operation::CheckSearch => spell_checked(operations::check_search(sheet, &case.filter)),
            Operation::Match { .. } => spell_verdict(operations::matches(sheet, &case.filter, &cards)),
            Operation::MatchSearch { .. } => spell_verdict(operations::matches_search(sheet, &case.filter, &cards)),
            Operation::Select { cells, .. } => {
                let mut list = vec![UNTOUCHED; *cells];
                spell_selection(operations::select(sheet, &case.filter, &cards, &mut list), &list)
            }
            Operation::SelectSearch { cells, .. } => {
                let mut list = vec![UNTOUCHED; *cells];
                spell_selection(operations::select_search(sheet, &case.filter, &cards, &mut list), &list)
            }
            Operation::Explain { cells, .. } => {
                let mut marks = vec![UNMARKED; *cells];
                spell_explained(operations::explain(sheet, &case.filter, &cards, &mut marks), &marks)
            }
            Operation::Report { rows, .. } => {
                let mut rows = vec![Tally { cards: UNTOUCHED, values: UNTOUCHED }; *rows];
                spell_report(operations::report(sheet, &case.filter, &cards, &mut rows), &rows)
            }
            Operation::Prepare { cells } => {
                let mut list = vec![UNTOUCHED; *cells];
                spell_prepared(operations::prepare(sheet, &case.filter, &mut list), &list)
            }
            Operation::Judge { rows, .. } => spell_verdict(operations::judge(sheet, &case.filter, rows, &cards)),
        }
    }

    /// Reads a line that is not indented, with the indented ones below it.
    fn definition(&mut self, line: &str, parts: &[&str]) -> Option<()> {
        let (head, filter, answer) = match line.split('`').collect::<Vec<_>>()[..] {
            [head] => (head, None, ""),
            [head, filter, answer] => (head, Some(filter), answer.trim()),
            _ => return None,
        };
        let words: Vec<&str> = head.split_whitespace().collect();
        let operation = match (words.as_slice(), filter) {
            (["sheet", name], None) => return self.sheet(SHEET, name, parts),
            (["marked", "sheet", name], None) => return self.sheet(MARKED_SHEET, name, parts),
            (["card", name, "on", sheet, "record", record], None) => {
                return self.card(CARD, name, sheet, record.parse().ok()?, parts);
            }
            (["marked", "card", name, "on", sheet, "record", record], None) => {
                return self.card(MARKED_CARD, name, sheet, record.parse().ok()?, parts);
            }
            (["damaged", name, "from", other], None) => return self.damaged(name, other, parts),
            (["check", _], Some(_)) => Operation::Check,
            (["check_search", _], Some(_)) => Operation::CheckSearch,
            (["match", _, card], Some(_)) => Operation::Match { card: self.index(card)? },
            (["match_search", _, card], Some(_)) => Operation::MatchSearch { card: self.index(card)? },
            (["explain", _, card, "into", cells], Some(_)) => {
                Operation::Explain { card: self.index(card)?, cells: cells.parse().ok()? }
            }
            (["select", _, cards @ .., "into", cells], Some(_)) => {
                Operation::Select { cards: self.run(cards)?, cells: cells.parse().ok()? }
            }
            (["select_search", _, cards @ .., "into", cells], Some(_)) => {
                Operation::SelectSearch { cards: self.run(cards)?, cells: cells.parse().ok()? }
            }
            (["report", _, cards @ .., "into", rows], Some(_)) => {
                Operation::Report { cards: self.run(cards)?, rows: rows.parse().ok()? }
            }
            (["prepare", _, "into", cells], Some(_)) => Operation::Prepare { cells: cells.parse().ok()? },
            (["judge", _, card, "by", rows @ ..], Some(_)) => {
                let rows = rows.iter().map(|row| repeated_row(row)).collect::<Option<Vec<_>>>()?;
                Operation::Judge { card: self.index(card)?, rows: rows.concat() }
            }
            _ => return None,
        };
        let written = filter?.to_string();
        self.cases.push(Case {
            operation,
            sheet: self.index(words[1])?,
            filter: bytes_of(&written)?,
            written,
            answer: answer.to_string(),
        });
        parts.is_empty().then_some(())
    }

    /// A sheet; each part is a kind, by word or number, and a name.
    fn sheet(&mut self, first: u8, name: &str, parts: &[&str]) -> Option<()> {
        let mut parameters = Vec::new();
        for part in parts {
            let (kind, mark, name) = cut(part, first)?;
            let kind = match KINDS.iter().position(|known| *known == kind) {
                Some(index) => Kind::ALL[index].number(),
                None if kind == "bundle" => block::BUNDLE,
                None => kind.parse().ok()?,
            };
            parameters.push((kind, mark, bytes_of(name.trim())?));
        }
        let bytes = block::write_sheet_as(first, &borrowed(&parameters))?;
        self.block(name, bytes)
    }

    /// A card; each part is a parameter, by name or by place, and a text in backquotes.
    fn card(&mut self, first: u8, name: &str, sheet: &str, record: u32, parts: &[&str]) -> Option<()> {
        let sheet = block::read_sheet(&self.blocks[self.index(sheet)?].bytes).ok()?;
        let mut entries = Vec::new();
        for part in parts {
            let (name, mark, text) = cut(part, first)?;
            let mut names = sheet.parameters.iter().map(|parameter| &parameter.name);
            let place = match names.position(|known| known == name.as_bytes()) {
                Some(place) => u8::try_from(place).ok()?,
                None => name.parse().ok()?,
            };
            let text = text.trim().strip_prefix('`')?.strip_suffix('`')?;
            entries.push((place, mark, bytes_of(text)?));
        }
        let bytes = block::write_card_as(first, record, &borrowed(&entries))?;
        self.block(name, bytes)
    }

    /// A copy of another block; each part changes it.
    fn damaged(&mut self, name: &str, other: &str, parts: &[&str]) -> Option<()> {
        let mut bytes = self.blocks[self.index(other)?].bytes.clone();
        for part in parts {
            let words: Vec<&str> = part.split_whitespace().collect();
            match words[..] {
                ["size", size] => bytes.resize(size.parse().ok()?, 0),
                ["byte", place, value] => {
                    let place: usize = place.parse().ok()?;
                    *bytes.get_mut(place)? = u8::from_str_radix(value, 16).ok()?;
                }
                ["sum"] => block::store_sum(&mut bytes),
                _ => return None,
            }
        }
        self.block(name, bytes)
    }

    fn block(&mut self, name: &str, bytes: Vec<u8>) -> Option<()> {
        if self.index(name).is_some() {
            return None;
        }
        let name = name.to_string();
        self.blocks.push(Block { name, bytes });
        Some(())
    }

    /// Cards by their names, one after the other.
    fn run(&self, cards: &[&str]) -> Option<Vec<usize>> {
        let cards = cards.iter().map(|card| self.repeated(card)).collect::<Option<Vec<_>>>()?;
        Some(cards.concat())
    }

    /// A card by its name, or as often as the number before "*" says.
    fn repeated(&self, card: &str) -> Option<Vec<usize>> {
        let (times, name) = card.split_once('*').unwrap_or(("1", card));
        Some(vec![self.index(name)?; times.parse().ok()?])
    }

    fn index(&self, name: &str) -> Option<usize> {
        self.blocks.iter().position(|block| block.name == name)
    }
}

fn spell_refusal(refusal: Refusal) -> String {
    format!("{} at {}", refusal.number, refusal.place)
}

/// A number of tests, or of alternatives.
fn spell_checked(answer: Result<usize, Refusal>) -> String {
    match answer {
        Ok(tests) => format!("tests {tests}"),
        Err(refusal) => spell_refusal(refusal),
    }
}

/// A selection, with the cells of its list.
pub fn spell_selection(answer: Result<usize, Refusal>, cells: &[u32]) -> String {
    let mut spelled = match answer {
        Ok(count) => format!("count {count}"),
        Err(refusal) => spell_refusal(refusal),
    };
    spelled.push_str(" cells");
    for cell in cells {
        write!(spelled, " {cell}").unwrap();
    }
    spelled
}

/// A yes or no.
pub fn spell_verdict(answer: Result<bool, Refusal>) -> String {
    match answer {
        Ok(true) => "yes".to_string(),
        Ok(false) => "no".to_string(),
        Err(refusal) => spell_refusal(refusal),
    }
}

/// The answer of explain, with the cells.
pub fn spell_explained(answer: Result<bool, Refusal>, cells: &[u8]) -> String {
    let mut spelled = spell_verdict(answer);
    spelled.push_str(" cells");
    for cell in cells {
        write!(spelled, " {cell}").unwrap();
    }
    spelled
}

/// The answer of prepare, with the cells.
pub fn spell_prepared(answer: Result<usize, Refusal>, cells: &[u32]) -> String {
    let mut spelled = match answer {
        Ok(filled) => format!("filled {filled}"),
        Err(refusal) => spell_refusal(refusal),
    };
    spelled.push_str(" cells");
    for &cell in cells {
        write!(spelled, " {}", spell_row(cell)).unwrap();
    }
    spelled
}

const NOT: u32 = 2;

/// The rows that have a number of rows, by what they are beyond eight times that number.
const WORDS: [(&str, u32); 3] = [("in", 1), ("and", 3), ("or", 4)];

/// A row as the file writes it; any other cell as a number.
fn spell_row(cell: u32) -> String {
    if cell == NOT {
        return "not".into();
    }
    if let Some((word, _)) = WORDS.iter().find(|(_, number)| *number == cell % 8) {
        return format!("{word}{}", cell / 8);
    }
    let test = cell / 8;
    match OPERATIONS.get((test / 32 % 32) as usize) {
        Some((operator, _)) if cell % 8 == 0 => {
            format!("{}.{}@{}", test % 32, String::from_utf8_lossy(operator), test / 1024)
        }
        _ => cell.to_string(),
    }
}

/// A row that the file writes, or as many as the number before "*" says.
fn repeated_row(written: &str) -> Option<Vec<u32>> {
    let (times, row) = written.split_once('*').unwrap_or(("1", written));
    Some(vec![read_row(row)?; times.parse().ok()?])
}

/// The cell of a row that the file writes.
fn read_row(written: &str) -> Option<u32> {
    if written == "not" {
        return Some(NOT);
    }
    let sized = |(word, number): &(&str, u32)| Some(8 * written.strip_prefix(word)?.parse::<u32>().ok()? + number);
    if let Some(cell) = WORDS.iter().find_map(sized) {
        return Some(cell);
    }
    let Some((test, place)) = written.split_once('@') else { return written.parse().ok() };
    let (parameter, operator) = test.split_once('.')?;
    let operator = match operator.parse() {
        Ok(number) => number,
        Err(_) => OPERATIONS.iter().position(|(word, _)| *word == operator.as_bytes())? as u32,
    };
    Some(8 * (parameter.parse::<u32>().ok()? + 32 * (operator + 32 * place.parse::<u32>().ok()?)))
}

/// The answer of a report, with the rows.
pub fn spell_report(answer: Result<(usize, usize), Refusal>, rows: &[Tally]) -> String {
    let mut spelled = match answer {
        Ok((yes, no)) => format!("counts {yes} {no}"),
        Err(refusal) => spell_refusal(refusal),
    };
    spelled.push_str(" rows");
    for Tally { cards, values } in rows {
        write!(spelled, " {cards}/{values}").unwrap();
    }
    spelled
}

/// The indented lines that come next.
fn indented<'a>(lines: &mut Peekable<impl Iterator<Item = (&'a str, u32)>>) -> Vec<&'a str> {
    let mut parts = Vec::new();
    while let Some((line, _)) = lines.next_if(|(line, _)| line.starts_with(' ')) {
        parts.push(line.trim());
    }
    parts
}

/// A part of a sheet or a card: its first word; the mark, a number, where the block has marks; and the rest.
fn cut(part: &str, first: u8) -> Option<(&str, u8, &str)> {
    let (word, rest) = part.split_once(' ')?;
    if !block::is_marked(first) {
        return Some((word, 0, rest));
    }
    let (mark, rest) = rest.split_once(' ')?;
    Some((word, mark.parse().ok()?, rest))
}

fn borrowed(entries: &[(u8, u8, Vec<u8>)]) -> Vec<Entry<'_>> {
    let entries = entries.iter();
    entries.map(|(head, mark, text)| Entry { head: *head, mark: *mark, text }).collect()
}

/// The bytes that a text of the file stands for: `{0A}` is the byte with that number, `{12*ab}` is ab twelve times.
pub(crate) fn bytes_of(written: &str) -> Option<Vec<u8>> {
    let mut bytes = Vec::new();
    let mut rest = written;
    while let Some((plain, from_brace)) = rest.split_once('{') {
        bytes.extend_from_slice(plain.as_bytes());
        let (inside, behind) = from_brace.split_once('}')?;
        match inside.split_once('*') {
            Some((times, text)) => bytes.extend(text.repeat(times.parse().ok()?).bytes()),
            None => bytes.push(u8::from_str_radix(inside, 16).ok()?),
        }
        rest = behind;
    }
    bytes.extend_from_slice(rest.as_bytes());
    Some(bytes)
}
