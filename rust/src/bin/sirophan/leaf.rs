//! A page in plain text, for a printer or a file of texts. Each fact and each row of a list is a line.

use crate::page::{Fact, Mark, Page, Part};
use crate::report::Message;
use crate::text::grouped;
use crate::visible;
use crate::width;

/// How every page begins.
pub const START: &str = "A page of sirophan sign\n=======================\n";
/// The columns of a sentence.
const COLUMNS: usize = 80;
/// How wide the labels of facts are, and the numbers before the rows of a list.
const LABEL: usize = 24;
const NUMBER: usize = 9;
/// How many record numbers stand in a row, and how wide each is.
const IN_ROW: usize = 6;
const RECORD: usize = 11;
/// What stands between the cells of a list, and the head above it.
const BAR: &str = " | ";
const HEAD: &str = "      No.";

/// A page.
pub fn written(page: &Page) -> String {
    let mut lines = vec![START.trim_end().to_string(), String::new(), visible::plain(page.title.as_bytes())];
    page.parts.iter().for_each(|part| put(&mut lines, part));
    lines.join("\n") + "\n"
}

fn put(lines: &mut Vec<String>, part: &Part) {
    match part {
        Part::Heading(heading) => lines.extend([String::new(), heading.to_string(), "-".repeat(heading.len())]),
        Part::Sentence(sentence) | Part::Outcome(sentence) => {
            if lines.last().is_some_and(|last| last.starts_with(' ')) {
                lines.push(String::new());
            }
            lines.push(self::sentence(sentence));
        }
        Part::Facts(facts) => {
            let fact = |Fact { mark, value }: &Fact| format!("{}{}", fact_start(*mark), visible::plain(value));
            lines.extend(facts.iter().map(fact));
        }
        Part::Table { head, rows } => put_table(lines, head, rows),
        Part::Numbers(records) => {
            lines.push(format!("{HEAD}{BAR}Record numbers, in the order of the cards"));
            for (row, records) in records.chunks(IN_ROW).enumerate() {
                let records: Vec<String> = records.iter().map(|record| format!("{record:<RECORD$}")).collect();
                let number = grouped((row * IN_ROW + 1) as u64);
                lines.push(format!("{number:>NUMBER$}{BAR}{}", records.concat().trim_end()));
            }
        }
        Part::Cards { head, rows } => {
            lines.push([&[HEAD.into(), "Record".into()], &head[..]].concat().join(BAR));
            for ((record, cells), number) in rows.iter().zip(1..) {
                let cells: Vec<String> = cells.iter().map(|values| cell(values)).collect();
                let start = [format!("{:>NUMBER$}", grouped(number)), record.to_string()];
                lines.push([&start[..], &cells].concat().join(BAR));
            }
        }
        Part::Messages(messages) => messages.iter().for_each(|message| put_message(lines, message)),
        Part::Signature(statement) => {
            let line = format!("{:<38}  {:<40}", "Name", "Signature");
            lines.extend([String::new(), (*statement).into(), String::new(), String::new()]);
            lines.extend([format!("{}  {}", "_".repeat(38), "_".repeat(40)), line.trim_end().into()]);
        }
    }
}

/// A sentence, cut into lines.
pub fn sentence(words: &str) -> String {
    width::wrapped(&visible::plain(words.as_bytes()), COLUMNS, 0)
}

/// How the line of a fact begins.
pub fn fact_start(mark: Mark) -> String {
    format!("{:<LABEL$}", format!("{}:", mark.label))
}

/// The values of a cell in a row.
fn cell(values: &[Vec<u8>]) -> String {
    values.iter().map(|value| visible::plain(value)).collect::<Vec<String>>().join("; ")
}

/// A table: of two columns a line for each row, and else each row under the words of the head, so that no line is too wide.
fn put_table(lines: &mut Vec<String>, head: &[String], rows: &[Vec<Vec<Vec<u8>>>]) {
    if let [count, which] = head {
        lines.push(format!("  {count:>6}  {which}"));
        for row in rows {
            let mut line = width::wrapped(&format!("{:10}{}", "", cell(&row[1])), COLUMNS, 0);
            line.replace_range(..10, &format!("  {:>6}  ", cell(&row[0])));
            lines.push(line);
        }
        return;
    }
    for (number, row) in rows.iter().enumerate() {
        if number > 0 {
            lines.push(String::new());
        }
        for (word, values) in head.iter().zip(row) {
            lines
                .push(format!("  {:<width$}{}", format!("{word}:"), cell(values), width = LABEL - 2).trim_end().into());
        }
    }
}

fn put_message(lines: &mut Vec<String>, message: &Message) {
    lines.push(String::new());
    let shown = message.shown.iter().flat_map(|shown| shown.lines());
    lines.extend(shown.map(|line| format!("    {}", visible::plain(line.as_bytes()))));
    let bare = Message { shown: None, ..message.clone() };
    for line in bare.lines(None).lines() {
        lines.push(width::wrapped(&visible::plain(line.as_bytes()), COLUMNS, 2));
    }
}

/// The record numbers of the list of a page.
pub fn records(page: &str) -> Option<Vec<u32>> {
    let mut lines = page.lines();
    lines.by_ref().find(|line| line.starts_with(HEAD))?;
    let mut records = Vec::new();
    for line in lines.take_while(|line| !line.is_empty()) {
        let (_, behind) = line.split_once(BAR)?;
        let numbers = behind.split(BAR).next()?;
        for number in numbers.split_whitespace() {
            records.push(number.parse().ok()?);
        }
    }
    Some(records)
}
