//! A page in HTML: one file that needs nothing else, and prints on A4. Each fact and each row of a list is a line.

use crate::page::{Fact, Mark, Page, Part};
use crate::report::{Level, Message};
use crate::text::grouped;
use crate::visible;
use std::fmt::Write;

/// How every page begins.
pub const START: &str = "<!DOCTYPE html>\n<html lang=\"en\">\n<head>\n<meta charset=\"utf-8\">\n<meta name=\"generator\" content=\"sirophan sign\">\n\
                         <meta http-equiv=\"Content-Security-Policy\" content=\"default-src 'none'; style-src 'unsafe-inline'\">\n";
/// How the line of a fact ends.
pub const FACT_END: &str = "</td></tr>";
/// How the lines of a list begin: of numbers, and of cards with columns.
const NUMBERS: &str = "<table class=\"list numbers\">";
const CARDS: &str = "<table class=\"list\">";
/// How many record numbers stand in a row.
const IN_ROW: usize = 8;
/// The columns of tables whose texts may be long.
const WIDE: [&str; 4] = ["Test", "Value", "Examples", "Which"];

const STYLE: &str = "\
@page { size: A4; margin: 18mm 18mm 20mm; }
@page { @bottom-left { content: \"Sirophan\"; font: 9pt Georgia, serif; } }
@page { @bottom-right { content: \"Page \" counter(page) \" of \" counter(pages); font: 9pt Georgia, serif; } }
* { box-sizing: border-box; }
body { max-width: 186mm; margin: 10mm auto; padding: 0 6mm; font: 12pt/1.4 Georgia, \"Times New Roman\", serif; color: #000; background: #fff; }
h1 { margin: 0 0 2mm; padding-bottom: 2mm; border-bottom: 1.5pt solid #000; font-size: 22pt; font-weight: normal; }
h2 { margin: 8mm 0 2mm; font-size: 13pt; break-after: avoid; }
p { margin: 2mm 0; }
table { width: 100%; border-collapse: collapse; font-variant-numeric: lining-nums tabular-nums; }
thead { display: table-header-group; }
tr { break-inside: avoid; }
th, td { padding: 1.2mm 4mm 1.2mm 0; border-bottom: .5pt solid #999; text-align: left; vertical-align: baseline; white-space: pre-wrap; }
th { font-weight: bold; }
thead th { border-bottom: 1pt solid #000; font-size: 10.5pt; }
thead th { white-space: normal; }
.facts th { width: 48mm; font-weight: normal; color: #333; }
.facts td, .list td, .any { overflow-wrap: anywhere; }
.any { min-width: 32mm; }
.facts td, .list td { font-family: \"DejaVu Sans Mono\", Consolas, Menlo, monospace; font-size: 10.5pt; }
#sheet-sha256 td, #cards-sha256 td, #fingerprint td { font-size: 8.5pt; letter-spacing: -.01em; }
.list th:first-child { width: 18mm; color: #333; font-weight: normal; text-align: right; }
.numbers { table-layout: fixed; }
.outcome { margin: 3mm 0 4mm; font-size: 18pt; }
.message { margin: 3mm 0; padding: 2mm 4mm; border-left: 3pt solid #000; break-inside: avoid; }
.message p { margin: 1mm 0; }
.note { border-left: 1pt solid #000; }
pre { margin: 1mm 0; font: 10pt/1.3 \"DejaVu Sans Mono\", Consolas, Menlo, monospace; white-space: pre-wrap; }
bdi { display: inline; }
bdi + bdi::before { content: \"\\A\"; white-space: pre; }
b { padding: 0 .4mm; border: .5pt solid #000; font: 8pt \"DejaVu Sans Mono\", Consolas, Menlo, monospace; }
.signature { display: flex; gap: 10mm; margin-top: 18mm; break-inside: avoid; }
.signature span { flex: 1; padding-top: 1mm; border-top: .8pt solid #000; font-size: 10pt; }
.statement, .facts:has(#date) { break-after: avoid; }
@media print { body { max-width: none; margin: 0; padding: 0; } }
";

/// A page.
pub fn written(page: &Page) -> String {
    let title = visible::html(page.title.as_bytes());
    let mut text = format!(
        "{START}<meta name=\"viewport\" content=\"width=device-width, initial-scale=1\">\n<title>{title}</title>\n<style>\n{STYLE}</style>\n\
         </head>\n<body>\n<h1>{title}</h1>\n"
    );
    page.parts.iter().for_each(|part| put(&mut text, part));
    text.push_str("</body>\n</html>\n");
    text
}

/// Writes a line. A text takes all that is written to it.
macro_rules! line {
    ($to:expr, $($what:tt)*) => {{
        let _ = writeln!($to, $($what)*);
    }};
}

fn put(text: &mut String, part: &Part) {
    match part {
        Part::Heading(heading) => line!(text, "<h2>{heading}</h2>"),
        Part::Sentence(words) => line!(text, "{}", sentence(words)),
        Part::Outcome(words) => line!(text, "{}", outcome(words)),
        Part::Facts(facts) => {
            line!(text, "<table class=\"facts\">");
            for Fact { mark, value } in facts {
                line!(text, "{}{}{FACT_END}", fact_start(*mark), visible::html(value));
            }
            line!(text, "</table>");
        }
        Part::Table { head, rows } => put_table(text, head, rows),
        Part::Numbers(records) => put_numbers(text, records),
        Part::Cards { head, rows } => put_cards(text, head, rows),
        Part::Messages(messages) => messages.iter().for_each(|message| put_message(text, message)),
        Part::Signature(statement) => {
            line!(text, "<p class=\"statement\">{statement}</p>");
            line!(text, "<div class=\"signature\"><span>Name</span><span>Signature</span></div>");
        }
    }
}

/// A sentence, and the outcome, each a line.
pub fn sentence(words: &str) -> String {
    format!("<p>{}</p>", visible::html(words.as_bytes()))
}

pub fn outcome(words: &str) -> String {
    format!("<p class=\"outcome\">{}</p>", visible::html(words.as_bytes()))
}

/// How the line of a fact begins.
pub fn fact_start(mark: Mark) -> String {
    format!("<tr id=\"{}\"><th>{}</th><td>", mark.id, mark.label)
}

/// The values of a cell, each by itself: writing from right to left stays in it.
fn cell(values: &[Vec<u8>]) -> String {
    values.iter().map(|value| format!("<bdi>{}</bdi>", visible::html(value))).collect::<Vec<String>>().concat()
}

fn head_row(text: &mut String, head: &[String]) {
    let cells = head.iter().map(|cell| format!("<th>{}</th>", visible::html(cell.as_bytes())));
    line!(text, "<thead><tr>{}</tr></thead>\n<tbody>", cells.collect::<Vec<String>>().concat());
}

fn put_table(text: &mut String, head: &[String], rows: &[Vec<Vec<Vec<u8>>>]) {
    line!(text, "<table>");
    head_row(text, head);
    for row in rows {
        let cells = row.iter().zip(head).map(|(values, word)| {
            // Long texts without a space are cut anywhere; names and numbers stay whole.
            let class = if WIDE.contains(&word.as_str()) { " class=\"any\"" } else { "" };
            format!("<td{class}>{}</td>", cell(values))
        });
        line!(text, "<tr>{}</tr>", cells.collect::<Vec<String>>().concat());
    }
    line!(text, "</tbody>\n</table>");
}

fn put_numbers(text: &mut String, records: &[u32]) {
    line!(text, "{NUMBERS}");
    line!(
        text,
        "<thead><tr><th>No.</th><th colspan=\"{IN_ROW}\">Record numbers, in the order of the cards</th></tr></thead>\n<tbody>"
    );
    for (row, records) in records.chunks(IN_ROW).enumerate() {
        let _ = write!(text, "<tr><th>{}</th>", grouped((row * IN_ROW + 1) as u64));
        for record in records {
            let _ = write!(text, "<td>{record}</td>");
        }
        let missing = IN_ROW - records.len();
        line!(text, "{}</tr>", if missing > 0 { format!("<td colspan=\"{missing}\"></td>") } else { String::new() });
    }
    line!(text, "</tbody>\n</table>");
}

fn put_cards(text: &mut String, head: &[String], rows: &[(u32, Vec<Vec<Vec<u8>>>)]) {
    line!(text, "{CARDS}");
    let fixed = ["No.", "Record"].map(String::from);
    head_row(text, &[&fixed[..], head].concat());
    for ((record, cells), number) in rows.iter().zip(1..) {
        let _ = write!(text, "<tr><th>{}</th><td>{record}</td>", grouped(number));
        for values in cells {
            let _ = write!(text, "<td>{}</td>", cell(values));
        }
        line!(text, "</tr>");
    }
    line!(text, "</tbody>\n</table>");
}

fn put_message(text: &mut String, message: &Message) {
    let (class, word) = match message.level {
        Level::Error => ("message", ""),
        Level::Warning => ("message", "<strong>Warning:</strong> "),
        Level::Note => ("message note", "Note: "),
    };
    line!(text, "<div class=\"{class}\">");
    if let Some(shown) = &message.shown {
        let lines: Vec<String> = shown.lines().map(|line| visible::html(line.as_bytes())).collect();
        line!(text, "<pre>{}</pre>", lines.join("\n"));
    }
    line!(text, "<p>{word}{}</p>", visible::html(message.text.as_bytes()));
    for help in &message.help {
        line!(text, "<p>{}</p>", visible::html(help.as_bytes()));
    }
    line!(text, "</div>");
}

/// The record numbers of the list of a page.
pub fn records(page: &str) -> Option<Vec<u32>> {
    let mut lines = page.lines();
    let has_columns = lines.by_ref().find(|line| [NUMBERS, CARDS].contains(line))? == CARDS;
    let rows = lines.take_while(|line| *line != "</table>").filter(|line| line.starts_with("<tr><th>"));
    let mut records = Vec::new();
    for row in rows {
        let cells = row.split("<td>").skip(1).take(if has_columns { 1 } else { IN_ROW });
        for cell in cells {
            records.push(cell.split('<').next()?.parse().ok()?);
        }
    }
    Some(records)
}
