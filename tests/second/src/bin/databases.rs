//! Writes questions and what the second implementation answers, for the tests of the database extensions.
//!
//! `databases FOLDER [SEED [CASES [ARCHIVES]]]` writes two files of lines with tabs between the columns, bytes in hexadecimal:
//! `cases` (a sheet, a filter, a search string and a card, then the answers of check, match, plain, explain, record, check by
//! search string and match by search string) and `archives` (a sheet, a filter, cards, and the list). An answer is what SQL
//! answers, or `refused 16 at 0`.

use second::block::{self, SIZE};
use second::generate::{self, Files};
use second::operations::{self, Refusal};
use std::fmt::Display;
use std::path::Path;
use std::process::ExitCode;
use std::{env, fs, io};

const SEED: u64 = 1974;
const CASES: u64 = 1500;
const ARCHIVES: u64 = 60;

/// The most tests of a filter.
const TESTS: usize = 32;

fn main() -> ExitCode {
    let arguments: Vec<String> = env::args().skip(1).collect();
    let number = |index: usize, otherwise| arguments.get(index).map_or(Ok(otherwise), |text| text.parse());
    let (Some(folder), Ok(seed), Ok(cases), Ok(archives)) =
        (arguments.first(), number(1, SEED), number(2, CASES), number(3, ARCHIVES))
    else {
        eprintln!("usage: databases FOLDER [SEED [CASES [ARCHIVES]]]");
        return ExitCode::FAILURE;
    };
    match write(Path::new(folder), seed, cases, archives) {
        Ok(()) => ExitCode::SUCCESS,
        Err(reason) => {
            eprintln!("{folder} cannot be written to: {reason}");
            ExitCode::FAILURE
        }
    }
}

fn write(folder: &Path, seed: u64, cases: u64, archives: u64) -> io::Result<()> {
    let cases: String = (0..cases).map(|number| case(seed, number)).collect();
    fs::write(folder.join("cases"), cases)?;
    let archives: String = (0..archives).map(|number| archive(seed, number)).collect();
    fs::write(folder.join("archives"), archives)
}

/// A question of each sort about a card, and its answer.
fn case(seed: u64, number: u64) -> String {
    let (case, _) = generate::case(seed, number);
    let string = generate::query(seed, number, &case);
    let (sheet, filter, card) = (&case.sheet[..], &case.filter[..], &case.card[..]);
    let answers = [
        told(operations::check(sheet, filter)),
        told(operations::matches(sheet, filter, card).map(u8::from)),
        told(plain(filter)),
        told(explained(sheet, filter, card)),
        record(card).map_or("refused 20 at 0".into(), |record| record.to_string()),
        told(operations::check_search(sheet, &string)),
        told(operations::matches_search(sheet, &string, card).map(u8::from)),
    ];
    line([hex(sheet), hex(filter), hex(&string), hex(card)].into_iter().chain(answers))
}

/// The record number of 512 bytes, whatever they are.
fn record(card: &[u8]) -> Option<u32> {
    (card.len() == SIZE).then(|| u32::from_le_bytes([card[1], card[2], card[3], card[4]]))
}

fn plain(filter: &[u8]) -> Result<String, Refusal> {
    let mut buffer = vec![0; filter.len()];
    let length = operations::spell(filter, &mut buffer, 0)?;
    Ok(hex(&buffer[..length]))
}

/// The answer and the marks of the tests, as the extensions write them.
fn explained(sheet: &[u8], filter: &[u8], card: &[u8]) -> Result<String, Refusal> {
    const END: u8 = 255;
    let mut cells = [END; TESTS];
    let matches = operations::explain(sheet, filter, card, &mut cells)?;
    let marks = cells.iter().take_while(|&&cell| cell != END);
    let marks: Vec<&str> = marks.map(|&cell| ["\"spared\"", "\"yes\"", "\"no\""][usize::from(cell)]).collect();
    Ok(format!("{{\"matches\":{matches},\"tests\":[{}]}}", marks.join(",")))
}

/// An archive, and the record numbers of its list in the order of the cards. A refusal of a card has no place in a table.
fn archive(seed: u64, number: u64) -> String {
    let Files { sheet, filter, mut cards } = generate::files(seed, number);
    cards.truncate(cards.len() / SIZE * SIZE);
    let filter = filter.strip_suffix(b"\n").unwrap_or(&filter);
    let list = || {
        operations::check(&sheet, filter)?;
        let mut list = Vec::new();
        for card in cards.chunks(SIZE) {
            if operations::matches(&sheet, filter, card)? {
                list.push(block::read_card(card).map_or(0, |card| card.record).to_string());
            }
        }
        Ok(list.join(" "))
    };
    line([hex(&sheet), hex(filter), hex(&cards), told(list())])
}

fn told<T: Display>(answer: Result<T, Refusal>) -> String {
    match answer {
        Ok(answer) => answer.to_string(),
        Err(Refusal { number, place }) => format!("refused {number} at {place}"),
    }
}

fn hex(bytes: &[u8]) -> String {
    bytes.iter().map(|byte| format!("{byte:02x}")).collect()
}

fn line(columns: impl IntoIterator<Item = String>) -> String {
    columns.into_iter().collect::<Vec<String>>().join("\t") + "\n"
}
