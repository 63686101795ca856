//! archive SHEET FILTER CARDS: the record numbers of the matching cards of a file of any size, and how many of how many match.
//! The list is held back until the last card has passed. The status is 0 where there is an answer, 2 where there is a refusal,
//! and 3 where a file cannot be read or the answer not be written.

use sirophan::{Archive, Refusal, Unanswered};
use std::env;
use std::error::Error;
use std::fs::{self, File};
use std::io::{self, BufWriter, Write};
use std::process::ExitCode;

const REFUSED: u8 = 2;
const UNREADABLE: u8 = 3;

/// The record numbers of the cards that match, and how many cards there are.
fn matching(sheet: &str, filter: &str, cards: &str) -> Result<(Vec<u32>, u64), Unanswered> {
    let sheet = fs::read(sheet)?;
    let filter = fs::read(filter)?;
    let filter = filter.strip_suffix(b"\n").unwrap_or(&filter);
    let mut found = Archive::new(&sheet, File::open(cards)?).select(filter)?;
    let records = found.by_ref().map(|found| found.map(|(_, record)| record)).collect::<Result<_, _>>()?;
    Ok((records, found.cards()))
}

fn main() -> ExitCode {
    let arguments: Vec<String> = env::args().skip(1).collect();
    let [sheet, filter, cards] = &arguments[..] else {
        eprintln!("usage: archive SHEET FILTER CARDS");
        return ExitCode::FAILURE;
    };
    match matching(sheet, filter, cards) {
        Ok((records, cards)) => tell(&records, cards).map_or_else(|error| unreadable(&error), |()| ExitCode::SUCCESS),
        Err(Unanswered::Refused(refusal)) => refused(&refusal),
        Err(error) => unreadable(&error),
    }
}

fn tell(records: &[u32], cards: u64) -> io::Result<()> {
    let mut output = BufWriter::new(io::stdout());
    for record in records {
        writeln!(output, "{record}")?;
    }
    writeln!(output, "{} of {cards}", records.len())?;
    output.flush()
}

/// Tells a refusal; the index of a card at fault counts over the whole file.
fn refused(refusal: &Refusal) -> ExitCode {
    println!("refused {} at {}", refusal.number, refusal.place);
    eprintln!("{}", refusal.sentence());
    ExitCode::from(REFUSED)
}

fn unreadable(error: &dyn Error) -> ExitCode {
    eprintln!("{error}");
    ExitCode::from(UNREADABLE)
}
