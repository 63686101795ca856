//! definitions: writes docs/DEFINITIONS.md and docs/BOOK.md. It is run at the root of the repository. With arguments:
//!
//! - `--check` says whether both are as they should be;
//! - `STATEMENT` prints the files of all that is behind one statement;
//! - `book NAME` prints the book of one statement, or of all statements under the headings that have these words, as `book 'search strings'`.

use definitions::book::{Book, Library};
use definitions::page::{self, COMMAND};
use definitions::reach::{self, Promise};
use definitions::repository::Repository;
use definitions::twins::TWINS;
use definitions::{Fault, files};
use std::path::Path;
use std::process::ExitCode;
use std::{env, fs};

/// The files with the promises.
const PROMISES: [&str; 5] = [
    "crates/sirophan/proofs/Promises.antt",
    "crates/report/proofs/Promises.antt",
    "crates/explain/proofs/Promises.antt",
    "crates/fields/proofs/Promises.antt",
    "crates/sealing/proofs/Promises.antt",
];
const PAGE: &str = "docs/DEFINITIONS.md";
const BOOK: &str = "docs/BOOK.md";
/// The book of the three demands, but for what the program puts into it.
const TEMPLATE: &str = "tests/definitions/book.md";
/// The most lines of definitions in it: what can be read in an hour.
const MOST_LINES: usize = 900;
const USAGE: &str = "usage: definitions [--check | STATEMENT | book NAME]";

fn main() -> ExitCode {
    let arguments: Vec<String> = env::args().skip(1).collect();
    let done = match arguments.iter().map(String::as_str).collect::<Vec<_>>().as_slice() {
        [] => write(),
        ["--check"] => check(),
        ["book", name] => tell_book(name),
        [statement] if !statement.starts_with('-') && *statement != "book" => tell(statement),
        _ => Err(USAGE.into()),
    };
    if let Err(reason) = &done {
        eprintln!("{reason}");
    }
    if arguments.iter().any(|argument| argument == "--check") {
        println!("{} passed, {} failed", done.is_ok() as u32, done.is_err() as u32);
    }
    if done.is_ok() { ExitCode::SUCCESS } else { ExitCode::FAILURE }
}

/// The repository and its promises.
fn read() -> Result<(Repository, Vec<Promise>), String> {
    let files = files::read(Path::new(".")).map_err(|reason| format!("crates: {reason}"))?;
    let repository = Repository::read(files, &PROMISES).map_err(told)?;
    let promises = reach::promises(&repository, &PROMISES, TWINS).map_err(told)?;
    Ok((repository, promises))
}

fn told(fault: Fault) -> String {
    fault.to_string()
}

/// Both pages as they should be, with their paths.
fn made() -> Result<[(&'static str, String); 2], String> {
    let (repository, promises) = read()?;
    let page = page::page(&repository, &PROMISES, &promises, TWINS);
    let template = fs::read_to_string(TEMPLATE).map_err(|reason| format!("{TEMPLATE}: {reason}"))?;
    let library = Library { repository: &repository, files: &PROMISES, promises: &promises, twins: TWINS };
    let book = Book::of(library, TEMPLATE, &template).map_err(told)?;
    if book.lines() > MOST_LINES {
        return Err(format!("{BOOK}: the definitions have {} lines, and {MOST_LINES} are the most", book.lines()));
    }
    let text = book.text().map_err(told)?;
    book.check_examples(TEMPLATE, &template, &text).map_err(told)?;
    Ok([(PAGE, page), (BOOK, text)])
}

fn write() -> Result<(), String> {
    for (path, text) in made()? {
        fs::write(path, text).map_err(|reason| format!("{path}: {reason}"))?;
    }
    Ok(())
}

/// Prints the files of all that is behind one statement.
fn tell(statement: &str) -> Result<(), String> {
    let (repository, promises) = read()?;
    let promise = promises.iter().find(|promise| promise.name == statement);
    let promise = promise.ok_or(format!("there is no statement {statement} among the promises"))?;
    print!("{}", page::files_behind(&repository, &promise.behind));
    Ok(())
}

/// Prints the book of a statement or of what stands under a heading.
fn tell_book(name: &str) -> Result<(), String> {
    let (repository, promises) = read()?;
    let library = Library { repository: &repository, files: &PROMISES, promises: &promises, twins: TWINS };
    let template = library.template(name)?;
    let book = Book::of(library, "tests/definitions/one.md", &template).map_err(told)?;
    print!("{}", book.text().map_err(told)?);
    Ok(())
}

/// Compares the pages with what they should be.
fn check() -> Result<(), String> {
    for (path, page) in made()? {
        let there = fs::read_to_string(path).map_err(|reason| format!("{path}: {reason}. To make it: {COMMAND}"))?;
        if there != page {
            let same = there.lines().zip(page.lines()).take_while(|(old, new)| old == new).count();
            let line = page.lines().nth(same).unwrap_or_default();
            let at = format!("{path}:{}: it is stale, and should have here: {line}", same + 1);
            return Err(format!("{at}\nTo make it anew: {COMMAND}"));
        }
    }
    Ok(())
}
