//! interface: says whether the C header, the Rust declarations and the exported functions of the proved source declare the same
//! functions with the same arguments, and the same structs with the same fields, in the same order. It is run at the root of the
//! repository; its last line is 'N passed, M failed', where N counts the declarations that agree.

use interface::{Declared, differences, header, source};
use std::fs;
use std::process::ExitCode;

/// Where each text stands.
const HEADER: &str = "include/sirophan.h";
const RUST: [&str; 2] = ["rust/src/ffi.rs", "rust/src/lib.rs"];
const SOURCE: [&str; 3] = ["crates/sirophan_c/src/lib.rt", "crates/answers_c/src/lib.rt", "crates/report/src/lib.rt"];

/// What the files declare, by the column of their names.
fn declared(files: &[&str], column: usize) -> Result<Declared, String> {
    let mut all = Declared::new();
    for file in files {
        all.extend(source(&read(file)?, column));
    }
    Ok(all)
}

fn read(file: &str) -> Result<String, String> {
    fs::read_to_string(file).map_err(|reason| format!("{file}: {reason}"))
}

/// The number of declarations, and the lines of those that differ.
fn compared() -> Result<(usize, Vec<String>), String> {
    let source = declared(&SOURCE, 2)?;
    let mut lines = differences(&source, &header(&read(HEADER)?));
    lines.extend(differences(&source, &declared(&RUST, 1)?));
    Ok((source.len(), lines))
}

fn main() -> ExitCode {
    let (count, lines) = compared().unwrap_or_else(|reason| (0, vec![reason]));
    for line in &lines {
        eprintln!("{line}");
    }
    println!("{} passed, {} failed", count.saturating_sub(lines.len()), lines.len());
    if lines.is_empty() && count > 0 { ExitCode::SUCCESS } else { ExitCode::FAILURE }
}
