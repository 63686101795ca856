//! The plain spellings of `tests/spellings.txt`, which were found by hand. The head of that file says how it is written.

use crate::cases::bytes_of;
use crate::operations::Refusal;

/// A filter, and its plain spelling or its refusal.
#[derive(Debug)]
pub struct Spelling {
    /// The filter as the file writes it.
    pub written: String,
    pub filter: Vec<u8>,
    pub answer: Result<Vec<u8>, Refusal>,
}

/// The spellings of the file, or the line that cannot be read.
pub fn read() -> Result<Vec<Spelling>, String> {
    let lines = include_str!("../../spellings.txt").lines().zip(1..);
    let is_told = |(line, _): &(&str, u32)| !line.trim().is_empty() && !line.starts_with('#');
    lines.filter(is_told).map(|(line, number)| spelling(line).ok_or(format!("line {number}: {line}"))).collect()
}

fn spelling(line: &str) -> Option<Spelling> {
    let parts: Vec<&str> = line.split('`').collect();
    let (written, answer) = match parts[..] {
        ["plain ", filter, " ", plain, ""] => (filter, Ok(bytes_of(plain)?)),
        ["plain ", filter, refusal] => {
            let (number, place) = refusal.trim().split_once(" at ")?;
            (filter, Err(Refusal { number: number.parse().ok()?, place: place.parse().ok()? }))
        }
        _ => return None,
    };
    Some(Spelling { written: written.to_string(), filter: bytes_of(written)?, answer })
}
