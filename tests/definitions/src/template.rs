//! A book's template: text, and lines in braces for what the program puts in their place.

use crate::Fault;

/// A part of a template.
#[derive(Debug, PartialEq, Eq)]
pub enum Part<'a> {
    /// A line as it is.
    Line(&'a str),
    /// Functions of the code with their contracts.
    Operations(Vec<&'a str>),
    /// Statements.
    Statements(Vec<&'a str>),
    /// The definitions that the contracts need beside those of the statements.
    Bridge,
    /// The statements that tie computing definitions.
    Ties,
    /// How much there is to read.
    Count,
    /// All definitions.
    Definitions,
    /// All names.
    Index,
    /// Names that come with the prover.
    Kit,
}

/// The parts of a template, each with the number of its line.
pub fn parts<'a>(file: &str, text: &'a str) -> Result<Vec<(usize, Part<'a>)>, Fault> {
    let part = |(number, line): (usize, &'a str)| {
        let Some(words) = line.strip_prefix('{').and_then(|line| line.strip_suffix('}')) else {
            return Ok((number, Part::Line(line)));
        };
        let words: Vec<&str> = words.split_whitespace().collect();
        let part = match words.as_slice() {
            ["operations", names @ ..] if !names.is_empty() => Part::Operations(names.to_vec()),
            ["statements", names @ ..] if !names.is_empty() => Part::Statements(names.to_vec()),
            ["bridge"] => Part::Bridge,
            ["ties"] => Part::Ties,
            ["count"] => Part::Count,
            ["definitions"] => Part::Definitions,
            ["index"] => Part::Index,
            ["kit"] => Part::Kit,
            _ => return Err(Fault::new(file, number, format!("nothing is known of {line}"))),
        };
        Ok((number, part))
    };
    (1..).zip(text.lines()).map(part).collect()
}

/// The examples of a template: what stands in backquotes in the last cell of a table whose last column is called `as in`.
pub fn examples(text: &str) -> Vec<(usize, String)> {
    let mut found = Vec::new();
    let mut within = false;
    for (number, line) in (1..).zip(text.lines()) {
        within = line.starts_with('|') && (within || line.ends_with("| as in |"));
        let last = line.trim_end_matches(" |").rsplit(" | ").next().unwrap_or_default();
        if let Some(example) = last.strip_prefix('`').and_then(|cell| cell.strip_suffix('`')).filter(|_| within) {
            found.push((number, example.replace("\\|", "|")));
        }
    }
    found
}
