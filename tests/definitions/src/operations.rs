//! The functions of the code that promise something by a contract.

use crate::Fault;
use crate::reach::Promise;
use crate::repository::{Id, Repository, Target};
use crate::source::Source;
use crate::words;
use std::collections::BTreeSet;

/// A function's contract as a promise: what stands behind it is what stands behind the names in its `ensures`. The function is looked
/// for in the code of the crates that have promises.
pub fn contract(
    repository: &Repository,
    promises: &[&str],
    name: &str,
    twins: &BTreeSet<Id>,
) -> Result<Promise, Fault> {
    let rooms: Vec<String> =
        promises.iter().filter_map(|file| Some(format!("{}/src/", file.split_once("/proofs/")?.0))).collect();
    let here = |file: &str| rooms.iter().any(|room| file.starts_with(room));
    let files = repository.files().iter().filter(|(file, _)| here(file));
    let found: Vec<_> = files.filter_map(|(file, text)| Some((file, text, lines(text, name)?))).collect();
    let [(file, text, lines)] = found.as_slice() else {
        let what =
            format!("{} public functions {name} are in the crates with promises, and there has to be one", found.len());
        return Err(Fault::new(promises.first().unwrap_or(&""), 0, what));
    };
    let names = names(repository, file, text, lines)?;
    if names.is_empty() {
        return Err(Fault::new(file, lines[0].0, format!("{name} ensures nothing that a definition says")));
    }
    Promise::of(repository, Id { file: (*file).clone(), name: name.into() }, "", names, twins)
}

/// The lines of a public function up to its body.
pub fn lines(text: &str, name: &str) -> Option<Vec<(usize, String)>> {
    let begins = format!("pub fn {name}(");
    let head = text.lines().zip(1..).skip_while(|(line, _)| !line.starts_with(&begins));
    let lines: Vec<_> = head.take_while(|(line, _)| *line != "{").map(|(line, number)| (number, line.into())).collect();
    if lines.is_empty() { None } else { Some(lines) }
}

/// What the names behind `ensures` refer to; variables and the language's own words refer to nothing.
fn names(
    repository: &Repository,
    file: &str,
    text: &str,
    lines: &[(usize, String)],
) -> Result<BTreeSet<Target>, Fault> {
    let uses = text.lines().filter_map(|line| line.strip_prefix("ghost ")?.strip_suffix(';'));
    let source = Source::read(file, &uses.collect::<Vec<_>>().join("\n"))?;
    let ensures = lines.iter().skip_while(|(_, line)| !line.trim_start().starts_with("ensures "));
    let mut found = BTreeSet::new();
    for word in words::words(ensures) {
        if let Some((module, theirs)) = source.imports.get(&word.text) {
            found.insert(repository.lookup(file, word.line, module, theirs)?);
        }
    }
    Ok(found)
}
