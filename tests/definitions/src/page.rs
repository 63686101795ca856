//! The page docs/DEFINITIONS.md.

use crate::reach::Promise;
use crate::repository::{Id, Repository, Target};
use crate::twins::Twin;
use std::collections::{BTreeMap, BTreeSet};
use std::fmt::Write;

/// What makes the page anew.
pub const COMMAND: &str = "cargo run --offline --manifest-path tests/Cargo.toml -p definitions";

/// The page.
pub fn page(repository: &Repository, statements: &[&str], promises: &[Promise], twins: &[Twin]) -> String {
    let all: BTreeSet<&Id> = promises.iter().flat_map(|promise| &promise.behind).collect();
    let files = by_file(all.iter().copied()).len();
    let lines = |ids: &BTreeSet<&Id>| ids.iter().map(|id| repository.lines(id)).sum::<usize>();
    let mut page = format!(
        "# Definitions to believe\n\n\
         This page is made by a program (`tests/definitions`) from what the statements in {} refer to,\n\
         and the gate fails where it is stale. To make it anew:\n\n    {COMMAND}\n\n\
         The proofs need not be read. What has to be read and believed, to know what the {} promises say, are their own lines and the\n\
         definitions that they name, with all that these name in turn:\n\n\
         **{} definitions, {} lines in {} files.**\n\n\
         Lines are counted without comments. A definition of a file in `src` is a type of the code that a statement speaks of.\n",
        listed(statements.iter().map(|file| quoted(file)), ", "),
        promises.len(),
        all.len(),
        lines(&all),
        files
    );
    write_twins(&mut page, twins);
    page.push_str(
        "\n## The statements\n\n\
         Under each demand, in the order of the files: what a statement's own text names, by crate and file, and how many definitions and\n\
         lines there are behind it. A computing twin is in italics, and does not count. With a statement's name behind it, as in\n\
         `-p definitions -- check_refused`, the program prints all that is behind that one, by file.\n",
    );
    let mut heading = None;
    for promise in promises {
        if heading != Some(&promise.heading) {
            heading = Some(&promise.heading);
            let _ = write!(page, "\n### {}\n\n", capital(&promise.heading));
            page.push_str("| statement | names | definitions | lines |\n|---|---|---|---|\n");
        }
        let behind: BTreeSet<&Id> = promise.behind.iter().collect();
        let names = named(promise);
        let _ = writeln!(page, "| `{}` | {names} | {} | {} |", promise.name, behind.len(), lines(&behind));
    }
    page.push_str("\n## All definitions, by file\n\n");
    page.push_str(&files_behind(repository, all));
    write_kit(&mut page, promises);
    page
}

/// Definitions as a table of their files.
pub fn files_behind<'a>(repository: &Repository, ids: impl IntoIterator<Item = &'a Id>) -> String {
    let mut table = String::from("| file | lines | definitions |\n|---|---|---|\n");
    for (file, ids) in by_file(ids.into_iter()) {
        let lines: usize = ids.iter().map(|id| repository.lines(id)).sum();
        let names = listed(ids.iter().map(|id| quoted(&id.name)), ", ");
        let _ = writeln!(table, "| `{file}` | {lines} | {names} |");
    }
    table
}

fn write_twins(page: &mut String, twins: &[Twin]) {
    page.push_str(
        "\n## Computing twins\n\n\
         These definitions compute. For each, a promise says what it comes to by definitions that state the rule in words; so neither they nor\n\
         what they alone rest on has to be believed, and they are left out of the numbers.\n\n\
         | definition | file | tied by |\n|---|---|---|\n",
    );
    for twin in twins {
        let promises = listed(twin.promises.iter().map(|name| quoted(name)), ", ");
        let _ = writeln!(page, "| {} | `{}` | {promises} |", quoted(twin.name), twin.file);
    }
}

/// What a statement's own text names, by file.
fn named(promise: &Promise) -> String {
    let files = by_file(promise.names.iter().filter_map(|target| match target {
        Target::Own(id) => Some(id),
        Target::Kit { .. } => None,
    }));
    let groups = files.iter().map(|(file, ids)| {
        let name = |id: &&Id| match promise.twins.contains(*id) {
            true => format!("*{}*", quoted(&id.name)),
            false => quoted(&id.name),
        };
        format!("{} {}", short(file), listed(ids.iter().map(name), ", "))
    });
    listed(groups, "; ")
}

/// Names of the prover's own modules.
fn write_kit(page: &mut String, promises: &[Promise]) {
    let mut modules: BTreeMap<&str, BTreeSet<&str>> = BTreeMap::new();
    for target in promises.iter().flat_map(|promise| &promise.kit) {
        if let Target::Kit { module, name } = target {
            modules.entry(module).or_default().insert(name);
        }
    }
    page.push_str(
        "\n## From the prover's own modules\n\n\
         Numbers, lists and the like come with the prover. These are the names that the definitions above use of them.\n\n\
         | module | names |\n|---|---|\n",
    );
    for (module, names) in modules {
        let _ = writeln!(page, "| `{module}` | {} |", listed(names.into_iter().map(quoted), ", "));
    }
}

fn by_file<'a>(ids: impl Iterator<Item = &'a Id>) -> BTreeMap<&'a str, BTreeSet<&'a Id>> {
    let mut files: BTreeMap<&str, BTreeSet<&Id>> = BTreeMap::new();
    ids.for_each(|id| {
        files.entry(&id.file).or_default().insert(id);
    });
    files
}

pub fn listed(words: impl Iterator<Item = String>, between: &str) -> String {
    words.collect::<Vec<_>>().join(between)
}

/// A name as it stands in a table: a bar would end the cell.
pub fn quoted(name: &str) -> String {
    format!("`{}`", name.replace('|', "\\|"))
}

/// `crates/refusal/specs/Order.antt` as `refusal/Order`.
pub fn short(file: &str) -> String {
    let parts: Vec<&str> = file.split('/').collect();
    match parts.as_slice() {
        [_, folder, _, name] => format!("{folder}/{}", name.split('.').next().unwrap_or(name)),
        _ => file.into(),
    }
}

fn capital(words: &str) -> String {
    let mut letters = words.chars();
    letters.next().map_or(String::new(), |first| first.to_uppercase().chain(letters).collect())
}
