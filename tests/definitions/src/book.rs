//! A book: statements, and word for word all that one has to believe behind them.

use crate::Fault;
use crate::chapters::{self, Chapters, Places};
use crate::operations;
use crate::page::{listed, quoted};
use crate::quote;
use crate::reach::{self, Promise};
use crate::repository::{Id, Repository, Target};
use crate::template::{self, Part};
use crate::twins::Twin;
use std::collections::{BTreeMap, BTreeSet};
use std::fmt::Write;

/// The names that come with the prover, each with what it is: a name, blanks, and the rest of the line.
const KIT: &str = include_str!("../kit.txt");

/// What a book is made from.
#[derive(Clone, Copy)]
pub struct Library<'a> {
    pub repository: &'a Repository,
    /// The files with the promises.
    pub files: &'a [&'a str],
    pub promises: &'a [Promise],
    pub twins: &'a [Twin],
}

/// A template with all that it asks for.
pub struct Book<'a> {
    library: Library<'a>,
    parts: Vec<(usize, Part<'a>)>,
    contracts: Vec<Promise>,
    statements: Vec<&'a Promise>,
    /// What says of the computing definitions behind these what they come to, beside the statements.
    ties: Vec<&'a Promise>,
    /// The definitions behind the statements and ties.
    behind: BTreeSet<Id>,
    /// Those that the contracts need besides.
    bridge: BTreeSet<Id>,
}

impl<'a> Book<'a> {
    /// Finds all that a template asks for; `file` is where it stands.
    pub fn of(library: Library<'a>, file: &str, text: &'a str) -> Result<Book<'a>, Fault> {
        let parts = template::parts(file, text)?;
        let twins = library.twins.iter().map(reach::id).collect();
        let mut contracts = Vec::new();
        let mut statements = Vec::new();
        for (number, part) in &parts {
            let at_line = |fault: Fault| Fault::new(file, *number, fault.to_string());
            match part {
                Part::Operations(names) => {
                    for name in names {
                        let contract = operations::contract(library.repository, library.files, name, &twins);
                        contracts.push(contract.map_err(at_line)?);
                    }
                }
                Part::Statements(names) => {
                    for name in names {
                        statements.push(library.statement(name).map_err(|what| Fault::new(file, *number, what))?);
                    }
                }
                _ => {}
            }
        }
        let (behind, bridge) = Default::default();
        let mut book = Book { library, parts, contracts, statements, ties: Vec::new(), behind, bridge };
        book.tie();
        book.behind = book.stated().flat_map(|promise| promise.behind.iter().cloned()).collect();
        let code = book.contracts.iter().flat_map(|contract| &contract.behind);
        book.bridge = code.filter(|id| !book.behind.contains(id)).cloned().collect();
        Ok(book)
    }

    /// Adds the statements that say what the twins come to, and those that say it of the twins behind these.
    fn tie(&mut self) {
        loop {
            let there: BTreeSet<&str> = self.all().map(|promise| promise.name.as_str()).collect();
            let twins: BTreeSet<&Id> = self.all().flat_map(|promise| &promise.twins).collect();
            let tied = self.library.twins.iter().filter(|twin| twins.contains(&reach::id(twin)));
            let wanted: BTreeSet<&str> = tied.flat_map(|twin| twin.promises.iter().copied()).collect();
            let more: Vec<&Promise> = self
                .library
                .promises
                .iter()
                .filter(|promise| wanted.contains(promise.name.as_str()) && !there.contains(promise.name.as_str()))
                .collect();
            if more.is_empty() {
                break;
            }
            self.ties.extend(more);
        }
    }

    /// The statements, and those that tie.
    fn stated(&self) -> impl Iterator<Item = &Promise> {
        self.statements.iter().copied().chain(self.ties.iter().copied())
    }

    /// Everything that the book says is proved.
    fn all(&self) -> impl Iterator<Item = &Promise> {
        self.contracts.iter().chain(self.stated())
    }

    /// How many lines the definitions behind the statements have.
    pub fn lines(&self) -> usize {
        self.lines_of(&self.behind)
    }

    fn lines_of(&self, ids: &BTreeSet<Id>) -> usize {
        ids.iter().map(|id| self.library.repository.lines(id)).sum()
    }

    /// The book's text.
    pub fn text(&self) -> Result<String, Fault> {
        let repository = self.library.repository;
        let stated: Vec<&BTreeSet<Target>> = self.stated().map(|promise| &promise.names).collect();
        let code: Vec<&BTreeSet<Target>> = self.contracts.iter().map(|contract| &contract.names).collect();
        let definitions = Chapters::of(repository, "", &self.behind, &stated)?;
        let bridge = Chapters::of(repository, "code-", &self.bridge, &code)?;
        let mut places = definitions.places();
        places.extend(bridge.places());
        let mut text = String::new();
        for (_, part) in &self.parts {
            match part {
                Part::Line(line) => {
                    let _ = writeln!(text, "{line}");
                }
                Part::Operations(names) => self.write_contracts(&mut text, names),
                Part::Statements(names) => self.write_statements(&mut text, names),
                Part::Ties if self.ties.is_empty() => text.push_str("There are none.\n"),
                Part::Ties => {
                    let names: Vec<&str> = self.ties.iter().map(|promise| promise.name.as_str()).collect();
                    self.write_statements(&mut text, &names);
                }
                Part::Count => self.write_count(&mut text, &places),
                Part::Definitions => write_chapters(&mut text, &definitions, &places)?,
                Part::Bridge => write_chapters(&mut text, &bridge, &places)?,
                Part::Index => text.push_str(&chapters::index(&places)),
                Part::Kit => self.write_kit(&mut text),
            }
        }
        Ok(text)
    }

    /// An example of the template that stands nowhere in the book is a fault: it was renamed.
    pub fn check_examples(&self, file: &str, template: &str, book: &str) -> Result<(), Fault> {
        for (number, example) in template::examples(template) {
            let elsewhere = book.lines().any(|line| line.contains(&example) && !line.starts_with('|'));
            if !elsewhere {
                return Err(Fault::new(file, number, format!("no definition of the book has the example {example}")));
            }
        }
        Ok(())
    }

    fn write_contracts(&self, text: &mut String, names: &[&str]) {
        let wanted = self.contracts.iter().filter(|contract| names.contains(&contract.name.as_str()));
        let quotes = wanted.clone().map(|contract| quote::function(self.library.repository, contract));
        let files: BTreeSet<&str> = wanted.map(|contract| contract.file.as_str()).collect();
        write_quote(text, &listed(quotes, "\n"), &files);
    }

    fn write_statements(&self, text: &mut String, names: &[&str]) {
        let wanted = |file: &str| {
            let here = self.library.promises.iter().filter(move |promise| promise.file == file);
            here.map(|promise| promise.name.as_str()).filter(|name| names.contains(name)).collect::<Vec<_>>()
        };
        let by_file = self.library.files.iter().map(|file| (*file, wanted(file)));
        for (place, (file, names)) in by_file.filter(|(_, names)| !names.is_empty()).enumerate() {
            if place > 0 {
                text.push('\n');
            }
            write_quote(text, &quote::statements(self.library.repository, file, names), &[file].into());
        }
    }

    fn write_count(&self, text: &mut String, places: &Places) {
        let told = |ids: &BTreeSet<Id>| format!("{} definitions, {} lines", ids.len(), self.lines_of(ids));
        let files: BTreeSet<&str> = places.keys().map(|id| id.file.as_str()).collect();
        let _ = write!(text, "**{}** behind the statements", told(&self.behind));
        if !self.bridge.is_empty() {
            let _ = write!(text, ", and **{}** from the code's answers to theirs", told(&self.bridge));
        }
        let _ = writeln!(text, "; from {} files, and counted without comments.", files.len());
    }

    /// The prover's names, those that belong to one module together.
    fn write_kit(&self, text: &mut String) {
        let told: BTreeMap<&str, &str> =
            KIT.lines().filter_map(|line| line.split_once(' ')).map(|(name, what)| (name, what.trim())).collect();
        let mut names = BTreeSet::new();
        for target in self.all().flat_map(|promise| &promise.kit) {
            if let Target::Kit { module, name } = target {
                names.insert((module.as_str(), name.as_str()));
            }
        }
        text.push_str("| name | what it is | module |\n|---|---|---|\n");
        for (module, name) in names {
            let what = told.get(name).copied().unwrap_or("as its module says");
            let _ = writeln!(text, "| {} | {what} | `{module}` |", quoted(name));
        }
    }
}

impl<'a> Library<'a> {
    fn statement(&self, name: &str) -> Result<&'a Promise, String> {
        let found = self.promises.iter().find(|promise| promise.name == name);
        found.ok_or_else(|| format!("there is no statement {name} among the promises"))
    }

    /// The template of the book for a statement, or for all statements under the headings that have these words.
    pub fn template(&self, words: &str) -> Result<String, String> {
        let one = self.promises.iter().filter(|promise| promise.name == words);
        let under = |promise: &&Promise| promise.heading.to_lowercase().contains(&words.to_lowercase());
        let mut names: Vec<&str> = one.map(|promise| promise.name.as_str()).collect();
        if names.is_empty() {
            names = self.promises.iter().filter(under).map(|promise| promise.name.as_str()).collect();
        }
        if names.is_empty() {
            let mut headings: Vec<&str> = self.promises.iter().map(|promise| promise.heading.as_str()).collect();
            headings.dedup();
            let headings = listed(headings.iter().map(|heading| format!("  {heading}")), "\n");
            return Err(format!(
                "no statement is called {words}, and no heading of the promises has it. These are:\n{headings}"
            ));
        }
        Ok(include_str!("../one.md").replace("NAMES", &names.join(" ")).replace("WORDS", words))
    }
}

fn write_chapters(text: &mut String, chapters: &Chapters, places: &Places) -> Result<(), Fault> {
    let _ = writeln!(text, "{}", chapters.text(places)?.trim_end());
    Ok(())
}

/// A quote, with links to its files behind it.
fn write_quote(text: &mut String, quote: &str, files: &BTreeSet<&str>) {
    let links = listed(files.iter().map(|file| format!("[{file}](../{file})")), ", ");
    let _ = writeln!(text, "```\n{quote}```\n{links}");
}
