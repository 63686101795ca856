//! Parts of files, word for word, with the comments over them.

use crate::operations;
use crate::reach::Promise;
use crate::repository::{Id, Repository};
use crate::source::Definition;
use std::collections::BTreeSet;

/// What a comment at the head of a file ends with, which says nothing about the definitions.
const ASSUMES: &str = "Assumes nothing.";

/// Definitions of one file, in its order, with their headings.
pub fn definitions<'a>(repository: &Repository, file: &str, ids: impl IntoIterator<Item = &'a Id>) -> String {
    let page = Page::of(repository, file);
    let mut shown = BTreeSet::new();
    for id in ids {
        let lines = match repository.definition(id) {
            Some(definition) => numbers(definition.signature.iter().chain(&definition.equations)),
            None => numbers(repository.type_of(file, &id.name).unwrap_or_default().iter()),
        };
        shown.extend(page.around(&lines));
        if let Some(definition) = repository.definition(id) {
            shown.extend(page.over(definition));
        }
    }
    page.show(&shown)
}

/// Statements of one file, without their proofs.
pub fn statements<'a>(repository: &Repository, file: &str, names: impl IntoIterator<Item = &'a str>) -> String {
    let page = Page::of(repository, file);
    let mut shown = BTreeSet::new();
    let source = repository.source(file);
    for definition in names.into_iter().filter_map(|name| source?.definition(name)) {
        shown.extend(page.around(&numbers(definition.signature.iter())));
    }
    page.show(&shown)
}

/// A function of the code with its contract, without its body.
pub fn function(repository: &Repository, contract: &Promise) -> String {
    let page = Page::of(repository, &contract.file);
    let lines = operations::lines(&repository.files()[&contract.file], &contract.name).unwrap_or_default();
    page.show(&page.around(&numbers(lines.iter())))
}

/// What the comment at the head of a file says, in one line.
pub fn subject(repository: &Repository, file: &str) -> String {
    let page = Page::of(repository, file);
    let comment = page.lines.iter().map_while(|line| line.strip_prefix(page.mark));
    let words = comment.map(str::trim).collect::<Vec<_>>().join(" ");
    words.trim_end_matches(ASSUMES).trim_end().into()
}

/// The lines of a file.
struct Page<'a> {
    lines: Vec<&'a str>,
    /// What a comment begins with.
    mark: &'static str,
}

impl<'a> Page<'a> {
    fn of(repository: &'a Repository, file: &str) -> Page<'a> {
        let text = repository.files().get(file).map_or("", String::as_str);
        Page { lines: text.lines().collect(), mark: if file.ends_with(".rt") { "//" } else { "--" } }
    }

    fn is_comment(&self, number: usize) -> bool {
        self.line(number).trim_start().starts_with(self.mark)
    }

    /// A line such as `#[derive(Clone, Copy)]`, which stands between a type of the code and the comment over it.
    fn is_attribute(&self, number: usize) -> bool {
        self.line(number).starts_with("#[")
    }

    /// The line with a number, which counts from 1.
    fn line(&self, number: usize) -> &'a str {
        number.checked_sub(1).and_then(|place| self.lines.get(place)).unwrap_or(&"")
    }

    /// These lines, with the comments between them, and the comment and attributes over the first.
    fn around(&self, numbers: &BTreeSet<usize>) -> BTreeSet<usize> {
        let mut shown = numbers.clone();
        let first = numbers.first().copied().unwrap_or(0);
        let is_over =
            |number: &usize| self.is_attribute(*number) || (self.is_comment(*number) && !self.is_heading(*number));
        shown.extend((1..first).rev().take_while(is_over));
        for (before, after) in numbers.iter().zip(numbers.iter().skip(1)) {
            if (before + 1..*after).all(|number| self.is_comment(number)) {
                shown.extend(before + 1..*after);
            }
        }
        shown
    }

    fn is_heading(&self, number: usize) -> bool {
        self.line(number).starts_with("-- ---- ")
    }

    /// The heading over a definition, `mutual` where it is indented, and what ranks it where it is an operator.
    fn over(&self, definition: &Definition) -> Vec<usize> {
        let above = || (1..definition.line).rev();
        let heading = above().find(|number| self.is_heading(*number));
        let indented = self.line(definition.line).starts_with(' ');
        let mutual = above().find(|number| indented && self.line(*number) == "mutual");
        let ranks = |number: &usize| {
            self.line(*number).starts_with("infix") && self.line(*number).ends_with(&format!(" {}", definition.name))
        };
        heading.into_iter().chain(mutual).chain((1..=self.lines.len()).filter(ranks)).collect()
    }

    /// Lines by their numbers, with a blank line where others are left out.
    fn show(&self, shown: &BTreeSet<usize>) -> String {
        let mut text = String::new();
        let mut last = None;
        for number in shown {
            if last.is_some_and(|last| last + 1 < *number) {
                text.push('\n');
            }
            text.push_str(self.line(*number));
            text.push('\n');
            last = Some(*number);
        }
        text
    }
}

fn numbers<'a>(lines: impl Iterator<Item = &'a (usize, String)>) -> BTreeSet<usize> {
    lines.map(|(number, _)| *number).collect()
}
