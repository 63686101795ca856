//! A file of specifications: what it imports, and what it defines.

use crate::Fault;
use crate::words::{self, without_comment};
use std::collections::BTreeMap;

/// Words that may stand before a definition's name.
const BEFORE_A_NAME: [&str; 5] = ["unfoldable", "abbrev", "pub", "data", "record"];

/// A file.
#[derive(Debug)]
pub struct Source {
    pub file: String,
    /// For each imported name, the module that has it and the name that it has there.
    pub imports: BTreeMap<String, (String, String)>,
    /// For each name of a module, the module.
    pub modules: BTreeMap<String, String>,
    pub definitions: Vec<Definition>,
}

/// A definition. Its lines are numbered, and without comments.
#[derive(Debug)]
pub struct Definition {
    pub name: String,
    pub line: usize,
    /// Its type; of a type of data or a record, all of it.
    pub signature: Vec<(usize, String)>,
    pub equations: Vec<(usize, String)>,
    /// The constructors of a type of data.
    pub constructors: Vec<String>,
    /// The heading above it: the last comment that begins with dashes.
    pub heading: String,
}

impl Definition {
    /// How many lines it has, comments left out.
    pub fn lines(&self) -> usize {
        self.signature.len() + self.equations.len()
    }

    /// Whether a word stands for it: its name, or a part of an operator's.
    pub fn is_called(&self, word: &str) -> bool {
        is_called(&self.name, word)
    }
}

/// Stands in an operator's name for what the operator is applied to.
pub const PLACE: char = '◌';

/// Whether a word stands for a name: itself, or a part of an operator's, as `≡` of `◌≡◌`.
pub fn is_called(name: &str, word: &str) -> bool {
    name == word || (name.contains(PLACE) && name.split(PLACE).any(|part| part == word))
}

impl Source {
    /// Reads a file.
    pub fn read(file: &str, text: &str) -> Result<Source, Fault> {
        let mut source =
            Source { file: file.into(), imports: BTreeMap::new(), modules: BTreeMap::new(), definitions: Vec::new() };
        let mut heading = String::new();
        // How far the lines are indented that begin something: 0, or 2 behind `mutual`.
        let mut margin = 0;
        // The first line of an import that goes on, with what was read of it.
        let mut open: Option<(usize, String)> = None;
        for (line, number) in text.lines().zip(1..) {
            if let Some(words) = line.strip_prefix("-- ---- ") {
                heading = words.into();
            }
            let code = without_comment(line).trim_end();
            if code.trim().is_empty() {
                continue;
            }
            if let Some((first, import)) = open.take() {
                if code != "}" && !code.starts_with(' ') {
                    return Err(source.unread(first, &import));
                }
                let import = format!("{import} {}", code.trim_start());
                match import.ends_with('}') {
                    true => source.import(first, &import)?,
                    false => open = Some((first, import)),
                }
                continue;
            }
            if code.starts_with("use ") && code.ends_with('{') {
                open = Some((number, code.into()));
                continue;
            }
            let indent = code.len() - code.trim_start().len();
            if indent == 0 {
                margin = 0;
            }
            if indent > margin {
                source.goes_on(number, code)?;
            } else if code == "mutual" {
                margin = 2;
            } else {
                source.begins(number, code.trim_start(), &heading)?;
            }
        }
        if let Some((first, import)) = open {
            return Err(source.unread(first, &import));
        }
        source.definitions.iter_mut().for_each(|definition| definition.constructors = constructors(definition));
        Ok(source)
    }

    /// A line at the margin.
    fn begins(&mut self, number: usize, code: &str, heading: &str) -> Result<(), Fault> {
        let mut words = code.split_whitespace();
        let first = words.next().unwrap_or_default();
        let second = words.next().unwrap_or_default();
        match first {
            "use" => self.import(number, code),
            "infix" | "infixl" | "infixr" => Ok(()),
            "pub" if second == "mod" => Ok(()),
            _ if BEFORE_A_NAME.contains(&first) || second == ":" => self.define(number, code, heading),
            _ => self.equation(number, code),
        }
    }

    /// An indented line goes on with what the line before it is part of.
    fn goes_on(&mut self, number: usize, code: &str) -> Result<(), Fault> {
        let last = self.definitions.iter_mut().max_by_key(|definition| last_line(definition));
        let Some(definition) = last else {
            return Err(Fault::new(&self.file, number, "this line is indented, and no definition stands before it"));
        };
        let signed = definition.equations.is_empty();
        let lines = if signed { &mut definition.signature } else { &mut definition.equations };
        lines.push((number, code.into()));
        Ok(())
    }

    fn unread(&self, number: usize, import: &str) -> Fault {
        Fault::new(&self.file, number, format!("this import cannot be read: {import}"))
    }

    /// `use MODULE.{a, b as c}` or `use MODULE as NAME`.
    fn import(&mut self, number: usize, code: &str) -> Result<(), Fault> {
        let unread = || self.unread(number, code);
        let what = code.strip_prefix("use ").ok_or_else(unread)?;
        if let Some((module, names)) = what.split_once(".{") {
            let names = names.strip_suffix('}').ok_or_else(unread)?;
            for name in names.split(',').map(str::trim).filter(|name| !name.is_empty()) {
                let (theirs, ours) = name.split_once(" as ").unwrap_or((name, name));
                self.imports.insert(ours.into(), (module.into(), theirs.into()));
            }
            return Ok(());
        }
        let (module, name) = what.split_once(" as ").ok_or_else(unread)?;
        self.modules.insert(name.into(), module.into());
        Ok(())
    }

    fn define(&mut self, number: usize, code: &str, heading: &str) -> Result<(), Fault> {
        let mut names = code.split_whitespace().skip_while(|word| BEFORE_A_NAME.contains(word));
        let Some(name) = names.next() else {
            return Err(Fault::new(&self.file, number, "a definition without a name"));
        };
        if let Some(other) = self.definition(name) {
            let what = format!("{name} is defined in line {} too", other.line);
            return Err(Fault::new(&self.file, number, what));
        }
        self.definitions.push(Definition {
            name: name.into(),
            line: number,
            signature: vec![(number, code.into())],
            equations: Vec::new(),
            constructors: Vec::new(),
            heading: heading.into(),
        });
        Ok(())
    }

    /// An equation of a definition that stands before it.
    fn equation(&mut self, number: usize, code: &str) -> Result<(), Fault> {
        let left = [(number, code.split(" = ").next().unwrap_or(code).into())];
        let words = words::words(&left);
        let by_first = |definition: &Definition| words.first().is_some_and(|word| definition.is_called(&word.text));
        let by_any = |definition: &Definition| words.iter().any(|word| definition.is_called(&word.text));
        let last = |called: &dyn Fn(&Definition) -> bool| self.definitions.iter().rposition(called);
        match last(&by_first).or_else(|| last(&by_any)).map(|place| &mut self.definitions[place]) {
            Some(definition) => definition.equations.push((number, code.into())),
            None => {
                let what = format!("this line neither begins a definition nor goes on with one: {code}");
                return Err(Fault::new(&self.file, number, what));
            }
        }
        Ok(())
    }

    /// The definition with a name.
    pub fn definition(&self, name: &str) -> Option<&Definition> {
        self.definitions.iter().find(|definition| definition.name == name)
    }

    /// The definition that a word stands for: by its name, or by that of one of its constructors.
    pub fn defines(&self, word: &str) -> Option<&Definition> {
        let by_constructor =
            |definition: &&Definition| definition.constructors.iter().any(|name| is_called(name, word));
        let named = self.definitions.iter().find(|definition| definition.is_called(word));
        named.or_else(|| self.definitions.iter().find(by_constructor))
    }
}

fn last_line(definition: &Definition) -> usize {
    let last = definition.equations.last().or(definition.signature.last());
    last.map_or(0, |(number, _)| *number)
}

/// The constructors of a type of data: what stands before the colon on the lines that are indented least.
fn constructors(definition: &Definition) -> Vec<String> {
    let head = &definition.signature[0].1;
    if !head.split_whitespace().take_while(|word| BEFORE_A_NAME.contains(word)).any(|word| word == "data") {
        return Vec::new();
    }
    let indent = |line: &str| line.len() - line.trim_start().len();
    let body = definition.signature.iter().skip_while(|(_, line)| !line.ends_with("where")).skip(1);
    let least = body.clone().map(|(_, line)| indent(line)).min().unwrap_or(0);
    let heads = body.filter(|(_, line)| indent(line) == least).filter_map(|(_, line)| line.split_once(" :"));
    heads.flat_map(|(names, _)| names.split_whitespace().map(String::from)).collect()
}
