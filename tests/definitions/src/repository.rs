//! All files of a repository, and what a name in one of them refers to.

use crate::Fault;
use crate::files::Files;
use crate::source::{Definition, Source, is_called};
use crate::words::{self, Word};
use std::collections::{BTreeMap, BTreeSet};

/// Words of the language, and names that every file has without an import. Others that a statement comes to use go here.
const WORDS: [&str; 21] = [
    "abbrev",
    "data",
    "in",
    "let",
    "pub",
    "record",
    "unfoldable",
    "where",
    "=",
    ":",
    "→",
    "×",
    "_",
    "⊥",
    "Type",
    "Dec",
    "yes",
    "no",
    "cc",
    "omega",
    "tt",
];

/// The libraries that come with the prover; what is called `Rattle.NAME..` otherwise is a crate of the repository.
const LIBRARIES: [&str; 4] = ["core", "std", "std_alloc", "std_collections"];

/// The types of the code that need no declaration: those of the language and of its library.
const PRIMITIVE: [&str; 13] =
    ["u8", "u16", "u32", "u64", "usize", "i8", "i16", "i32", "i64", "isize", "bool", "Option", "Result"];

/// What a name refers to.
#[derive(Debug, Clone, PartialEq, Eq, PartialOrd, Ord)]
pub enum Target {
    /// A definition of the repository, or a type of its code.
    Own(Id),
    /// A name of a module that comes with the prover.
    Kit { module: String, name: String },
}

/// A definition of the repository.
#[derive(Debug, Clone, PartialEq, Eq, PartialOrd, Ord)]
pub struct Id {
    pub file: String,
    pub name: String,
}

/// The files, those of specifications read.
pub struct Repository {
    files: Files,
    sources: BTreeMap<String, Source>,
}

impl Repository {
    /// Reads the files of specifications, and those of the promises.
    pub fn read(files: Files, promises: &[&str]) -> Result<Repository, Fault> {
        let mut sources = BTreeMap::new();
        if let Some(missing) = promises.iter().find(|file| !files.contains_key(**file)) {
            return Err(Fault::new(missing, 0, "there is no such file"));
        }
        let wanted = |file: &str| promises.contains(&file) || (file.contains("/specs/") && file.ends_with(".antt"));
        for (file, text) in files.iter().filter(|(file, _)| wanted(file)) {
            sources.insert(file.clone(), Source::read(file, text)?);
        }
        Ok(Repository { files, sources })
    }

    /// A file that was read.
    pub fn source(&self, file: &str) -> Option<&Source> {
        self.sources.get(file)
    }

    /// The files with the texts, by their paths.
    pub fn files(&self) -> &Files {
        &self.files
    }

    /// The definition, unless it is a type of the code.
    pub fn definition(&self, id: &Id) -> Option<&Definition> {
        self.source(&id.file)?.definition(&id.name)
    }

    /// How many lines a definition has.
    pub fn lines(&self, id: &Id) -> usize {
        match self.definition(id) {
            Some(definition) => definition.lines(),
            None => self.type_of(&id.file, &id.name).map_or(0, |lines| lines.len()),
        }
    }

    /// The number of its first line.
    pub fn line(&self, id: &Id) -> usize {
        match self.definition(id) {
            Some(definition) => definition.line,
            None => self.type_of(&id.file, &id.name).map_or(0, |lines| lines[0].0),
        }
    }

    /// What a definition refers to.
    pub fn references(&self, id: &Id) -> Result<BTreeSet<Target>, Fault> {
        Ok(self.names(id)?.into_iter().map(|(_, target)| target).collect())
    }

    /// The names in a definition that refer to something, as they are written and in their order, and what they refer to.
    pub fn names(&self, id: &Id) -> Result<Vec<(String, Target)>, Fault> {
        match self.source(&id.file).zip(self.definition(id)) {
            Some((source, definition)) => {
                let named = self.named(source, definition, &definition.equations)?;
                Ok(named.into_iter().map(|(word, target)| (word.text, target)).collect())
            }
            None => self.type_references(id),
        }
    }

    /// What a statement refers to: its type, without its proof.
    pub fn statement_references(&self, id: &Id) -> Result<BTreeSet<Target>, Fault> {
        match self.source(&id.file).zip(self.definition(id)) {
            Some((source, definition)) => {
                Ok(self.named(source, definition, &[])?.into_iter().map(|(_, target)| target).collect())
            }
            None => Err(Fault::new(&id.file, 0, format!("there is no statement {}", id.name))),
        }
    }

    /// What the names of a definition refer to. A name that is bound and means something in its file too is taken for a
    /// reference: it may be one in another part of the text, and a definition too many is better than one too few.
    fn named(
        &self,
        source: &Source,
        definition: &Definition,
        equations: &[(usize, String)],
    ) -> Result<Vec<(Word, Target)>, Fault> {
        let mut found = Vec::new();
        for (word, bound) in words::names(&definition.signature, equations) {
            let name = word.text.as_str();
            let itself = definition.is_called(name) || definition.constructors.iter().any(|own| is_called(own, name));
            if itself || WORDS.contains(&name) {
                continue;
            }
            match self.resolve(source, word.line, name)? {
                Some(target) => found.push((word, target)),
                None if bound => {}
                None => {
                    let what = format!("{name} in {} is not imported, defined here or bound", definition.name);
                    return Err(Fault::new(&source.file, word.line, what));
                }
            }
        }
        Ok(found)
    }

    /// What a name in a file refers to, if anything.
    fn resolve(&self, source: &Source, line: usize, name: &str) -> Result<Option<Target>, Fault> {
        if let Some(definition) = source.defines(name) {
            return Ok(Some(own(&source.file, &definition.name)));
        }
        if let Some((module, theirs)) = imported(source, name) {
            return self.lookup(&source.file, line, module, theirs).map(Some);
        }
        // A name behind that of a module, or behind that of its type; or that of a field behind a value.
        let Some((before, behind)) = name.split_once('.') else { return Ok(None) };
        if let Some(module) = source.modules.get(before) {
            return self.lookup(&source.file, line, module, behind).map(Some);
        }
        self.resolve(source, line, before)
    }

    /// A name in a module, which is called `Rattle.CRATE.ROOM.FILE`; it stands in a line of the file `from`.
    pub fn lookup(&self, from: &str, line: usize, module: &str, name: &str) -> Result<Target, Fault> {
        let fault = |what: String| Fault::new(from, line, what);
        let parts: Vec<&str> = module.split('.').collect();
        let (folder, room, within) = match parts.as_slice() {
            ["Rattle", folder, room, within @ ..] if !LIBRARIES.contains(folder) => (folder, room, within),
            ["Rattle"] | ["Rattle", _] => return Err(fault(format!("{module} is no module's name"))),
            _ => return Ok(Target::Kit { module: module.into(), name: name.into() }),
        };
        if let ["declared", declared @ ..] = within {
            return self.declared(folder, declared).ok_or_else(|| fault(format!("no code declares {module}")));
        }
        let file = format!("crates/{folder}/{room}/{}.antt", within.join("/"));
        let Some(theirs) = self.source(&file) else {
            return Err(fault(format!("{name} is in {module}, and {file} is no file of specifications")));
        };
        // with the name of a field behind it, as `module.value.field`
        match theirs.defines(name).or_else(|| theirs.defines(words::value(name))) {
            Some(definition) => Ok(own(&file, &definition.name)),
            None => Err(fault(format!("{file} does not define {name}"))),
        }
    }

    /// A type of the code: `declared.TYPE`, or `declared.FILE.TYPE`, either with `.TheVariants`.
    fn declared(&self, folder: &str, declared: &[&str]) -> Option<Target> {
        let declared = declared.strip_suffix(&["TheVariants"]).unwrap_or(declared);
        let (name, path) = declared.split_last()?;
        let path = if path.is_empty() { "lib".into() } else { path.join("/") };
        let file = format!("crates/{folder}/src/{path}.rt");
        self.type_of(&file, name)?;
        Some(own(&file, name))
    }

    /// The lines of a type of the code, comments left out.
    pub fn type_of(&self, file: &str, name: &str) -> Option<Vec<(usize, String)>> {
        let begins = |line: &str| {
            let mut words = line.split_whitespace().skip_while(|word| *word == "pub");
            matches!(words.next(), Some("struct" | "enum")) && words.next() == Some(name)
        };
        let lines = self.files.get(file)?.lines().zip(1..).skip_while(|(line, _)| !begins(line));
        let mut found = Vec::new();
        for (line, number) in lines {
            let code = line.split("//").next().unwrap_or_default().trim_end();
            if !code.trim().is_empty() {
                found.push((number, code.to_string()));
            }
            if code == "}" {
                return Some(found);
            }
        }
        None
    }

    /// The file of a type that a file of code names: its own, or that of the crate of `use CRATE::TYPE;` or `use CRATE::{.., TYPE};`.
    fn type_file(&self, file: &str, name: &str) -> Option<String> {
        if self.type_of(file, name).is_some() {
            return Some(file.to_string());
        }
        let folder = self.files.get(file)?.lines().find_map(|line| {
            let (folder, names) = line.strip_prefix("use ")?.strip_suffix(';')?.split_once("::")?;
            let mut names = names.trim_matches(['{', '}']).split(", ");
            names.any(|theirs| theirs == name).then_some(folder)
        })?;
        let theirs = format!("crates/{folder}/src/lib.rt");
        self.type_of(&theirs, name)?;
        Some(theirs)
    }

    /// The types that a type of the code has inside: what stands in brackets or behind a colon.
    fn type_references(&self, id: &Id) -> Result<Vec<(String, Target)>, Fault> {
        let mut found = Vec::new();
        for (number, line) in self.type_of(&id.file, &id.name).unwrap_or_default().iter().skip(1) {
            let Some(place) = line.find([':', '(']) else { continue };
            // a word with a colon behind it is a field's name
            let within = line[place..].split(|c: char| !c.is_alphanumeric() && !['_', ':'].contains(&c));
            let types = within.filter(|name| name.starts_with(char::is_alphabetic) && !name.ends_with(':'));
            for name in types.filter(|name| !PRIMITIVE.contains(name)) {
                let Some(file) = self.type_file(&id.file, name) else {
                    let what = format!(
                        "the type {name} in {} is not declared in this file, or in a crate's that it uses",
                        id.name
                    );
                    return Err(Fault::new(&id.file, *number, what));
                };
                found.push((name.into(), own(&file, name)));
            }
        }
        Ok(found)
    }
}

fn own(file: &str, name: &str) -> Target {
    Target::Own(Id { file: file.into(), name: name.into() })
}

/// Where an imported name comes from, by itself or by a part of an operator.
fn imported<'a>(source: &'a Source, name: &str) -> Option<(&'a str, &'a str)> {
    let found = source.imports.get(name).or_else(|| {
        let called = source.imports.iter().find(|(ours, _)| is_called(ours, name));
        called.map(|(_, from)| from)
    });
    found.map(|(module, theirs)| (module.as_str(), theirs.as_str()))
}
