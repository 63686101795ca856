//! The definitions of a book, a chapter for each file, from what the statements name down to what all rests on.

use crate::Fault;
use crate::page::{listed, quoted, short};
use crate::quote;
use crate::repository::{Id, Repository, Target};
use crate::source::PLACE;
use std::collections::{BTreeMap, BTreeSet};
use std::fmt::Write;

/// How wide a line is made.
const WIDTH: usize = 170;

/// Where each definition of a book stands: what to link to, and how the chapter is called.
pub type Places<'a> = BTreeMap<&'a Id, (String, String)>;

/// The files of definitions in reading order, each before those that it uses, and each with its definitions in the file's order.
pub struct Chapters<'a> {
    repository: &'a Repository,
    /// What the links to its chapters begin with.
    part: &'static str,
    /// The definitions of each file.
    ids: BTreeMap<&'a str, Vec<&'a Id>>,
    pub files: Vec<&'a str>,
}

impl<'a> Chapters<'a> {
    /// The chapters of these definitions, beginning with those that `roots` names.
    pub fn of(
        repository: &'a Repository,
        part: &'static str,
        ids: impl IntoIterator<Item = &'a Id>,
        roots: &[&'a BTreeSet<Target>],
    ) -> Result<Chapters<'a>, Fault> {
        let mut chapters = Chapters { repository, part, ids: BTreeMap::new(), files: Vec::new() };
        for id in ids {
            chapters.ids.entry(&id.file).or_default().push(id);
        }
        chapters.ids.values_mut().for_each(|ids| ids.sort_by_key(|id| repository.line(id)));
        let mut seen = BTreeSet::new();
        for target in roots.iter().rev().flat_map(|root| root.iter().rev()) {
            chapters.visit(target, &mut seen)?;
        }
        chapters.files.reverse();
        Ok(chapters)
    }

    /// Puts the file of a definition behind all that it uses; in the end the order is turned round.
    fn visit(&mut self, target: &Target, seen: &mut BTreeSet<&'a str>) -> Result<(), Fault> {
        let Target::Own(id) = target else { return Ok(()) };
        let here = self.ids.get_key_value(id.file.as_str()).map(|(file, ids)| (*file, ids.clone()));
        let Some((file, ids)) = here.filter(|(file, _)| seen.insert(file)) else { return Ok(()) };
        for id in ids.into_iter().rev() {
            for (_, target) in self.repository.names(id)?.iter().rev() {
                self.visit(target, seen)?;
            }
        }
        self.files.push(file);
        Ok(())
    }

    /// Where the definitions stand.
    pub fn places(&self) -> Places<'a> {
        let place = |id: &'a Id| (id, (self.anchor(&id.file), short(&id.file)));
        self.ids.values().flatten().map(|id| place(id)).collect()
    }

    /// What a link to a chapter names: no line's number, so that it stays when files change.
    fn anchor(&self, file: &str) -> String {
        format!("{}{}", self.part, short(file).replace('/', "-"))
    }

    /// The chapters' text.
    pub fn text(&self, places: &Places) -> Result<String, Fault> {
        let mut text = String::new();
        for file in &self.files {
            let _ = write!(text, "### <a id=\"{}\"></a>{}\n\n", self.anchor(file), short(file));
            let _ = write!(text, "{}\n[{file}](../{file})\n\n", quote::subject(self.repository, file));
            let ids = self.ids[file].iter().copied();
            let _ = write!(text, "```\n{}```\n\n", quote::definitions(self.repository, file, ids));
            text.push_str(&self.elsewhere(file, places)?);
        }
        Ok(text)
    }

    /// Where the names are defined that a chapter takes from others.
    fn elsewhere(&self, file: &str, places: &Places) -> Result<String, Fault> {
        let here: BTreeSet<&Id> = self.ids[file].iter().copied().collect();
        let mut from: Vec<(String, BTreeSet<String>)> = Vec::new();
        for id in &self.ids[file] {
            for (name, target) in self.repository.names(id)? {
                let Target::Own(theirs) = target else { continue };
                if here.contains(&theirs) {
                    continue;
                }
                // a constructor behind the name of its type is shown by that name
                let behind_type = name.split('.').next() == Some(theirs.name.as_str());
                let name = if behind_type { theirs.name.clone() } else { name };
                let link = match places.get(&theirs) {
                    Some((anchor, chapter)) => format!("[{chapter}](#{anchor})"),
                    None => "[the statements that tie them](#ties)".into(),
                };
                match from.iter_mut().find(|(there, _)| *there == link) {
                    Some((_, names)) => {
                        names.insert(name);
                    }
                    None => from.push((link, [name].into())),
                }
            }
        }
        let groups: Vec<String> = from
            .iter()
            .map(|(link, names)| format!("{link} {}", listed(names.iter().map(|name| quoted(name)), ", ")))
            .collect();
        Ok(if groups.is_empty() { String::new() } else { format!("From {}.\n\n", filled(&groups, ";")) })
    }
}

/// All names with their chapters: operators, and then the others in the order of the alphabet.
pub fn index(places: &Places) -> String {
    let mut names: Vec<_> = places.iter().collect();
    let word = |id: &Id| id.name.trim_start_matches('«').to_lowercase();
    names.sort_by_key(|(id, _)| (!id.name.contains(PLACE), word(id), &id.name, &id.file));
    let entry =
        |(id, (anchor, chapter)): (&&Id, &(String, String))| format!("{} [{chapter}](#{anchor})", quoted(&id.name));
    filled(&names.into_iter().map(entry).collect::<Vec<_>>(), ",") + ".\n"
}

/// Words one behind the other with a mark between, in lines that are not wider than the page.
fn filled(words: &[String], mark: &str) -> String {
    let mut text = String::new();
    let mut room = WIDTH;
    for (place, word) in words.iter().enumerate() {
        let size = word.chars().count() + mark.len() + 1;
        if place > 0 {
            text.push_str(mark);
            text.push(if size > room { '\n' } else { ' ' });
        }
        room = if size > room { WIDTH } else { room }.saturating_sub(size);
        text.push_str(word);
    }
    text
}
