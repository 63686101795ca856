//! The command line.

use crate::input;
use crate::report::{Failure, Message};
use crate::text::grouped;

/// What was given behind a command's name.
#[derive(Debug, Default, PartialEq, Eq)]
#[expect(clippy::struct_excessive_bools, reason = "each is a switch of the command line")]
pub struct Arguments {
    /// The paths; where a text was given by -e, that stands in the place of its file.
    pub paths: Vec<String>,
    pub json: bool,
    /// Whether the answer is to be FHIR's.
    pub fhir: bool,
    pub stream: bool,
    pub help: bool,
    /// Whether the text that asks is a search string.
    pub search: bool,
    /// Whether all cards of the list are explained.
    pub all: bool,
    /// Whether a page is made in plain text, a list or cards as a table for spreadsheets, cards as a description.
    pub text_form: bool,
    pub csv: bool,
    pub description: bool,
    /// The record number whose cards are shown.
    pub record: Option<u32>,
    /// The file that a page goes to, its date, and the columns of a list.
    pub out: Option<String>,
    pub date: Option<String>,
    pub columns: Option<String>,
    /// The text that asks, in the place of its file.
    text: Option<String>,
}

/// The option that gives the text that asks, and what messages call that text.
const TEXT: &str = "-e";

impl Arguments {
    /// Reads the arguments of a command that has these options; `--help` and `--json` every command has.
    pub fn read(given: impl IntoIterator<Item = String>, options: &[&str]) -> Result<Arguments, String> {
        let mut arguments = Arguments::default();
        let mut given = given.into_iter();
        let mut options_ended = false;
        while let Some(argument) = given.next() {
            if options_ended || argument == "-" || !argument.starts_with('-') {
                arguments.paths.push(argument);
                continue;
            }
            let (option, attached) = split(&argument);
            if !["--", "--help", "-h", "--json"].contains(&option) && !options.contains(&option) {
                return Err(format!("{argument} is no option here."));
            }
            match option {
                "--" => options_ended = true,
                "--record" => arguments.record = Some(read_record(attached.or_else(|| given.next()))?),
                TEXT if arguments.text.is_some() => {
                    return Err("-e stands once: a text is one filter or string.".into());
                }
                TEXT => {
                    let text = attached.or_else(|| given.next());
                    arguments.text = Some(text.ok_or("Behind -e stands the text that asks.")?);
                }
                "--out" | "--date" | "--columns" => {
                    let given = attached.or_else(|| given.next());
                    *arguments.value(option) =
                        Some(given.ok_or_else(|| format!("Behind {option} {}.", stands(option)))?);
                }
                _ => *arguments.switch(option) = true,
            }
        }
        if arguments.paths.iter().filter(|path| *path == "-").count() > 1 {
            return Err("Standard input (-) can be read only once.".into());
        }
        Ok(arguments)
    }

    /// The switch that an option turns on.
    fn switch(&mut self, option: &str) -> &mut bool {
        match option {
            "--json" => &mut self.json,
            "--fhir" => &mut self.fhir,
            "--stream" => &mut self.stream,
            "--search" => &mut self.search,
            "--all" => &mut self.all,
            "--text" => &mut self.text_form,
            "--csv" => &mut self.csv,
            "--description" => &mut self.description,
            _ => &mut self.help,
        }
    }

    /// What an option that has a value gives.
    fn value(&mut self, option: &str) -> &mut Option<String> {
        match option {
            "--out" => &mut self.out,
            "--date" => &mut self.date,
            _ => &mut self.columns,
        }
    }

    /// Whether the text that asks was given by -e.
    pub fn has_text(&self) -> bool {
        self.text.is_some()
    }

    /// Puts a text that was given by -e in the place of its file, which the command has there.
    pub fn place_text(&mut self, place: Option<usize>) {
        if let Some(place) = place.filter(|place| self.text.is_some() && *place <= self.paths.len()) {
            self.paths.insert(place, TEXT.into());
        }
    }

    /// The filter or the search string, from its file or as it was given, and what messages call it.
    pub fn text(&self, place: usize) -> Result<(String, Vec<u8>), Failure> {
        let path = &self.paths[place];
        match &self.text {
            Some(text) => Ok((TEXT.into(), text.clone().into_bytes())),
            None => Ok((input::shown(path), input::read_text(path)?)),
        }
    }

    /// Says messages on standard error, in the form that was asked for.
    pub fn say<'a>(&self, messages: impl IntoIterator<Item = &'a Message>) {
        messages.into_iter().for_each(|message| message.say(self.json));
    }

    /// Says warnings on standard error, unless they stand in the answer, as in JSON they do.
    pub fn warn(&self, messages: &[Message]) {
        if !self.json {
            self.say(messages);
        }
    }
}

/// An option, and what is attached to it: `--record=7`, `-etext`.
fn split(argument: &str) -> (&str, Option<String>) {
    match argument.split_once('=') {
        Some((option @ ("--record" | "--out" | "--date" | "--columns"), attached)) => (option, Some(attached.into())),
        _ if argument.len() > TEXT.len() && argument.starts_with(TEXT) => (TEXT, Some(argument[TEXT.len()..].into())),
        _ => (argument, None),
    }
}

/// What stands behind an option that has a value.
fn stands(option: &str) -> &'static str {
    match option {
        "--out" => "stands the file that the page goes to",
        "--date" => "stands a day, such as 2026-11-17",
        _ => "stand names of fields, with commas between",
    }
}

/// The record number behind `--record`.
fn read_record(given: Option<String>) -> Result<u32, String> {
    let given = given.ok_or("Behind --record stands a record number.")?;
    given
        .parse()
        .map_err(|_| format!("{given} is no record number: it is a number up to {}.", grouped(u32::MAX.into())))
}
