//! `sirophan sign`: the page that is signed and filed.

use crate::advice::{Question, Words};
use crate::arguments::Arguments;
use crate::columns::Columns;
use crate::day;
use crate::input::Input;
use crate::interrupt;
use crate::json;
use crate::page::{Form, Page};
use crate::report::{self, Failure, Output};
use crate::signing::{self, Asking, Found};
use crate::text::{counted, grouped};
use std::fs;
use std::path::Path;

/// Asks, and writes the page. What is refused has a page too, and its status.
pub fn run(arguments: &Arguments) -> Result<(), Failure> {
    if arguments.json && arguments.out.is_none() {
        return Err(Failure::Usage("With --json the page needs a file: --out FILE.".into()));
    }
    let is_input = |path: &String| {
        let real = |path: &str| fs::canonicalize(path).ok();
        arguments.out.as_deref().and_then(real).is_some_and(|out| real(path) == Some(out))
    };
    if let Some(path) = arguments.paths.iter().find(|path| is_input(path)) {
        return Err(Failure::Usage(format!("{path} is what is asked, and the page would take its place.")));
    }
    let date = day::of(arguments.date.as_deref())?;
    let form = if arguments.text_form { Form::Text } else { Form::Html };
    let mut question = Question::read(arguments, Words::Filter)?;
    if arguments.has_text() {
        question.text_name = "the filter".into();
    }
    let path = &arguments.paths[2];
    let cards = Input::open(path)?;
    let refused = signing::Refusing::new(&question, &cards);
    match answer(arguments, &question, cards) {
        Ok((asking, found)) => {
            let page = asking.page(&found, &date);
            let fingerprint = write(arguments, &page, form)?;
            show(arguments, &found, &fingerprint)
        }
        Err(failure) => {
            if let Failure::Refused(messages) | Failure::AtFault(messages) = &failure
                && let Err(unwritten) = write(arguments, &refused.page(messages, &date), form)
            {
                arguments.say(messages);
                return Err(unwritten);
            }
            Err(failure)
        }
    }
}

/// What a question finds, where it is not refused.
fn answer<'a>(arguments: &Arguments, question: &'a Question, cards: Input) -> Result<(Asking<'a>, Found), Failure> {
    question.check_sealed(arguments, Some(&cards))?;
    let columns = arguments.columns.as_deref().map(|names| Columns::read(&question.sheet, names)).transpose()?;
    let asking = Asking::new(question, columns);
    let found = asking.ask(&arguments.paths[2], cards, false)?;
    Ok((asking, found))
}

/// Writes a page to its file, or to standard output, and answers its fingerprint.
fn write(arguments: &Arguments, page: &Page, form: Form) -> Result<String, Failure> {
    let (text, fingerprint) = page.written(form);
    if let Some(path) = &arguments.out {
        put_in_place(path, &text)?;
        return Ok(fingerprint);
    }
    let mut output = Output::new();
    output.raw(text.as_bytes())?;
    output.flush()?;
    Ok(fingerprint)
}

/// Writes a file beside its place, and puts it there when it is whole.
fn put_in_place(path: &str, text: &str) -> Result<(), Failure> {
    let new = format!("{path}.new");
    interrupt::removes(Path::new(&new));
    let written = fs::write(&new, text)
        .and_then(|()| fs::File::open(&new)?.sync_all())
        .and_then(|()| fs::rename(&new, path))
        .map_err(|reason| Failure::file(path, "written", reason));
    if written.is_err() {
        // What is half written goes, if it is there.
        let _ = fs::remove_file(&new);
    }
    interrupt::keeps_all();
    written
}

/// Says what was found, where the page is in a file.
fn show(arguments: &Arguments, found: &Found, fingerprint: &str) -> Result<(), Failure> {
    let (matching, cards) = (found.records.len() as u64, found.held.cards);
    if let Some(path) = &arguments.out {
        let mut output = Output::new();
        if arguments.json {
            output.line(json::object(&[
                ("page", json::string(path)),
                ("fingerprint", json::string(fingerprint)),
                ("matching", matching.to_string()),
                ("cards", cards.to_string()),
                report::warnings(&found.warnings),
            ]))?;
        } else {
            output.line(format_args!("{} of {}, in {path}", grouped(matching), counted(cards, "card")))?;
        }
        output.flush()?;
    }
    arguments.warn(&found.warnings);
    Ok(())
}
