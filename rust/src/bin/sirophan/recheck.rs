//! `sirophan recheck`: whether a page that `sirophan sign` has made still holds.

use crate::advice::{self, Question, Words};
use crate::arguments::Arguments;
use crate::columns::Columns;
use crate::input::{self, Input, shown};
use crate::json;
use crate::page::{self, Form, Mark};
use crate::report::{self, Failure, Message, Output};
use crate::seal;
use crate::sha256::Hash;
use crate::sheet::Sheet;
use crate::signing::{Asking, Found};
use crate::text::{counted, grouped};
use crate::version;
use std::collections::HashMap;

/// What a page says.
struct Signed {
    form: Form,
    text: String,
    sent: Vec<u8>,
    columns: Option<String>,
    records: Vec<u32>,
    cards: u64,
    sheet_hash: String,
    cards_hash: String,
    version: String,
    date: String,
    fingerprint: String,
}

impl Signed {
    /// Reads a page.
    fn read(name: &str, bytes: Vec<u8>) -> Result<Signed, Failure> {
        let none = || {
            let help = "It is read as it was written: not printed, and not saved anew by a browser or an editor.";
            let told = format!("{name} is no page that `sirophan sign` has made.");
            Failure::refused(Message { help: vec![help.into()], ..Message::error(told).code("no_page") })
        };
        let text = String::from_utf8(bytes).map_err(|_| none())?;
        let form = Form::of(&text).ok_or_else(none)?;
        if form.is_refusal(&text) {
            let told = format!("{name} is the page of a refusal: it has no answer that could be the same.");
            return Err(Failure::refused(Message::error(told).code("no_answer")));
        }
        let fact = |mark: Mark| String::from_utf8(form.fact(&text, mark)?).ok();
        let read = || {
            Some(Signed {
                form,
                sent: form.fact(&text, page::SENT)?,
                columns: fact(page::COLUMNS),
                records: form.records(&text)?,
                cards: fact(page::CARDS)?.replace(',', "").parse().ok()?,
                sheet_hash: fact(page::SHEET_HASH)?,
                cards_hash: fact(page::CARDS_HASH)?,
                version: fact(page::VERSION)?,
                date: fact(page::DATE)?,
                fingerprint: fact(page::FINGERPRINT)?,
                text: text.clone(),
            })
        };
        read().ok_or_else(none)
    }
}

/// What differs, as it is found.
#[derive(Default)]
struct Differences {
    archive: Vec<Message>,
    question: Vec<Message>,
    answer: Vec<Message>,
    page: Vec<Message>,
    /// What is doubted of a page that holds.
    doubts: Vec<Message>,
}

/// Reads a page, asks its question again, and says whether archive, question and answer are the same.
pub fn run(arguments: &Arguments) -> Result<(), Failure> {
    let [page_path, sheet_path, cards_path] = [0, 1, 2].map(|place| &arguments.paths[place]);
    let name = shown(page_path);
    let signed = Signed::read(&name, Input::open(page_path)?.all()?)?;
    let sheet = Sheet::read(input::read(sheet_path)?);
    let cards = Input::open(cards_path)?;
    advice::require_sound(&shown(sheet_path), &sheet)?;
    seal::hold(sheet_path, &sheet.block, Some(&cards))?;
    let mut differ = Differences::default();
    if page::fingerprint(signed.form, &signed.text).to_string() != signed.fingerprint {
        differ.page.push(told("page_changed", "the page was changed since it was made: it has another fingerprint."));
    }
    differ.hash("sheet", &signed.sheet_hash, Hash::of(&sheet.block));
    let question = Question {
        sheet_name: shown(sheet_path),
        text_name: "the filter".into(),
        sheet,
        words: Words::Filter,
        text: signed.sent.clone(),
    };
    let found = match asked_again(&question, &signed) {
        Ok(asking) => {
            let found = asking.ask(cards_path, cards, signed.form.is_of_pipe(&signed.text))?;
            differ.find(&signed, &asking, &found);
            Some(found)
        }
        Err(Failure::Refused(messages)) => {
            differ.question.extend(messages);
            None
        }
        Err(other) => return Err(other),
    };
    differ.show(arguments, &name, &signed, found.as_ref())
}

/// The question of a page, where it has a meaning on the sheet, with the page's columns.
fn asked_again<'a>(question: &'a Question, signed: &Signed) -> Result<Asking<'a>, Failure> {
    question.check()?;
    let columns = signed.columns.as_deref().map(|names| Columns::read(&question.sheet, names)).transpose();
    let columns = columns
        .map_err(|_| Failure::refused(told("columns", "the page has a column that is no field of the sheet.")))?;
    Ok(Asking::new(question, columns))
}

/// A difference.
fn told(code: &'static str, text: &str) -> Message {
    Message::error(text).code(code)
}

impl Differences {
    /// Tells a hash that is another.
    fn hash(&mut self, what: &str, page: &str, now: Hash) {
        if now.to_string() != page {
            let text = format!("another {what}: its SHA-256 is {now}, and the page has {page}.");
            self.archive.push(told(if what == "sheet" { "sheet" } else { "cards" }, &text));
        }
    }

    /// Finds what differs between a page and what is found now.
    fn find(&mut self, signed: &Signed, asking: &Asking, found: &Found) {
        let now = found.held.cards;
        if now != signed.cards {
            let word = if now < signed.cards { "fewer" } else { "more" };
            let (cards, by) = (counted(now, "card"), counted(now.abs_diff(signed.cards), "card"));
            let message = told("number", &format!("the archive has {cards}, {by} {word} than the page says."));
            self.archive.push(message.figures([("cards", now), ("page", signed.cards)]));
        }
        self.hash("cards file", &signed.cards_hash, found.cards_hash);
        self.answer.extend(list_differs(&signed.records, &found.records));
        // A page of the same build, of the same archive and with the same list is the same to the byte.
        if self.all().is_empty() && signed.version == version::told() {
            let (again, _) = asking.page(found, &signed.date).written(signed.form);
            let same = again.lines().zip(signed.text.lines()).take_while(|(one, other)| one == other).count();
            if again != signed.text {
                let text = format!("line {} of the page is not what `sirophan sign` writes now.", same + 1);
                let help =
                    "Beside archive, question and answer something else was changed, in the page or in the program.";
                self.doubts.push(Message::warning(text, help).code("page_line"));
            }
        }
    }

    fn all(&self) -> Vec<Message> {
        [&self.archive[..], &self.question, &self.answer, &self.page].concat()
    }

    /// Says that all is the same, or what differs; beside it the version, where that is another.
    fn show(self, arguments: &Arguments, name: &str, signed: &Signed, found: Option<&Found>) -> Result<(), Failure> {
        let (now, all) = (version::told(), self.all());
        let other_version =
            (signed.version != now).then(|| format!("The page was made by {}, and this is {now}.", signed.version));
        let word = |messages: &[Message]| if messages.is_empty() { "same" } else { "another" };
        let answer = if found.is_some() { format!("{} answer", word(&self.answer)) } else { "no answer".into() };
        let question = if self.question.is_empty() { "same question" } else { "the question is refused" };
        let page = if self.page.is_empty() { "" } else { ", and a page that was changed" };
        let verdict = format!("{} archive, {question}, {answer}{page}", word(&self.archive));
        if !all.is_empty() {
            let summary = Message::error(format!("{name}: {verdict}."));
            let version = other_version.map(Message::note);
            return Err(Failure::Refused([summary].into_iter().chain(all).chain(version).collect()));
        }
        let mut output = Output::new();
        if arguments.json {
            let (matching, cards) = (signed.records.len(), signed.cards);
            output.line(json::object(&[
                ("same", "true".into()),
                ("matching", matching.to_string()),
                ("cards", cards.to_string()),
                ("version", json::string(&now)),
                ("page_version", json::string(&signed.version)),
                report::warnings(&self.doubts),
            ]))?;
        } else {
            output.line(verdict)?;
            other_version.map_or(Ok(()), |version| output.line(version))?;
        }
        output.flush()?;
        arguments.warn(&self.doubts);
        Ok(())
    }
}

/// What differs between two lists: the record numbers that came and went, each as often as it did, or their order.
fn list_differs(page: &[u32], now: &[u32]) -> Option<Message> {
    if page == now {
        return None;
    }
    let [came, went] = [beyond(now, page), beyond(page, now)];
    if came.is_empty() && went.is_empty() {
        return Some(told("list", "the list has the same record numbers in another order."));
    }
    let counts = format!("{} came and {} went", grouped(came.len() as u64), grouped(went.len() as u64));
    let mut message = told("list", &format!("the list is another: {counts}."));
    message = message.figures([("came", came.len() as u64), ("went", went.len() as u64)]);
    for (word, records) in [("Came", &came), ("Went", &went)].into_iter().filter(|(_, records)| !records.is_empty()) {
        let records: Vec<String> = records.iter().map(u32::to_string).collect();
        message.help.push(format!("{word}: {}.", records.join(", ")));
    }
    Some(message)
}

/// The record numbers of one list that another has not, or not so often.
fn beyond(one: &[u32], other: &[u32]) -> Vec<u32> {
    let mut there: HashMap<u32, usize> = HashMap::new();
    for record in other {
        *there.entry(*record).or_default() += 1;
    }
    let mut is_beyond = |record: &u32| match there.get_mut(record) {
        Some(count) if *count > 0 => {
            *count -= 1;
            false
        }
        _ => true,
    };
    one.iter().copied().filter(|record| is_beyond(record)).collect()
}
