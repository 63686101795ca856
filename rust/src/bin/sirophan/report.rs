//! What a command says beside its answer, and how it ends.

use crate::fhir;
use crate::json;
use crate::stream::Stream;
use crate::width;
use sirophan::Refusal;
use std::fmt::Display;
use std::io::{self, ErrorKind, Write};

/// How a message is meant.
#[derive(Clone, Copy, Debug, PartialEq, Eq)]
pub enum Level {
    Error,
    Warning,
    Note,
}

impl Level {
    fn word(self) -> &'static str {
        match self {
            Level::Error => "error",
            Level::Warning => "warning",
            Level::Note => "note",
        }
    }
}

/// In which form a failure is told.
#[derive(Clone, Copy, Debug, PartialEq, Eq)]
pub enum Form {
    Words,
    Json,
    Fhir,
}

/// What of a query a refusal is about: the part, in whose text its place counts, and the parameter, if it is one's.
#[derive(Clone, Debug)]
pub struct Concern {
    pub part: String,
    pub parameter: Option<String>,
}

/// A message for standard error.
#[derive(Clone, Debug)]
pub struct Message {
    pub level: Level,
    pub text: String,
    /// What it is about, as lines that go before the text.
    pub shown: Option<String>,
    /// What more there is to say, and what to do; each sentence goes on a line below the text.
    pub help: Vec<String>,
    /// The refusal that it tells of, if it does.
    pub refusal: Option<Refusal>,
    /// Where it is one of a query, what it is about.
    pub concern: Option<Concern>,
    /// For programs: a word for what it tells, the field that it is about, and its figures by name.
    pub code: Option<&'static str>,
    pub field: Option<String>,
    pub figures: Vec<(&'static str, u64)>,
}

impl Message {
    pub fn new(level: Level, text: impl Into<String>) -> Message {
        let text = text.into();
        Message {
            level,
            text,
            shown: None,
            help: Vec::new(),
            refusal: None,
            concern: None,
            code: None,
            field: None,
            figures: Vec::new(),
        }
    }

    /// An error.
    pub fn error(text: impl Into<String>) -> Message {
        Message::new(Level::Error, text)
    }

    /// A warning, with a sentence of help.
    pub fn warning(text: impl Into<String>, help: impl Into<String>) -> Message {
        Message { help: vec![help.into()], ..Message::new(Level::Warning, text) }
    }

    /// A note.
    pub fn note(text: impl Into<String>) -> Message {
        Message::new(Level::Note, text)
    }

    /// The message with a word for what it tells.
    pub fn code(self, code: &'static str) -> Message {
        Message { code: Some(code), ..self }
    }

    /// The same, with the field that it is about.
    pub fn about(self, code: &'static str, field: &str) -> Message {
        Message { code: Some(code), field: Some(field.into()), ..self }
    }

    /// The message with figures.
    pub fn figures(self, figures: impl IntoIterator<Item = (&'static str, u64)>) -> Message {
        Message { figures: figures.into_iter().collect(), ..self }
    }

    /// The message as lines for people, wrapped for so many columns where there are any. An error needs no word before it.
    pub fn lines(&self, columns: Option<usize>) -> String {
        let wrap = |line: String| columns.map_or(line.clone(), |columns| width::wrapped(&line, columns, 2));
        let text = match self.level {
            Level::Error => self.text.clone(),
            level => format!("{}: {}", level.word(), self.text),
        };
        let help = self.help.iter().map(|line| wrap(format!("  {line}")));
        let lines: Vec<String> = self.shown.iter().cloned().chain([wrap(text)]).chain(help).collect();
        lines.join("\n")
    }

    /// The message as one line of JSON.
    pub fn json(&self) -> String {
        let code = self.code.map(|code| ("code", json::string(code)));
        let field = self.field.as_deref().map(|field| ("field", json::string(field)));
        let mut pairs = vec![("level", json::string(self.level.word()))];
        pairs.extend(code.into_iter().chain(field));
        pairs.push(("message", json::string(&self.text)));
        if !self.help.is_empty() {
            let help: Vec<String> = self.help.iter().map(|line| json::string(line)).collect();
            pairs.push(("help", json::array(&help)));
        }
        if let Some(Refusal { number, place }) = self.refusal {
            pairs.extend([("refused", number.to_string()), ("place", place.to_string())]);
        }
        if let Some(Concern { part, parameter }) = &self.concern {
            pairs.push(("part", json::string(part)));
            pairs.extend(parameter.as_deref().map(|name| ("parameter", json::string(name))));
        }
        if !self.figures.is_empty() {
            let figures: Vec<(&str, String)> =
                self.figures.iter().map(|(name, number)| (*name, number.to_string())).collect();
            pairs.push(("figures", json::object(&figures)));
        }
        json::object(&pairs)
    }

    /// Says the message on standard error. What cannot be said there cannot be said anywhere.
    pub fn say(&self, as_json: bool) {
        let line = if as_json { self.json() } else { self.lines(width::of_stream(width::ERRORS)) };
        let _ = writeln!(io::stderr(), "{line}");
    }
}

/// Why a command gives no answer.
#[derive(Debug)]
pub enum Failure {
    /// The command line is not understood.
    Usage(String),
    /// The text that asks is refused, or what describes has faults.
    Refused(Vec<Message>),
    /// The archive is at fault: its blocks, or its seal.
    AtFault(Vec<Message>),
    /// A file cannot be read, or an output not be written.
    Unusable(Box<Message>),
    /// Whoever reads standard output has gone, and needs no message.
    Closed,
    /// Any of them, told as FHIR though the command line does not ask for it.
    AsFhir(Box<Failure>),
}

impl Failure {
    /// One reason for a refusal, which is the archive's where the library refuses its blocks.
    pub fn refused(message: Message) -> Failure {
        match message.refusal.map(|refusal| refusal.number) {
            Some(1..=3 | 20..=23) => Failure::at_fault(message),
            _ => Failure::Refused(vec![message]),
        }
    }

    /// A fault of the archive.
    pub fn at_fault(message: Message) -> Failure {
        Failure::AtFault(vec![message])
    }

    /// The same, as the archive's faults.
    pub fn of_archive(self) -> Failure {
        match self {
            Failure::Refused(messages) => Failure::AtFault(messages),
            other => other,
        }
    }

    /// A file that something cannot be done with.
    #[expect(clippy::needless_pass_by_value, reason = "the reason is given away where an error is mapped")]
    pub fn file(name: &str, what: &str, reason: io::Error) -> Failure {
        let reason = reason.to_string();
        let words = reason.split(" (os error").next().unwrap_or_default();
        Failure::Unusable(Box::new(Message::error(format!("sirophan: {name} cannot be {what}: {words}"))))
    }

    /// The status with which the program ends.
    pub fn status(&self) -> u8 {
        match self {
            Failure::Usage(_) => 1,
            Failure::Refused(_) => 2,
            Failure::Unusable(_) | Failure::Closed => 3,
            Failure::AtFault(_) => 4,
            Failure::AsFhir(failure) => failure.status(),
        }
    }

    /// The same, told as FHIR.
    pub fn told_as_fhir(self) -> Failure {
        Failure::AsFhir(Box::new(self))
    }

    /// Says why on standard error.
    pub fn say(&self, form: Form) {
        let as_json = form == Form::Json;
        if form == Form::Fhir {
            if let Some(outcome) = fhir::refused(self) {
                let _ = writeln!(io::stderr(), "{outcome}");
            }
            return;
        }
        match self {
            Failure::AsFhir(failure) => failure.say(Form::Fhir),
            Failure::Usage(text) => Message::error(format!("sirophan: {text}")).say(as_json),
            Failure::Refused(messages) | Failure::AtFault(messages) => {
                for message in messages {
                    message.say(as_json);
                }
            }
            Failure::Unusable(message) => message.say(as_json),
            Failure::Closed => {}
        }
    }
}

/// Warnings as they stand in an answer in JSON.
pub fn warnings(messages: &[Message]) -> (&'static str, String) {
    ("warnings", json::array(&messages.iter().map(Message::json).collect::<Vec<String>>()))
}

/// Standard output. What is written to it comes with the last flush at the latest.
pub struct Output {
    to: io::BufWriter<Stream>,
}

impl Output {
    pub fn new() -> Output {
        Output { to: io::BufWriter::with_capacity(1 << 16, Stream::output()) }
    }

    /// Writes a line.
    pub fn line(&mut self, line: impl Display) -> Result<(), Failure> {
        writeln!(self.to, "{line}").map_err(unwritten)
    }

    /// Writes bytes as they are.
    pub fn raw(&mut self, bytes: &[u8]) -> Result<(), Failure> {
        self.to.write_all(bytes).map_err(unwritten)
    }

    /// Writes bytes as a line, whatever they are.
    pub fn bytes(&mut self, line: &[u8]) -> Result<(), Failure> {
        self.raw(line).and_then(|()| self.raw(b"\n"))
    }

    /// Writes out what is held back so far.
    pub fn flush(&mut self) -> Result<(), Failure> {
        self.to.flush().map_err(unwritten)
    }
}

/// A write to standard output that failed.
fn unwritten(reason: io::Error) -> Failure {
    match reason.kind() {
        ErrorKind::BrokenPipe => Failure::Closed,
        _ => Failure::file("standard output", "written", reason),
    }
}
