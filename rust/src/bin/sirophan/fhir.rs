//! Answers and refusals as FHIR R4 has them: a Bundle that is a searchset, and an `OperationOutcome`.

use crate::json;
use crate::report::{Failure, Message, Output};

/// The parameters of FHIR begin so; one of them that is not understood is not supported, where another name is not found.
const OF_FHIR: char = '_';

/// An answer.
pub struct Bundle<'a> {
    /// How many cards match, whether they are listed or not.
    pub total: u64,
    /// The query in its plain spelling.
    pub query: &'a str,
    pub records: &'a [u32],
    pub warnings: &'a [Message],
}

impl Bundle<'_> {
    /// Writes it, a line for each entry, so that a list of any length is written as it is made.
    pub fn write(&self, output: &mut Output) -> Result<(), Failure> {
        let url = json::string(&format!("?{}", self.query));
        let link = json::array(&[json::object(&[("relation", json::string("self")), ("url", url)])]);
        let mut head = json::object(&[
            ("resourceType", json::string("Bundle")),
            ("type", json::string("searchset")),
            ("total", self.total.to_string()),
            ("link", link),
        ]);
        let outcome = (!self.warnings.is_empty()).then(|| entry(&outcome(&told(self.warnings)), "outcome"));
        let entries = self.records.len() + usize::from(outcome.is_some());
        if entries == 0 {
            output.line(head)?;
            return output.flush();
        }
        head.pop();
        output.line(format_args!("{head},\"entry\":["))?;
        let cards = self.records.iter().map(|record| entry(&card(*record), "match"));
        for (entry, number) in cards.chain(outcome).zip(1..) {
            output.line(format_args!("{entry}{}", if number < entries { "," } else { "]}" }))?;
        }
        output.flush()
    }
}

/// An entry of a Bundle.
fn entry(resource: &str, mode: &str) -> String {
    json::object(&[("resource", resource.into()), ("search", json::object(&[("mode", json::string(mode))]))])
}

/// A card by its record number. FHIR has no resource for a catalogue card, and Basic for what it has none for.
fn card(record: u32) -> String {
    let identifier = json::object(&[("value", json::string(&record.to_string()))]);
    json::object(&[
        ("resourceType", json::string("Basic")),
        ("identifier", json::array(&[identifier])),
        ("code", json::object(&[("text", json::string("catalogue card"))])),
    ])
}

fn outcome(issues: &[String]) -> String {
    json::object(&[("resourceType", json::string("OperationOutcome")), ("issue", json::array(issues))])
}

/// Warnings and notes beside an answer.
fn told(warnings: &[Message]) -> Vec<String> {
    warnings.iter().map(|warning| issue("information", "informational", warning)).collect()
}

/// Why there is no answer.
pub fn refused(failure: &Failure) -> Option<String> {
    let issues = match failure {
        Failure::Usage(text) => vec![issue("error", "invalid", &Message::error(format!("sirophan: {text}")))],
        Failure::Refused(messages) => messages.iter().map(|message| issue("error", code(message), message)).collect(),
        Failure::AtFault(messages) => messages.iter().map(|message| issue("error", "processing", message)).collect(),
        Failure::Unusable(message) => vec![issue("error", "processing", message)],
        Failure::AsFhir(failure) => return refused(failure),
        Failure::Closed => return None,
    };
    Some(outcome(&issues))
}

/// Why a question is refused: it is no query, or asks for what is not there, or in a way that is not.
fn code(message: &Message) -> &'static str {
    let parameter = message.concern.as_ref().and_then(|concern| concern.parameter.as_deref());
    match message.refusal.map(|refusal| refusal.number) {
        Some(14) if parameter.is_some_and(|name| name.starts_with(OF_FHIR) && name != sirophan::query::FILTER) => {
            "not-supported"
        }
        Some(14) => "not-found",
        Some(15 | 16 | 18) => "not-supported",
        _ => "invalid",
    }
}

/// An issue: the sentence, the parameter of the query that it is about, and what to do.
fn issue(severity: &str, code: &str, message: &Message) -> String {
    let mut pairs = vec![("severity", json::string(severity)), ("code", json::string(code))];
    pairs.push(("details", json::object(&[("text", json::string(&message.text))])));
    if !message.help.is_empty() {
        pairs.push(("diagnostics", json::string(&message.help.join("\n"))));
    }
    let parameter = message.concern.as_ref().and_then(|concern| concern.parameter.as_deref());
    if let Some(name) = parameter {
        // as R4 names the parameters of a request there
        pairs.push(("location", json::array(&[json::string(&format!("http.{name}"))])));
    }
    json::object(&pairs)
}
