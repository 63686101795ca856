//! A page as it is filed: its parts, in either form, and what can be read of it again.

use crate::html;
use crate::leaf;
use crate::report::Message;
use crate::sha256::{Hash, Hasher};

/// A part of a page. All texts are shown as what they are, whoever wrote them.
pub enum Part {
    Heading(&'static str),
    Sentence(String),
    /// The outcome, which is read first.
    Outcome(String),
    /// Facts in a table of two columns.
    Facts(Vec<Fact>),
    /// A table with a head; a cell has values.
    Table {
        head: Vec<String>,
        rows: Vec<Vec<Vec<Vec<u8>>>>,
    },
    /// The list: record numbers, or with columns a row for each card.
    Numbers(Vec<u32>),
    Cards {
        head: Vec<String>,
        rows: Vec<(u32, Vec<Vec<Vec<u8>>>)>,
    },
    Messages(Vec<Message>),
    /// A statement, and a line to sign it.
    Signature(&'static str),
}

/// A fact, which stands on a line of its own.
pub struct Fact {
    pub mark: Mark,
    pub value: Vec<u8>,
}

/// By what a fact is known.
#[derive(Clone, Copy, Debug, PartialEq, Eq)]
pub struct Mark {
    /// In HTML, and what a reader sees.
    pub id: &'static str,
    pub label: &'static str,
}

pub const SENT: Mark = Mark { id: "sent", label: "As it was sent" };
pub const PLAIN: Mark = Mark { id: "plain", label: "In its plain spelling" };
pub const READ: Mark = Mark { id: "read", label: "As it is read" };
pub const COLUMNS: Mark = Mark { id: "columns", label: "Columns" };
pub const CARDS: Mark = Mark { id: "cards", label: "Cards" };
pub const SHEET_HASH: Mark = Mark { id: "sheet-sha256", label: "SHA-256 of the sheet" };
pub const CARDS_HASH: Mark = Mark { id: "cards-sha256", label: "SHA-256 of the cards" };
pub const VERSION: Mark = Mark { id: "version", label: "Made by" };
pub const FINGERPRINT: Mark = Mark { id: "fingerprint", label: "Fingerprint" };
pub const DATE: Mark = Mark { id: "date", label: "Date" };

/// The headings, in the order of the page.
pub const QUESTION: &str = "The question";
pub const TESTS: &str = "Each test in words";
pub const ANSWER: &str = "The answer";
pub const HELD: &str = "What the archive holds under each field asked";
pub const MIGHT_BE: &str = "Not on the list, and might be";
pub const ARCHIVE: &str = "The archive";
pub const MADE: &str = "How this page was made";
pub const SIGNED: &str = "Date and signature";

/// What stands in the place of the list where there is no answer, and where the answer is that no card matches.
pub const NO_ANSWER: &str = "There is no answer.";
pub const EMPTY: &str = "No card is on the list.";
/// What stands below the doubts where the cards came through a pipe.
pub const ONE_WALK: &str =
    "The cards came through a pipe and were gone through once: of tests that no card meets less is known.";

/// The forms of a page.
#[derive(Clone, Copy, Debug, PartialEq, Eq)]
pub enum Form {
    Html,
    Text,
}

/// What stands for the fingerprint while it is not known.
const UNKNOWN: &str = "................................................................";

/// A page: a title, and its parts.
pub struct Page {
    pub title: String,
    pub parts: Vec<Part>,
}

impl Page {
    /// The page in a form, with its fingerprint, and that.
    pub fn written(&self, form: Form) -> (String, String) {
        let text = match form {
            Form::Html => html::written(self),
            Form::Text => leaf::written(self),
        };
        let fingerprint = fingerprint(form, &text).to_string();
        let start = form.fact_start(FINGERPRINT);
        let at = text.find(&start).map_or(0, |at| at + start.len());
        let (before, behind) = text.split_at(at);
        (format!("{before}{}", behind.replacen(UNKNOWN, &fingerprint, 1)), fingerprint)
    }

    /// The fingerprint as a page has it while it is not known.
    pub fn unknown_fingerprint() -> Fact {
        Fact { mark: FINGERPRINT, value: UNKNOWN.into() }
    }
}

impl Form {
    /// The form of a page, if it is one that `sirophan sign` writes.
    pub fn of(page: &str) -> Option<Form> {
        let forms = [(Form::Html, html::START), (Form::Text, leaf::START)];
        forms.into_iter().find(|(_, start)| page.starts_with(start)).map(|(form, _)| form)
    }

    /// How the line of a fact begins and ends.
    pub fn fact_start(self, mark: Mark) -> String {
        match self {
            Form::Html => html::fact_start(mark),
            Form::Text => leaf::fact_start(mark),
        }
    }

    fn fact_end(self) -> &'static str {
        match self {
            Form::Html => html::FACT_END,
            Form::Text => "",
        }
    }

    /// The fact that a page has by a mark.
    pub fn fact(self, page: &str, mark: Mark) -> Option<Vec<u8>> {
        let start = self.fact_start(mark);
        let shown = page.lines().find_map(|line| line.strip_prefix(&start)?.strip_suffix(self.fact_end()))?;
        match self {
            Form::Html => crate::visible::from_html(shown),
            Form::Text => crate::visible::from_plain(shown),
        }
    }

    /// Whether a page says that there is no answer.
    pub fn is_refusal(self, page: &str) -> bool {
        let line = match self {
            Form::Html => html::outcome(NO_ANSWER),
            Form::Text => NO_ANSWER.into(),
        };
        page.lines().any(|other| other == line)
    }

    /// Whether a page's cards came through a pipe.
    pub fn is_of_pipe(self, page: &str) -> bool {
        match self {
            Form::Html => page.lines().any(|line| line == html::sentence(ONE_WALK)),
            Form::Text => page.contains(&leaf::sentence(ONE_WALK)),
        }
    }

    /// The record numbers of a page's list; none where it cannot be read.
    pub fn records(self, page: &str) -> Option<Vec<u32>> {
        let (list, empty) = match self {
            Form::Html => (html::records(page), html::sentence(EMPTY)),
            Form::Text => (leaf::records(page), EMPTY.into()),
        };
        list.or_else(|| page.lines().any(|line| line == empty).then(Vec::new))
    }
}

/// The fingerprint of a page: the hash of all its lines but those of the date and of the fingerprint itself.
pub fn fingerprint(form: Form, page: &str) -> Hash {
    let left_out = [DATE, FINGERPRINT].map(|mark| form.fact_start(mark));
    let mut hasher = Hasher::new();
    for line in page.split_inclusive('\n').filter(|line| !left_out.iter().any(|start| line.starts_with(start))) {
        hasher.add(line.as_bytes());
    }
    hasher.end()
}
