//! The definitions that one has to believe behind each promise, found by what the promises' own text refers to.
//!
//! - `files`: the files of a repository, as texts;
//! - `source`: a file's imports and definitions; `words`: the names in a definition, and those that it binds;
//! - `repository`: what a name refers to; `reach`: all that stands behind a statement;
//! - `twins`: the definitions that a promise makes it needless to believe;
//! - `page`: the page docs/DEFINITIONS.md, which lists them;
//! - `book`: docs/BOOK.md, which has them word for word, by `template`; `operations`: the code's contracts; `quote`: parts of files;
//!   `chapters`: the order in which they are read.
//!
//! Files are read as text, and what cannot be read or resolved is an error with its line: nothing is left out silently.

pub mod book;
pub mod chapters;
pub mod files;
pub mod operations;
pub mod page;
pub mod quote;
pub mod reach;
pub mod repository;
pub mod source;
pub mod template;
pub mod twins;
pub mod words;

use std::fmt;

/// What is wrong, and where; line 0 is for a file as a whole.
#[derive(Debug, PartialEq, Eq)]
pub struct Fault {
    pub file: String,
    pub line: usize,
    pub what: String,
}

impl Fault {
    pub fn new(file: &str, line: usize, what: impl Into<String>) -> Fault {
        Fault { file: file.into(), line, what: what.into() }
    }
}

impl fmt::Display for Fault {
    fn fmt(&self, to: &mut fmt::Formatter) -> fmt::Result {
        match self.line {
            0 => write!(to, "{}: {}", self.file, self.what),
            line => write!(to, "{}:{line}: {}", self.file, self.what),
        }
    }
}
