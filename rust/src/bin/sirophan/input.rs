//! Files that commands read; `-` is standard input.

use crate::report::Failure;
use crate::sha256::{Hash, Hasher};
use crate::stream::Stream;
use std::fs::File;
use std::io::{self, BufReader, Read};
use std::sync::{Arc, Mutex, PoisonError};

/// No sheet and no filter is near this size: what is longer need not be read to its end.
pub const MOST_BYTES: usize = 1 << 20;

/// An open file.
pub struct Input {
    /// What messages call it.
    pub name: String,
    /// Its size, where it has one.
    pub size: Option<u64>,
    /// Whether a line may show how far it is read. Lines of an answer that come meanwhile would run into it.
    pub shows_progress: bool,
    from: Box<dyn Read + Send>,
}

impl Input {
    /// Opens a file.
    pub fn open(path: &str) -> Result<Input, Failure> {
        if path == "-" {
            return Ok(Input { name: shown(path), size: None, shows_progress: true, from: Box::new(Stream::input()) });
        }
        let file = File::open(path).map_err(|reason| Failure::file(path, "opened", reason))?;
        let size = file.metadata().ok().filter(std::fs::Metadata::is_file).map(|data| data.len());
        let from = Box::new(BufReader::with_capacity(1 << 16, file));
        Ok(Input { name: path.into(), size, shows_progress: true, from })
    }

    /// Fills a buffer as far as the file goes, and answers how far.
    pub fn fill(&mut self, buffer: &mut [u8]) -> Result<usize, Failure> {
        let mut filled = 0;
        while filled < buffer.len() {
            match self.from.read(&mut buffer[filled..]) {
                Ok(0) => break,
                Ok(count) => filled += count,
                Err(reason) if reason.kind() == io::ErrorKind::Interrupted => {}
                Err(reason) => return Err(self.unread(reason)),
            }
        }
        Ok(filled)
    }

    /// A small file as a whole.
    pub fn whole(mut self) -> Result<Vec<u8>, Failure> {
        let mut bytes = Vec::new();
        match (&mut self.from).take(MOST_BYTES as u64).read_to_end(&mut bytes) {
            Ok(_) => Ok(bytes),
            Err(reason) => Err(self.unread(reason)),
        }
    }

    /// A file as a whole, however long it is.
    pub fn all(mut self) -> Result<Vec<u8>, Failure> {
        let mut bytes = Vec::new();
        match self.from.read_to_end(&mut bytes) {
            Ok(_) => Ok(bytes),
            Err(reason) => Err(self.unread(reason)),
        }
    }

    /// The same file, and the hash of what is read of it, so that what is judged is what is hashed.
    pub fn hashed(self) -> (Input, Hashed) {
        let hashed = Hashed(Arc::new(Mutex::new(Hasher::new())));
        let from = Box::new(HashedReader { from: self.from, hashed: hashed.clone() });
        (Input { from, ..self }, hashed)
    }

    /// The file as a reader of bytes.
    pub fn into_reader(self) -> Box<dyn Read + Send> {
        self.from
    }

    fn unread(&self, reason: io::Error) -> Failure {
        Failure::file(&self.name, "read", reason)
    }
}

/// The hash of what is read of a file, as far as that is.
#[derive(Clone)]
pub struct Hashed(Arc<Mutex<Hasher>>);

impl Hashed {
    pub fn so_far(&self) -> Hash {
        self.0.lock().unwrap_or_else(PoisonError::into_inner).clone().end()
    }
}

/// Reads a file and hashes what it reads.
struct HashedReader {
    from: Box<dyn Read + Send>,
    hashed: Hashed,
}

impl Read for HashedReader {
    fn read(&mut self, buffer: &mut [u8]) -> io::Result<usize> {
        let count = self.from.read(buffer)?;
        self.hashed.0.lock().unwrap_or_else(PoisonError::into_inner).add(&buffer[..count]);
        Ok(count)
    }
}

/// What messages call a path.
pub fn shown(path: &str) -> String {
    if path == "-" { "standard input".into() } else { path.into() }
}

/// A small file as a whole, by its path.
pub fn read(path: &str) -> Result<Vec<u8>, Failure> {
    Input::open(path)?.whole()
}

/// A filter or a search string as its file has it, without one last line feed.
pub fn read_text(path: &str) -> Result<Vec<u8>, Failure> {
    let mut text = match Input::open(path) {
        Err(Failure::Unusable(mut message)) if path.contains([' ', '=']) => {
            let itself = "This is to be a file. The text itself is given by -e in its place.";
            message.help.push(itself.into());
            return Err(Failure::Unusable(message));
        }
        opened => opened?.whole()?,
    };
    if text.last() == Some(&b'\n') {
        text.pop();
    }
    Ok(text)
}
