//! The filter's bytes, read from left to right.

pub struct Cursor<'a> {
    text: &'a [u8],
    pub at: usize,
}

impl<'a> Cursor<'a> {
    pub fn new(text: &'a [u8]) -> Cursor<'a> {
        Cursor { text, at: 0 }
    }

    pub fn peek(&self) -> Option<u8> {
        self.text.get(self.at).copied()
    }

    /// The bytes of one sort, as far as they go.
    pub fn run(&mut self, is_sort: impl Fn(u8) -> bool) -> &'a [u8] {
        let rest = &self.text[self.at..];
        let length = rest.iter().position(|&byte| !is_sort(byte)).unwrap_or(rest.len());
        self.at += length;
        &rest[..length]
    }

    /// A word of small letters: a connective or an operator.
    pub fn word(&mut self) -> &'a [u8] {
        self.run(|byte| byte.is_ascii_lowercase())
    }

    /// Goes over the spaces and tells whether there were any.
    pub fn spaces(&mut self) -> bool {
        !self.run(|byte| byte == b' ').is_empty()
    }

    /// Goes over this byte, if it stands here.
    pub fn byte(&mut self, wanted: u8) -> Option<()> {
        (self.next()? == wanted).then_some(())
    }

    /// A value, bare or in quotes, put behind what the buffer holds.
    pub fn value(&mut self, value: &mut Vec<u8>) -> Option<()> {
        if self.peek() == Some(b'"') {
            self.at += 1;
            return self.quoted(value);
        }
        let word = self.run(|byte| byte.is_ascii_graphic() && byte != b')' && byte != b']');
        value.extend_from_slice(word);
        (!word.is_empty()).then_some(())
    }

    fn quoted(&mut self, value: &mut Vec<u8>) -> Option<()> {
        loop {
            match self.next()? {
                b'"' => return Some(()),
                b'\\' => value.push(unescaped(self.next()?)?),
                0..=0x1F => return None,
                byte => value.push(byte),
            }
        }
    }

    fn next(&mut self) -> Option<u8> {
        let byte = self.peek()?;
        self.at += 1;
        Some(byte)
    }
}

/// The byte that a letter behind a backslash stands for.
fn unescaped(letter: u8) -> Option<u8> {
    match letter {
        b'"' | b'\\' | b'/' => Some(letter),
        b'b' => Some(8),
        b'f' => Some(12),
        b'n' => Some(10),
        b'r' => Some(13),
        b't' => Some(9),
        _ => None,
    }
}
