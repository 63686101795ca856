//! How wide a terminal is, and texts wrapped at words for it.

use std::env;
use std::ffi::{c_int, c_ulong};

unsafe extern "C" {
    fn ioctl(descriptor: c_int, request: c_ulong, ...) -> c_int;
}

/// The request for a terminal's size, on Linux.
const GET_WINDOW_SIZE: c_ulong = 0x5413;
/// The columns of a terminal that does not say how many it has, and of a help that goes elsewhere.
pub const USUAL: usize = 80;
/// No terminal is taken to be narrower.
const NARROWEST: usize = 40;

/// The descriptors of standard output and standard error.
pub const OUTPUT: c_int = 1;
pub const ERRORS: c_int = 2;

/// A terminal's size as the system gives it.
#[repr(C)]
#[derive(Default)]
struct Size {
    rows: u16,
    columns: u16,
    width: u16,
    height: u16,
}

/// How many columns a stream has: those that COLUMNS says, or the terminal's; none where it is no terminal.
pub fn of_stream(descriptor: c_int) -> Option<usize> {
    let said = env::var("COLUMNS").ok().and_then(|columns| columns.parse().ok()).filter(|columns| *columns > 0);
    let columns = said.or_else(|| of_terminal(descriptor))?;
    Some(if columns == 0 { USUAL } else { columns.max(NARROWEST) })
}

/// How many columns a terminal says that it has, which may be none.
fn of_terminal(descriptor: c_int) -> Option<usize> {
    let mut size = Size::default();
    // SAFETY: the system writes a size, for which there is room, and only where the descriptor is a terminal.
    let is_terminal = unsafe { ioctl(descriptor, GET_WINDOW_SIZE, &raw mut size) } == 0;
    is_terminal.then_some(usize::from(size.columns))
}

/// A line cut at its spaces into lines of so many columns; those behind the first are as far in as it is, and further by
/// `hanging`. A word that is longer than a line stays whole.
pub fn wrapped(line: &str, columns: usize, hanging: usize) -> String {
    let words = line.trim_start_matches(' ');
    let start = line.len() - words.len();
    let mut lines = vec![" ".repeat(start)];
    let mut fresh = true;
    for word in words.split(' ') {
        let last = lines.last_mut().expect("there is always a line");
        let space = usize::from(!fresh);
        if !fresh && last.chars().count() + space + word.chars().count() > columns {
            lines.push(format!("{}{word}", " ".repeat(start + hanging)));
        } else {
            last.extend([&" ".repeat(space), word]);
        }
        fresh = false;
    }
    lines.join("\n")
}

/// A help for so many columns: lines that stand in from the left are kept as they are, and those of a paragraph are one.
pub fn paragraphs(text: &str, columns: usize) -> String {
    let mut lines: Vec<String> = Vec::new();
    let mut open = false;
    for line in text.lines() {
        let joins = open && !line.is_empty() && !line.starts_with(' ');
        match lines.last_mut().filter(|_| joins) {
            Some(last) => last.extend([" ", line]),
            None => lines.push(line.into()),
        }
        open = !line.is_empty() && !line.starts_with(' ');
    }
    let wrap = |line: &String| if line.starts_with(' ') { line.clone() } else { wrapped(line, columns, 0) };
    lines.iter().map(wrap).collect::<Vec<String>>().join("\n")
}

#[cfg(test)]
mod tests {
    use super::*;

    /// Lines are cut at words, go on as far in as they began, and long words stay whole.
    #[test]
    fn wrapping() {
        assert_eq!(wrapped("  one two three", 9, 0), "  one two\n  three");
        assert_eq!(wrapped("warning: one two", 12, 2), "warning: one\n  two");
        assert_eq!(wrapped("abcdefghij k", 5, 0), "abcdefghij\nk");
        assert_eq!(wrapped("", 5, 0), "");
    }

    /// Paragraphs are joined and cut, examples stay.
    #[test]
    fn paragraphs_and_examples() {
        assert_eq!(paragraphs("one two\nthree\n\n    $ a b c d e f\n", 9), "one two\nthree\n\n    $ a b c d e f");
        assert_eq!(paragraphs("a b\nc d\n\ne", 40), "a b c d\n\ne");
    }
}
