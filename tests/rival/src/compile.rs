//! Compiling a filter: its text read once, each test given its meaning as it is read, and its items joined by jumps.

use crate::code::{Ask, Code, NO, Need, Test, YES};
use crate::cursor::Cursor;
use crate::meaning;
use crate::name::{is_name, is_name_byte};
use crate::sheet::Sheet;
use crate::span::Span;
use second::block::MOST_PARAMETERS;
use second::filter::{DEEPEST, LONGEST, MOST_TESTS, OPERATIONS};
use second::operations::Refusal;
use std::iter;

/// In the place of a bundle: a name that is no bundle's. No parameter stands in it.
const NO_BUNDLE: u8 = u8::MAX;

/// An item of a filter or a condition: a test, or a filter in round brackets.
struct Item {
    /// The first test in it.
    test: u8,
    /// The first item in its brackets; none for a test.
    inner: Option<usize>,
    /// The next item that it is joined with.
    next: Option<usize>,
    /// Whether it is joined by `or` with those before it.
    is_or: bool,
    is_not: bool,
}

struct Compiler<'a> {
    cursor: Cursor<'a>,
    sheet: &'a Sheet<'a>,
    tests: Vec<Test>,
    items: Vec<Item>,
    texts: Vec<u8>,
    /// The value that was read last.
    value: Vec<u8>,
    /// The first test without a meaning: the number of its refusal, and its place.
    fault: Option<Refusal>,
    /// The place of the bundle in whose condition the cursor is, plus 1; 0 at the top.
    bundle: u8,
}

/// Compiles a filter. A text that is no filter is refused with 11: which of 11 to 13 it is, and where, is not told.
pub fn compile(sheet: &Sheet, text: &[u8]) -> Result<Code, Refusal> {
    if text.is_empty() || text.len() > LONGEST {
        return Err(Refusal { number: 10, place: 0 });
    }
    let mut compiler = Compiler {
        cursor: Cursor::new(text),
        sheet,
        tests: Vec::with_capacity(MOST_TESTS),
        items: Vec::with_capacity(2 * MOST_TESTS),
        texts: Vec::with_capacity(LONGEST),
        value: Vec::with_capacity(LONGEST),
        fault: None,
        bundle: 0,
    };
    let first = compiler.filter(DEEPEST, None).ok_or(Refusal { number: 11, place: 0 })?;
    if let Some(fault) = compiler.fault {
        return Err(fault);
    }
    compiler.link(first, YES, NO);
    let Compiler { tests, texts, .. } = compiler;
    Ok(Code { needs: needs(&tests), tests, texts, kinds: sheet.kinds })
}

/// What the tests need of each parameter.
fn needs(tests: &[Test]) -> [Need; MOST_PARAMETERS] {
    let mut needs = [Need::Nothing; MOST_PARAMETERS];
    for test in tests {
        let need = if matches!(test.ask, Ask::Present | Ask::Absent) { Need::Presence } else { Need::Values };
        let most = &mut needs[usize::from(test.place)];
        *most = need.max(*most);
    }
    needs
}

impl Compiler<'_> {
    /// Items with connectives between them, to the closing byte or the end; the first of them.
    fn filter(&mut self, depth: usize, close: Option<u8>) -> Option<usize> {
        self.cursor.spaces();
        let first = self.item(depth)?;
        let mut last = first;
        loop {
            let before = self.cursor.spaces();
            if self.cursor.peek() == close {
                return Some(first);
            }
            let is_or = match self.cursor.word() {
                b"and" => false,
                b"or" => true,
                _ => return None,
            };
            if !before || !self.cursor.spaces() {
                return None;
            }
            let item = self.item(depth)?;
            self.items[item].is_or = is_or;
            self.items[last].next = Some(item);
            last = item;
        }
    }

    fn item(&mut self, depth: usize) -> Option<usize> {
        let item = self.items.len();
        let test = self.tests.len() as u8;
        self.items.push(Item { test, inner: None, next: None, is_or: false, is_not: false });
        let place = self.cursor.at;
        let name = self.cursor.run(is_name_byte);
        let behind = self.cursor.peek();
        if name == b"not" {
            self.cursor.spaces();
            self.items[item].is_not = true;
        }
        if name == b"not" || (name.is_empty() && behind == Some(b'(')) {
            self.items[item].inner = Some(self.bracket(depth, b'(', b')')?);
        } else if behind == Some(b'[') {
            self.chosen(depth, place, name)?;
        } else {
            let test = self.new_test()?;
            self.test(test, place, name)?;
        }
        Some(item)
    }

    /// A test of a bundle's member with a condition: the name is the bundle's.
    fn chosen(&mut self, depth: usize, place: usize, name: &[u8]) -> Option<()> {
        if !is_name(name) {
            return None;
        }
        let test = self.new_test()?;
        let outer = self.bundle;
        let bundle = self.sheet.find(outer, name).filter(|&found| self.sheet.kinds[found].is_none());
        self.bundle = bundle.map_or(NO_BUNDLE, |bundle| bundle as u8 + 1);
        let inner = self.bracket(depth, b'[', b']')?;
        self.tests[test].condition = Some(test as u8 + 1);
        self.link(inner, YES, NO);
        self.cursor.byte(b'.')?;
        let member = self.cursor.run(is_name_byte);
        self.test(test, place, member)?;
        self.bundle = outer;
        Some(())
    }

    fn bracket(&mut self, depth: usize, open: u8, close: u8) -> Option<usize> {
        let depth = depth.checked_sub(1)?;
        self.cursor.byte(open)?;
        let inner = self.filter(depth, Some(close))?;
        self.cursor.byte(close)?;
        Some(inner)
    }

    /// A test whose meaning is still to be found.
    fn new_test(&mut self) -> Option<usize> {
        let index = self.tests.len();
        let (span, text) = (Span::default(), Default::default());
        let test = Test { place: 0, ask: Ask::Present, yes: YES, no: NO, condition: None, span, text, system: None };
        self.tests.push(test);
        (index < MOST_TESTS).then_some(index)
    }

    /// What follows a test's name: its operator and its value, by which it gets its meaning.
    fn test(&mut self, test: usize, place: usize, name: &[u8]) -> Option<()> {
        if !is_name(name) || !self.cursor.spaces() {
            return None;
        }
        let word = self.cursor.word();
        let &(_, operation) = OPERATIONS.iter().find(|(known, _)| *known == word)?;
        if !self.cursor.spaces() {
            return None;
        }
        self.value.clear();
        self.cursor.value(&mut self.value)?;
        let test = &mut self.tests[test];
        let meaning = match self.sheet.find(self.bundle, name) {
            None => Err(14),
            Some(found) => {
                test.place = found as u8;
                meaning::give(test, self.sheet.kinds[found], operation, &self.value, &mut self.texts)
            }
        };
        if let Err(number) = meaning {
            // A test with a condition stands before the tests in its brackets, and gets its meaning after them.
            let is_first = self.fault.is_none_or(|fault| place < fault.place);
            self.fault = if is_first { Some(Refusal { number, place }) } else { self.fault };
        }
        Some(())
    }

    /// Gives the tests of a chain of items the tests that come next. Read from left to right, a yes goes on to the next
    /// item joined by `and`, and a no to the next joined by `or`: those between are decided.
    fn link(&mut self, first: usize, yes: u8, no: u8) {
        let mut at = Some(first);
        while let Some(index) = at {
            let item = &self.items[index];
            let on_yes = self.next_joined(item, false).unwrap_or(yes);
            let on_no = self.next_joined(item, true).unwrap_or(no);
            let (on_yes, on_no) = if item.is_not { (on_no, on_yes) } else { (on_yes, on_no) };
            at = item.next;
            match item.inner {
                Some(inner) => self.link(inner, on_yes, on_no),
                None => {
                    let test = &mut self.tests[usize::from(item.test)];
                    (test.yes, test.no) = (on_yes, on_no);
                }
            }
        }
    }

    /// The first test of the next item that is joined by this connective.
    fn next_joined(&self, item: &Item, is_or: bool) -> Option<u8> {
        let mut later = iter::successors(item.next, |&at| self.items[at].next).map(|at| &self.items[at]);
        later.find(|item| item.is_or == is_or).map(|item| item.test)
    }
}
