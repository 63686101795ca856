//! Where the parts of a filter stand, so that they can be shown. Only texts that the library has taken for filters are
//! read here; whether a text is one, and what it means, is never decided here.

use crate::sheet::Sheet;
use std::ops::Range;

/// A test: `birthdate le 1974-06`, or `related[type eq replaces].target pr true`, whose inner tests come behind it.
#[derive(Clone, Debug, PartialEq, Eq)]
pub struct Test {
    /// From the first byte of the path to the last of the value.
    pub whole: Range<usize>,
    /// The name of the bundle before its own square brackets, if it has them.
    pub bundle: Option<Range<usize>>,
    /// The name of the bundle in whose square brackets it stands, if it does.
    pub inside: Option<Range<usize>>,
    /// The name behind the brackets, or the only one.
    pub name: Range<usize>,
    pub operator: Range<usize>,
    /// The value, with its quotes where it has some.
    pub value: Range<usize>,
}

impl Test {
    /// The place of the test's parameter on a sheet, if its path leads to one.
    #[must_use]
    pub fn place(&self, sheet: &Sheet, text: &[u8]) -> Option<usize> {
        let bundle = match self.bundle.as_ref().or(self.inside.as_ref()) {
            Some(bundle) => sheet.find_bundle(&text[bundle.clone()])?,
            None => 0,
        };
        sheet.find(bundle, &text[self.name.clone()])
    }

    /// The value without its quotes and escapes.
    #[must_use]
    pub fn decoded(&self, text: &[u8]) -> Vec<u8> {
        let value = &text[self.value.clone()];
        let Some(quoted) = value.strip_prefix(b"\"") else { return value.to_vec() };
        let mut bytes = quoted.strip_suffix(b"\"").unwrap_or(quoted).iter();
        let mut decoded = Vec::new();
        while let Some(&byte) = bytes.next() {
            decoded.push(if byte == b'\\' { bytes.next().map_or(byte, |&letter| escaped(letter)) } else { byte });
        }
        decoded
    }
}

/// The byte that an escape stands for.
fn escaped(letter: u8) -> u8 {
    match letter {
        b'b' => 0x08,
        b'f' => 0x0C,
        b'n' => b'\n',
        b'r' => b'\r',
        b't' => b'\t',
        other => other,
    }
}

/// What a filter is made of.
#[derive(Debug)]
pub struct Filter {
    /// The tests, in the order of their first bytes.
    pub tests: Vec<Test>,
    /// The filter with the brackets that its reading from left to right amounts to, where an `and` comes behind an `or`.
    pub bracketed: Option<Vec<u8>>,
}

impl Filter {
    /// Reads a text that is a filter; none where it turns out not to be one.
    #[must_use]
    pub fn read(text: &[u8]) -> Option<Filter> {
        let (walk, read) = Walk::over(text, false)?;
        let mut tests = walk.tests;
        tests.sort_by_key(|test| test.whole.start);
        Some(Filter { tests, bracketed: walk.brackets_added.then_some(read) })
    }

    /// A text that is a filter with a bracket around all that is joined before each `and` and `or`, as it is read from left to right.
    #[must_use]
    pub fn with_every_bracket(text: &[u8]) -> Option<Vec<u8>> {
        Walk::over(text, true).map(|(_, read)| read)
    }

    /// The test that begins at a place.
    #[must_use]
    pub fn test_at(&self, place: usize) -> Option<&Test> {
        self.tests.iter().find(|test| test.whole.start == place)
    }
}

/// A walk over the text.
struct Walk<'a> {
    text: &'a [u8],
    at: usize,
    tests: Vec<Test>,
    brackets_added: bool,
    /// Whether all that is joined gets brackets.
    every: bool,
}

impl<'a> Walk<'a> {
    /// A walk over a whole text, and how it is read.
    fn over(text: &'a [u8], every: bool) -> Option<(Walk<'a>, Vec<u8>)> {
        let mut walk = Walk { text, at: 0, tests: Vec::new(), brackets_added: false, every };
        let read = walk.items(None)?;
        (walk.at == text.len()).then_some((walk, read))
    }

    /// The items up to a closing bracket or the end, as they are read: an `or` before an `and` gets brackets.
    fn items(&mut self, inside: Option<&Range<usize>>) -> Option<Vec<u8>> {
        self.spaces();
        let mut read = self.item(inside)?;
        let (mut has_or, mut is_joined) = (false, false);
        loop {
            self.spaces();
            let join = match self.rest() {
                [b'a', b'n', b'd', b' ', ..] => &b" and "[..],
                [b'o', b'r', b' ', ..] => b" or ",
                _ => return Some(read),
            };
            if (join == b" and " && has_or) || (self.every && is_joined) {
                read = [b"(", &read[..], b")"].concat();
                self.brackets_added = true;
                has_or = false;
            }
            has_or |= join == b" or ";
            is_joined = true;
            self.at += join.len() - 2;
            self.spaces();
            let item = self.item(inside)?;
            read = [&read[..], join, &item].concat();
        }
    }

    /// A filter in round brackets, perhaps behind `not`, or a test.
    fn item(&mut self, inside: Option<&Range<usize>>) -> Option<Vec<u8>> {
        let not = self.negation();
        if self.rest().first() != Some(&b'(') {
            return self.test(inside);
        }
        let read = self.enclosed(inside, b')')?;
        Some([if not { &b"not ("[..] } else { b"(" }, &read, b")"].concat())
    }

    /// Goes past a `not` that has a bracket behind it.
    fn negation(&mut self) -> bool {
        let Some(rest) = self.rest().strip_prefix(b"not") else { return false };
        let spaces = rest.iter().take_while(|&&byte| byte == b' ').count();
        let negates = rest.get(spaces) == Some(&b'(');
        self.at += if negates { 3 + spaces } else { 0 };
        negates
    }

    /// A filter from its opening bracket to its closing one.
    fn enclosed(&mut self, inside: Option<&Range<usize>>, closing: u8) -> Option<Vec<u8>> {
        self.at += 1;
        let read = self.items(inside)?;
        self.byte(closing)?;
        Some(read)
    }

    /// A test.
    fn test(&mut self, inside: Option<&Range<usize>>) -> Option<Vec<u8>> {
        let start = self.at;
        let mut name = self.name()?;
        let mut path = self.text[name.clone()].to_vec();
        let mut bundle = None;
        if self.rest().first() == Some(&b'[') {
            let condition = self.enclosed(Some(&name), b']')?;
            self.byte(b'.')?;
            bundle = Some(name);
            name = self.name()?;
            path = [&path, &b"["[..], &condition, b"].", &self.text[name.clone()]].concat();
        }
        let behind_path = self.at;
        self.spaces();
        let operator = self.name()?;
        self.spaces();
        let value = self.value()?;
        let read = [&path, &self.text[behind_path..value.end]].concat();
        self.tests.push(Test { whole: start..value.end, bundle, inside: inside.cloned(), name, operator, value });
        Some(read)
    }

    /// A name or an operator.
    fn name(&mut self) -> Option<Range<usize>> {
        let is_name = |byte: &&u8| byte.is_ascii_alphanumeric() || matches!(byte, b'_' | b'-');
        let length = self.rest().iter().take_while(is_name).count();
        self.advance(length)
    }

    /// A quoted text, or a bare word.
    fn value(&mut self) -> Option<Range<usize>> {
        let rest = self.rest();
        let length = match rest.strip_prefix(b"\"") {
            Some(quoted) => 2 + closing_quote(quoted)?,
            None => rest.iter().take_while(|byte| !matches!(byte, b' ' | b')' | b']')).count(),
        };
        self.advance(length)
    }

    /// Goes on by so many bytes, at least one, and answers where they are.
    fn advance(&mut self, length: usize) -> Option<Range<usize>> {
        let start = self.at;
        self.at += length;
        (length > 0).then_some(start..self.at)
    }

    fn byte(&mut self, byte: u8) -> Option<()> {
        (self.rest().first() == Some(&byte)).then(|| self.at += 1)
    }

    fn spaces(&mut self) {
        self.at += self.rest().iter().take_while(|&&byte| byte == b' ').count();
    }

    fn rest(&self) -> &[u8] {
        &self.text[self.at..]
    }
}

/// Where the quote is that closes a text, the opening one left out.
fn closing_quote(text: &[u8]) -> Option<usize> {
    let mut at = 0;
    loop {
        match text.get(at)? {
            b'"' => return Some(at),
            b'\\' => at += 2,
            _ => at += 1,
        }
    }
}

#[cfg(test)]
mod tests {
    use super::*;

    fn bracketed(text: &str) -> Option<String> {
        let filter = Filter::read(text.as_bytes()).unwrap();
        filter.bracketed.map(|read| String::from_utf8(read).unwrap())
    }

    /// Brackets come where an `and` stands behind an `or`, and nowhere else.
    #[test]
    fn joins_from_left_to_right() {
        assert_eq!(bracketed("a eq 1 and b eq 2 or c eq 3"), None);
        assert_eq!(bracketed("(a eq 1 or b eq 2) and c eq 3"), None);
        assert_eq!(bracketed("a eq 1 or b eq 2 and c eq 3").unwrap(), "(a eq 1 or b eq 2) and c eq 3");
        assert_eq!(
            bracketed("a eq 1 or b eq 2 and c eq 3 or not(d eq 4) and e eq 5").unwrap(),
            "((a eq 1 or b eq 2) and c eq 3 or not (d eq 4)) and e eq 5"
        );
        assert_eq!(
            bracketed("r[a eq 1 or b eq 2 and c eq 3].d pr true").unwrap(),
            "r[(a eq 1 or b eq 2) and c eq 3].d pr true"
        );
    }

    /// With every bracket the order of joins can be read off, and idle brackets stay as they are.
    #[test]
    fn every_bracket() {
        let read = |text: &str| String::from_utf8(Filter::with_every_bracket(text.as_bytes()).unwrap()).unwrap();
        for (text, with_brackets) in [
            ("a eq 1", "a eq 1"),
            ("a eq 1 and b eq 2", "a eq 1 and b eq 2"),
            ("a eq 1 and b eq 2 and c eq 3", "(a eq 1 and b eq 2) and c eq 3"),
            ("a eq 1 and b eq 2 or c eq 3 and d eq 4", "((a eq 1 and b eq 2) or c eq 3) and d eq 4"),
            ("a eq 1 or (b eq 2 or c eq 3 or d eq 4)", "a eq 1 or ((b eq 2 or c eq 3) or d eq 4)"),
            ("not (a eq 1 or b eq 2 or c eq 3)", "not ((a eq 1 or b eq 2) or c eq 3)"),
            ("r[a eq 1 or b eq 2 or c eq 3].d pr true", "r[(a eq 1 or b eq 2) or c eq 3].d pr true"),
        ] {
            assert_eq!(read(text), with_brackets);
        }
        assert_eq!(Filter::with_every_bracket(b"a eq"), None);
    }

    /// Tests are found with their parts, an outer one before those inside it.
    #[test]
    fn tests_and_their_parts() {
        let text = br#" not ( nota eq "a\")b" )or r[ type eq x].target re y"#;
        let filter = Filter::read(text).unwrap();
        let part = |range: &Range<usize>| String::from_utf8_lossy(&text[range.clone()]).into_owned();
        let wholes: Vec<String> = filter.tests.iter().map(|test| part(&test.whole)).collect();
        assert_eq!(wholes, [r#"nota eq "a\")b""#, "r[ type eq x].target re y", "type eq x"]);
        assert_eq!(filter.tests[0].decoded(text), b"a\")b");
        assert_eq!(filter.tests[1].bundle.as_ref().map(part).as_deref(), Some("r"));
        assert_eq!(filter.tests[2].inside.as_ref().map(part).as_deref(), Some("r"));
        assert_eq!(part(&filter.tests[1].name), "target");
    }
}
