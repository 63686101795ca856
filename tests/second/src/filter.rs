//! The filter's text: its grammar, and a reader that gives the tree of a filter.

use crate::block::is_name;

/// The longest text that is read as a filter.
pub const LONGEST: usize = 1024;
/// How deep brackets may nest, round and square ones together.
pub const DEEPEST: usize = 8;
/// The most tests of a filter.
pub const MOST_TESTS: usize = 32;

/// The 19 operation words.
#[derive(Clone, Copy, Debug, PartialEq, Eq)]
pub enum Operation {
    Eq,
    Ne,
    Co,
    Sw,
    Ew,
    Gt,
    Lt,
    Ge,
    Le,
    Ap,
    Sa,
    Eb,
    Pr,
    Po,
    Ss,
    Sb,
    In,
    Ni,
    Re,
}

/// The operations by the words that stand for them.
pub const OPERATIONS: [(&[u8], Operation); 19] = [
    (b"eq", Operation::Eq),
    (b"ne", Operation::Ne),
    (b"co", Operation::Co),
    (b"sw", Operation::Sw),
    (b"ew", Operation::Ew),
    (b"gt", Operation::Gt),
    (b"lt", Operation::Lt),
    (b"ge", Operation::Ge),
    (b"le", Operation::Le),
    (b"ap", Operation::Ap),
    (b"sa", Operation::Sa),
    (b"eb", Operation::Eb),
    (b"pr", Operation::Pr),
    (b"po", Operation::Po),
    (b"ss", Operation::Ss),
    (b"sb", Operation::Sb),
    (b"in", Operation::In),
    (b"ni", Operation::Ni),
    (b"re", Operation::Re),
];

/// A filter, with something for each of its tests: the test as written, or what was made of it.
#[derive(Clone, Debug, PartialEq, Eq)]
pub struct Filter<T> {
    pub first: Item<T>,
    pub rest: Vec<(Join, Item<T>)>,
}

/// What a filter joins.
#[derive(Clone, Debug, PartialEq, Eq)]
pub enum Item<T> {
    /// A test, with the condition inside its path if it has one.
    Test(T, Option<Box<Filter<T>>>),
    Bracket(Box<Filter<T>>),
    Not(Box<Filter<T>>),
}

/// A joining word.
#[derive(Clone, Copy, Debug, PartialEq, Eq)]
pub enum Join {
    And,
    Or,
}

/// A test as written. Its place is that of its first byte; its value is without quotes and escapes.
#[derive(Clone, Debug, PartialEq, Eq)]
pub struct Test {
    pub place: usize,
    /// Its name behind those of the bundles that it stands in, the outermost first.
    pub path: Vec<Vec<u8>>,
    pub operation: Operation,
    pub value: Vec<u8>,
    /// Where the value begins; a string at its quote.
    pub value_place: usize,
}

impl<T> Filter<T> {
    /// How many tests the filter has, those of conditions among them.
    pub fn count(&self) -> usize {
        let items = self.rest.iter().map(|(_, item)| item);
        self.first.count() + items.map(Item::count).sum::<usize>()
    }

    /// Its tests without those of conditions, in the order of the text.
    pub fn outer_tests(&self) -> Vec<&T> {
        let items = self.rest.iter().map(|(_, item)| item);
        [&self.first].into_iter().chain(items).flat_map(Item::outer_tests).collect()
    }

    /// Whether some test has a condition inside its path.
    pub fn has_condition(&self) -> bool {
        let mut items = self.rest.iter().map(|(_, item)| item);
        self.first.has_condition() || items.any(Item::has_condition)
    }

    /// The filter with each test turned into something else, or what the first one that cannot be turned gives. A test
    /// stands before those of its condition.
    pub fn try_map<U, E>(self, turn: &mut impl FnMut(T) -> Result<U, E>) -> Result<Filter<U>, E> {
        let first = self.first.try_map(turn)?;
        let mut rest = Vec::with_capacity(self.rest.len());
        for (join, item) in self.rest {
            rest.push((join, item.try_map(turn)?));
        }
        Ok(Filter { first, rest })
    }

    /// The filter's yes or no: those of its items joined from left to right, and and or equal in rank. A test's own is
    /// asked for with its condition.
    pub fn verdict(&self, of_test: &impl Fn(&T, Option<&Filter<T>>) -> bool) -> bool {
        let mut verdict = self.first.verdict(of_test);
        for (join, item) in &self.rest {
            let next = item.verdict(of_test);
            verdict = match join {
                Join::And => verdict && next,
                Join::Or => verdict || next,
            };
        }
        verdict
    }
}

impl<T> Item<T> {
    fn outer_tests(&self) -> Vec<&T> {
        match self {
            Item::Test(test, _) => vec![test],
            Item::Bracket(filter) | Item::Not(filter) => filter.outer_tests(),
        }
    }

    fn count(&self) -> usize {
        match self {
            Item::Test(_, condition) => 1 + condition.as_ref().map_or(0, |filter| filter.count()),
            Item::Bracket(filter) | Item::Not(filter) => filter.count(),
        }
    }

    fn has_condition(&self) -> bool {
        match self {
            Item::Test(_, condition) => condition.is_some(),
            Item::Bracket(filter) | Item::Not(filter) => filter.has_condition(),
        }
    }

    fn try_map<U, E>(self, turn: &mut impl FnMut(T) -> Result<U, E>) -> Result<Item<U>, E> {
        Ok(match self {
            Item::Test(test, condition) => {
                let test = turn(test)?;
                let condition = condition.map(|filter| filter.try_map(turn)).transpose()?;
                Item::Test(test, condition.map(Box::new))
            }
            Item::Bracket(filter) => Item::Bracket(Box::new(filter.try_map(turn)?)),
            Item::Not(filter) => Item::Not(Box::new(filter.try_map(turn)?)),
        })
    }

    fn verdict(&self, of_test: &impl Fn(&T, Option<&Filter<T>>) -> bool) -> bool {
        match self {
            Item::Test(test, condition) => of_test(test, condition.as_deref()),
            Item::Bracket(filter) => filter.verdict(of_test),
            Item::Not(filter) => !filter.verdict(of_test),
        }
    }
}

/// Reads a text as a filter; none if it is no filter by the grammar.
pub fn read(text: &[u8]) -> Option<Filter<Test>> {
    let mut reader = Reader { text, at: 0, bundles: Vec::new(), ends_close: false };
    let filter = reader.filter(DEEPEST, None)?;
    (filter.count() <= MOST_TESTS).then_some(filter)
}

/// The value that begins at a place of a text, whatever stands behind it; a bare word is as long as it can be.
pub fn value_at(text: &[u8], place: usize) -> Option<Vec<u8>> {
    let mut reader = Reader { text, at: place, bundles: Vec::new(), ends_close: false };
    (place <= text.len()).then(|| reader.value()).flatten()
}

/// Whether some filter, with brackets at most so deep and at most so many tests, is this text with nothing behind it but
/// what closes the brackets that are open at its end: round ones by ")", square ones by "]", a dot and a test.
pub fn closes(text: &[u8], depth: usize, tests: usize) -> bool {
    let mut reader = Reader { text, at: 0, bundles: Vec::new(), ends_close: true };
    let filter = reader.filter(depth, None);
    filter.is_some_and(|filter| filter.count() <= tests)
}

/// A text, how far it has been read, and the names before the square brackets that are open there.
struct Reader<'a> {
    text: &'a [u8],
    at: usize,
    bundles: Vec<Vec<u8>>,
    /// Whether the end of the text stands for all that closes the open brackets.
    ends_close: bool,
}

impl<'a> Reader<'a> {
    /// Items joined by and or or, up to the end or to this closing bracket; spaces may stand at either end. So what
    /// follows an item is a space, that bracket or the end.
    fn filter(&mut self, depth_left: usize, close: Option<u8>) -> Option<Filter<Test>> {
        self.spaces();
        let first = self.item(depth_left)?;
        let mut rest = Vec::new();
        loop {
            let before = self.spaces();
            if self.peek() == close || self.is_closed_by_end() {
                return Some(Filter { first, rest });
            }
            let join = match self.run(|byte| byte.is_ascii_lowercase()) {
                b"and" => Join::And,
                b"or" => Join::Or,
                _ => return None,
            };
            let behind = self.spaces();
            if before == 0 || behind == 0 {
                return None;
            }
            rest.push((join, self.item(depth_left)?));
        }
    }

    /// A test, a filter in round brackets, or not followed by a filter in round brackets.
    fn item(&mut self, depth_left: usize) -> Option<Item<Test>> {
        if self.peek() == Some(b'(') {
            return Some(Item::Bracket(self.bracket(depth_left, b'(', b')')?));
        }
        let place = self.at;
        let name = self.name();
        if name == b"not" {
            self.spaces();
            return Some(Item::Not(self.bracket(depth_left, b'(', b')')?));
        }
        match self.peek() {
            Some(b'[') => self.member_test(place, name, depth_left),
            _ => Some(Item::Test(self.test(place, name)?, None)),
        }
    }

    /// What follows a bundle's name: a condition in square brackets, a dot and a test. Both are of the bundle's members.
    fn member_test(&mut self, place: usize, bundle: &[u8], depth_left: usize) -> Option<Item<Test>> {
        if !is_name(bundle) {
            return None;
        }
        self.bundles.push(bundle.to_vec());
        let condition = self.bracket(depth_left, b'[', b']')?;
        let test = if self.is_closed_by_end() {
            Test { place, path: Vec::new(), operation: Operation::Eq, value: Vec::new(), value_place: self.at }
        } else {
            self.byte(b'.')?;
            let member = self.name();
            self.test(place, member)?
        };
        self.bundles.pop();
        Some(Item::Test(test, Some(condition)))
    }

    /// A filter in brackets.
    fn bracket(&mut self, depth_left: usize, open: u8, close: u8) -> Option<Box<Filter<Test>>> {
        let depth_left = depth_left.checked_sub(1)?;
        self.byte(open)?;
        let filter = self.filter(depth_left, Some(close))?;
        if !self.is_closed_by_end() {
            self.byte(close)?;
        }
        Some(Box::new(filter))
    }

    fn is_closed_by_end(&self) -> bool {
        self.ends_close && self.at == self.text.len()
    }

    /// What follows the name of a test: an operation word and a value, each behind at least one space.
    fn test(&mut self, place: usize, name: &[u8]) -> Option<Test> {
        if !is_name(name) || self.spaces() == 0 {
            return None;
        }
        let word = self.run(|byte| byte.is_ascii_lowercase());
        let &(_, operation) = OPERATIONS.iter().find(|(known, _)| *known == word)?;
        if self.spaces() == 0 {
            return None;
        }
        let value_place = self.at;
        let value = self.value()?;
        let mut path = self.bundles.clone();
        path.push(name.to_vec());
        Some(Test { place, path, operation, value, value_place })
    }

    /// A quoted string or a bare word.
    fn value(&mut self) -> Option<Vec<u8>> {
        match self.peek() {
            Some(b'"') => self.string(),
            _ => self.bare_word(),
        }
    }

    /// The bytes that a name may have, as far as they go.
    fn name(&mut self) -> &'a [u8] {
        self.run(|byte| byte == b'_' || byte == b'-' || byte.is_ascii_alphanumeric())
    }

    /// One or more bytes 0x21 to 0x7E without ")" and "]".
    fn bare_word(&mut self) -> Option<Vec<u8>> {
        let word = self.run(|byte| byte.is_ascii_graphic() && byte != b')' && byte != b']');
        (!word.is_empty()).then(|| word.to_vec())
    }

    /// A string in double quotes; the answer is what it holds.
    fn string(&mut self) -> Option<Vec<u8>> {
        self.byte(b'"')?;
        let mut held = Vec::new();
        loop {
            match self.next()? {
                b'"' => return Some(held),
                b'\\' => held.push(match self.next()? {
                    same @ (b'"' | b'\\' | b'/') => same,
                    b'b' => 0x08,
                    b'f' => 0x0C,
                    b'n' => 0x0A,
                    b'r' => 0x0D,
                    b't' => 0x09,
                    _ => return None,
                }),
                0x00..=0x1F => return None,
                byte => held.push(byte),
            }
        }
    }

    /// Passes over spaces and tells how many there were.
    fn spaces(&mut self) -> usize {
        self.run(|byte| byte == b' ').len()
    }

    /// Reads on while the bytes are of a sort.
    fn run(&mut self, is_of_sort: impl Fn(u8) -> bool) -> &'a [u8] {
        let rest = &self.text[self.at..];
        let length = rest.iter().take_while(|&&byte| is_of_sort(byte)).count();
        self.at += length;
        &rest[..length]
    }

    /// Reads this byte.
    fn byte(&mut self, wanted: u8) -> Option<()> {
        (self.next()? == wanted).then_some(())
    }

    fn next(&mut self) -> Option<u8> {
        let byte = self.peek()?;
        self.at += 1;
        Some(byte)
    }

    fn peek(&self) -> Option<u8> {
        self.text.get(self.at).copied()
    }
}

#[cfg(test)]
mod tests {
    use super::*;

    fn value(text: &str) -> Vec<u8> {
        match read(text.as_bytes()).unwrap().first {
            Item::Test(test, None) => test.value,
            _ => panic!("{text} is not a test without a condition"),
        }
    }

    #[test]
    fn filters() {
        for text in [
            "a eq b",
            "  a   eq   b  ",
            "(a eq b)",
            "( a eq b )",
            "((a eq b))",
            "not(a eq b)",
            "not (a eq b)",
            "not  ( not( a eq b ) )",
            "a eq b and c eq d or e eq f",
            "(a eq b) and (c eq d)",
            "a eq and and b eq or",
            "a eq not or (b eq \")\")",
            "android eq x",
            "not-x eq x",
            "NOT eq x",
            "And eq x",
            "_ eq x",
            "a eq (b",
            "a eq b\"c",
            "a eq \"\"",
            "(a eq \"b\")",
            "in in in",
            "a[b eq c].d eq e",
            "a[ b eq c ].d eq e",
            "a[b eq \"]\"].d eq e",
            "a[b eq \"c\"].d eq \"]\"",
            "a[(b eq c)].d eq e",
            "a[not (b eq c) and d eq e].f eq g",
            "(a[b eq c].d eq e)",
            "not (a[b eq c].d eq e) or f eq g",
            "a[b[c eq d].e eq f].g eq h",
            "not-x[b eq c].and- eq d",
        ] {
            assert!(read(text.as_bytes()).is_some(), "{text}");
        }
        for text in [
            "",
            "   ",
            "()",
            "( )",
            "a",
            "a eq",
            "a eq ",
            "a  b",
            "a EQ b",
            "a eqb c",
            "a eq b c",
            "a eq b and",
            "a eq b and ",
            "and a eq b",
            "a eq b AND c eq d",
            "a eq b andc eq d",
            "a eq \"b\"and c eq d",
            "(a eq b)and (c eq d)",
            "(a eq b) and(c eq d)",
            "(a eq b)(c eq d)",
            "not a eq b",
            "not eq b",
            "not not (a eq b)",
            "and eq b",
            "or eq b",
            "(a eq b",
            "a eq b)",
            "a eq b]",
            "a eq b] ",
            "a eq )",
            "a eq ]b",
            "a eq \"b",
            "a eq \"b\"c",
            "a eq \"\\u0041\"",
            "a eq \"\\x\"",
            "a eq \"\\\"",
            "a eq \"\n\"",
            "a\teq b",
            "a eq b\n",
            "a eq \u{7F}",
            "a eq \u{E4}",
            "a.b eq c",
            "1a eq b",
            "-a eq b",
            "a [b eq c].d eq e",
            "a[b eq c] .d eq e",
            "a[b eq c]. d eq e",
            "a[b eq c]d eq e",
            "a[b eq c] eq e",
            "a[b eq c]",
            "a[b eq c].",
            "a[b eq c].d",
            "a[b eq c.d eq e",
            "a[b eq c).d eq e",
            "a[(b eq c]).d eq e",
            "a[(b eq c].d eq e)",
            "(a[b eq c).d eq e]",
            "a[].d eq e",
            "a[b].d eq e",
            "a[b eq c]].d eq e",
            "a[[b eq c]].d eq e",
            "[b eq c].d eq e",
            "a[b eq c].d.e eq f",
            "a[b eq c].d[e eq f].g eq h",
            "not[b eq c].d eq e",
            "and[b eq c].d eq e",
            "a[b eq c].not eq e",
            "1a[b eq c].d eq e",
            "a[b eq c].1d eq e",
            "a[b eq c].d eq e]",
            "a[(b eq c] or d eq e)].f eq g",
            "a[b eq c].d eq eand f eq g",
        ] {
            assert!(read(text.as_bytes()).is_none(), "{text}");
        }
    }

    #[test]
    fn values() {
        assert_eq!(value("a eq b(\"\\c"), b"b(\"\\c");
        assert_eq!(value("a eq \"b c\""), b"b c");
        assert_eq!(value(r#"a eq "\"\\\/\b\f\n\r\t""#), b"\"\\/\x08\x0C\x0A\x0D\x09");
        assert_eq!(value("a eq \"\u{7F}\u{E4}]\""), "\u{7F}\u{E4}]".as_bytes());
    }

    /// The places and paths of the tests, in the order in which they are asked about.
    fn asked(text: &str) -> Vec<(usize, String)> {
        let mut asked = Vec::new();
        let noted: Result<_, ()> = read(text.as_bytes()).unwrap().try_map(&mut |test| {
            let path: Vec<_> = test.path.iter().map(|name| String::from_utf8_lossy(name)).collect();
            asked.push((test.place, path.join("/")));
            Ok(())
        });
        assert!(noted.is_ok());
        asked
    }

    #[test]
    fn places_and_paths() {
        assert_eq!(asked(" (aa eq b or c eq d)"), [(2, "aa".into()), (13, "c".into())]);
        let chosen = [(1, "b/m"), (4, "b/n"), (14, "b/c/k"), (16, "b/c/o"), (43, "d")];
        let chosen = chosen.map(|(place, path)| (place, path.to_string()));
        assert_eq!(asked("(b[ n eq 1 or c[o eq 1].k eq 2].m eq 3 and d eq 4)"), chosen);
    }

    #[test]
    fn limits() {
        let nested = |depth| format!("{}a eq b{}", "(".repeat(depth), ")".repeat(depth));
        assert!(read(nested(8).as_bytes()).is_some());
        assert!(read(nested(9).as_bytes()).is_none());
        let negated = |depth| format!("{}a eq b{}", "not (".repeat(depth), ")".repeat(depth));
        assert!(read(negated(8).as_bytes()).is_some());
        assert!(read(negated(9).as_bytes()).is_none());
        let tests = |count| vec!["a eq b"; count].join(" or ");
        assert_eq!(read(tests(32).as_bytes()).unwrap().count(), 32);
        assert!(read(tests(33).as_bytes()).is_none());

        let mixed = |before, inside| {
            let filter = format!("a[{}b eq c{}].d eq e", "(".repeat(inside), ")".repeat(inside));
            format!("{}{filter}{}", "(".repeat(before), ")".repeat(before))
        };
        for (before, inside) in [(0, 7), (3, 4), (7, 0)] {
            assert!(read(mixed(before, inside).as_bytes()).is_some());
            assert!(read(mixed(before, inside + 1).as_bytes()).is_none());
        }
        let square = |depth| format!("{}a eq b{}", "a[".repeat(depth), "].a eq b".repeat(depth));
        assert!(read(square(8).as_bytes()).is_some());
        assert!(read(square(9).as_bytes()).is_none());
        let inner = |count| format!("a[{}].b eq c or a eq b", tests(count));
        assert_eq!(read(inner(30).as_bytes()).unwrap().count(), 32);
        assert!(read(inner(31).as_bytes()).is_none());
    }

    #[test]
    fn from_left_to_right() {
        let says = |text: &str| {
            let filter = read(text.as_bytes()).unwrap();
            filter.verdict(&|test, _| test.value == b"yes")
        };
        assert!(!says("a eq yes or a eq no and a eq no"));
        assert!(says("a eq no and a eq no or a eq yes"));
        assert!(says("a eq yes or (a eq no and a eq no)"));
        assert!(!says("not (a eq yes) and a eq yes"));
        assert!(says("not (a eq yes and a eq no)"));
    }
}
