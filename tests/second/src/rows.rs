//! Rows: a filter in 32-bit cells, in the form that docs/RULES.md gives them, and which rows are good.

use crate::block::Sheet;
use crate::filter::{self, DEEPEST, Filter, Item, Join, MOST_TESTS, OPERATIONS, Operation, Test};
use crate::meaning::{self, Question};

const BRACKETS: u32 = 1;
const NOT: u32 = 2;
const AND: u32 = 3;
const OR: u32 = 4;

/// The rows of a filter on a sheet. A name that is not on the sheet stands as the parameter at 0.
pub fn write(filter: &Filter<Test>, sheet: &Sheet) -> Vec<u32> {
    let mut rows = Vec::new();
    write_filter(filter, sheet, &mut rows);
    rows
}

fn write_filter(filter: &Filter<Test>, sheet: &Sheet, rows: &mut Vec<u32>) {
    write_item(&filter.first, sheet, rows);
    for (join, item) in &filter.rest {
        let tag = if matches!(join, Join::And) { AND } else { OR };
        let place = rows.len();
        rows.push(tag);
        write_item(item, sheet, rows);
        rows[place] += 8 * size(rows.len() - place - 1);
    }
}

fn write_item(item: &Item<Test>, sheet: &Sheet, rows: &mut Vec<u32>) {
    match item {
        Item::Test(test, None) => rows.push(cell(test, sheet)),
        Item::Test(test, Some(condition)) => {
            let place = rows.len();
            rows.extend([BRACKETS, cell(test, sheet)]);
            write_filter(condition, sheet, rows);
            rows[place] += 8 * size(rows.len() - place - 2);
        }
        Item::Bracket(filter) => write_filter(filter, sheet, rows),
        Item::Not(filter) => {
            write_filter(filter, sheet, rows);
            rows.push(NOT);
        }
    }
}

fn size(rows: usize) -> u32 {
    u32::try_from(rows).expect("a part of a filter's rows")
}

/// Eight times the number of a test.
fn cell(test: &Test, sheet: &Sheet) -> u32 {
    let place = meaning::find(&test.path, sheet).unwrap_or(0);
    let operation = test.operation as usize;
    u32::try_from(8 * (place + 32 * (operation + 32 * test.value_place))).expect("a place in a filter")
}

/// What rows state: an expression over tests.
enum Stated {
    Test(Named),
    Chosen(Box<Stated>, Named),
    Joined(Join, Box<Stated>, Box<Stated>),
    Not(Box<Stated>),
}

/// A test by the place of its parameter on the sheet and that of its value in the text.
struct Named {
    place: usize,
    operation: Operation,
    value_place: usize,
}

/// The filter that the rows state on a text and a sheet, if they are good.
pub fn read(rows: &[u32], text: &[u8], sheet: &Sheet) -> Option<Filter<Question>> {
    let stated = whole(rows)?;
    let is_within = stated.as_filter() <= DEEPEST && stated.count() <= MOST_TESTS;
    is_within.then(|| stated.filter(None, text, sheet)).flatten()
}

/// The expression that the rows are, from left to right.
fn whole(rows: &[u32]) -> Option<Stated> {
    let (mut hand, mut rest) = first(rows)?;
    while let Some((&row, behind)) = rest.split_first() {
        (hand, rest) = match (row, row % 8) {
            (NOT, _) => (Stated::Not(Box::new(hand)), behind),
            (_, AND | OR) => {
                let join = if row % 8 == AND { Join::And } else { Join::Or };
                let (second, behind) = behind.split_at_checked(row as usize / 8)?;
                (Stated::Joined(join, Box::new(hand), Box::new(whole(second)?)), behind)
            }
            _ => return None,
        };
    }
    Some(hand)
}

/// The test that rows begin with, and the rows behind it and its brackets.
fn first(rows: &[u32]) -> Option<(Stated, &[u32])> {
    let (&row, behind) = rows.split_first()?;
    match row % 8 {
        0 => Some((Stated::Test(named(row / 8)?), behind)),
        BRACKETS => {
            let (&test, behind) = behind.split_first()?;
            let (condition, behind) = behind.split_at_checked(row as usize / 8)?;
            let named = (test % 8 == 0).then(|| named(test / 8)).flatten()?;
            Some((Stated::Chosen(Box::new(whole(condition)?), named), behind))
        }
        _ => None,
    }
}

fn named(number: u32) -> Option<Named> {
    let number = number as usize;
    let &(_, operation) = OPERATIONS.get(number / 32 % 32)?;
    Some(Named { place: number % 32, operation, value_place: number / 1024 })
}

impl Stated {
    fn count(&self) -> usize {
        match self {
            Stated::Test(_) => 1,
            Stated::Chosen(inner, _) => inner.count() + 1,
            Stated::Joined(_, left, right) => left.count() + right.count(),
            Stated::Not(inner) => inner.count(),
        }
    }

    /// How deep brackets nest in the shallowest text of it as a filter.
    fn as_filter(&self) -> usize {
        match self {
            Stated::Test(_) => 0,
            Stated::Chosen(inner, _) | Stated::Not(inner) => inner.as_filter() + 1,
            Stated::Joined(_, left, right) => left.as_filter().max(right.as_item()),
        }
    }

    /// The same as an item behind a joining word: a join needs a bracket there.
    fn as_item(&self) -> usize {
        self.as_filter() + usize::from(matches!(self, Stated::Joined(..)))
    }

    /// The filter over members of this bundle, or over parameters at the top, if each test fits there.
    fn filter(&self, bundle: Option<usize>, text: &[u8], sheet: &Sheet) -> Option<Filter<Question>> {
        let inner = |stated: &Stated, bundle| stated.filter(bundle, text, sheet).map(Box::new);
        let first = match self {
            Stated::Test(named) => {
                let fits = sheet.parameters.get(named.place)?.bundle == bundle;
                fits.then(|| named.question(text, sheet)).flatten().map(|question| Item::Test(question, None))?
            }
            Stated::Chosen(stated, named) => {
                let chosen = sheet.parameters.get(named.place)?.bundle?;
                let condition = inner(stated, Some(chosen))?;
                let question = bundle.is_none().then(|| named.question(text, sheet)).flatten()?;
                Item::Test(question, Some(condition))
            }
            Stated::Not(stated) => Item::Not(inner(stated, bundle)?),
            Stated::Joined(join, left, right) => {
                let rest = vec![(*join, Item::Bracket(inner(right, bundle)?))];
                return Some(Filter { first: Item::Bracket(inner(left, bundle)?), rest });
            }
        };
        Some(Filter { first, rest: Vec::new() })
    }
}

impl Named {
    /// What the test asks, if its parameter has the operation and its value is one, and readable.
    fn question(&self, text: &[u8], sheet: &Sheet) -> Option<Question> {
        let value = filter::value_at(text, self.value_place)?;
        meaning::question_at(self.place, self.operation, &value, sheet).ok()
    }
}

#[cfg(test)]
mod tests {
    use super::*;
    use crate::block::{Kind, Parameter};

    const TEXT: &[u8] = br#"a eq b and (not (c eq "d e") or a ne f)"#;

    fn sheet() -> Sheet {
        let parameter = |name: &str, kind, bundle| Parameter { kind, bundle, name: name.into() };
        let string = Some(Kind::String);
        let parameters = vec![
            parameter("a", string, None),
            parameter("c", string, None),
            parameter("r", None, None),
            parameter("m", string, Some(2)),
            parameter("n", Some(Kind::Date), Some(2)),
        ];
        Sheet { parameters }
    }

    /// The cell of a test by its three parts.
    fn test(place: u32, operation: Operation, value_place: u32) -> u32 {
        8 * (place + 32 * (operation as u32 + 32 * value_place))
    }

    fn is_good(rows: &[u32]) -> bool {
        read(rows, TEXT, &sheet()).is_some()
    }

    #[test]
    fn written() {
        let rows = write(&filter::read(TEXT).unwrap(), &sheet());
        let (a, c, f) = (test(0, Operation::Eq, 5), test(1, Operation::Eq, 22), test(0, Operation::Ne, 37));
        assert_eq!(rows, [a, 8 * 4 + AND, c, NOT, 8 + OR, f]);
        assert_eq!(rows[0], 5 * 8192);
        assert!(is_good(&rows));
    }

    #[test]
    fn good_rows() {
        let a = test(0, Operation::Eq, 5);
        let m = test(3, Operation::Eq, 5);
        let n = test(4, Operation::Pr, 5);
        let (and, or, one) = (8 + AND, 8 + OR, 8 + BRACKETS);
        for rows in
            [&[a][..], &[a, NOT], &[a, and, a], &[one, m, m], &[8 * 3 + BRACKETS, m, m, or, m, and, a], &[a + 32 * 8]]
        {
            assert!(is_good(rows), "{rows:?}");
        }
        for rows in [
            &[][..],
            &[NOT],
            &[5],
            &[a, a],
            &[a, and],
            &[and, a],
            &[a, and, a, a],
            &[a, 2 * 8 + AND, a],
            &[m],
            &[one, a, a],
            &[one, m, a],
            &[one, a, m],
            &[one, m],
            &[8 * 3 + BRACKETS, m, one, m, m],
            &[m, and, a],
            &[one, m, n],
            &[one, and, m],
            &[test(2, Operation::Pr, 5)],
            &[test(5, Operation::Eq, 5)],
            &[test(0, Operation::Gt, 5)],
            &[test(0, Operation::Ap, 5)],
            &[a + 8 * 32 * 19],
            &[test(0, Operation::Pr, 5)],
            &[test(0, Operation::Eq, TEXT.len() as u32)],
            &[test(0, Operation::Eq, 1)],
            &[test(0, Operation::Eq, TEXT.len() as u32 - 1)],
            &[u32::MAX],
        ] {
            assert!(!is_good(rows), "{rows:?}");
        }
        let deep = |depth| [&[a][..], &vec![NOT; depth]].concat();
        assert!(is_good(&deep(8)) && !is_good(&deep(9)));
        let many = |count: usize| [&[a][..], &[or, a].repeat(count - 1)].concat();
        assert!(is_good(&many(32)) && !is_good(&many(33)));
        let right =
            |count: u32| (0..count).rev().flat_map(|left| [8 * (2 * left + 1) + OR, a]).skip(1).collect::<Vec<_>>();
        assert!(is_good(&right(10)) && !is_good(&right(11)));
    }

    #[test]
    fn values_by_their_place() {
        let contents = |place| filter::value_at(br#"a "b"c d" \"#, place);
        assert_eq!(contents(2).unwrap(), b"b");
        assert_eq!(contents(4).unwrap(), b"c d");
        assert_eq!(contents(5).unwrap(), b"c");
        assert_eq!(contents(7).unwrap(), b"d\"");
        assert_eq!(contents(8), None);
        assert_eq!(contents(1), None);
        assert_eq!(contents(12), None);
        assert_eq!(contents(13), None);
    }
}
