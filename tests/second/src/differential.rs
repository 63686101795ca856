//! The differential test: a library under test beside the second implementation, on generated inputs.

use crate::block;
use crate::filter;
use crate::generate::{self, Case, Random};
use crate::operations::{self, Refusal, Tally};
use std::collections::BTreeMap;
use std::fmt::Debug;
use std::time::Duration;

/// The seed and the number of cases where none are named.
pub const SEED: u64 = 1974;
pub const CASES: u64 = 200_000;

/// Cells behind the list, and rows behind those that are lent, which must stay as they are.
const GUARD: usize = 4;

/// The row of answers of match where the filter has a condition inside a path.
pub const CONDITIONS: &str = "match with a condition";

/// Rows fill at most this many cells: each takes a byte of the text.
const MOST_CELLS: usize = 1024;

/// How many differences are printed in full.
const PRINTED: u64 = 3;

/// The row of answers of judge on rows that the case's own filter does not have.
pub const OTHER_ROWS: &str = "judge of other rows";

/// The row of answers of explain where some test is spared.
pub const SPARED: &str = "explain that spares";

/// The row of answers of match on a card with the same texts under the names that the filter uses.
pub const ALIKE: &str = "match of a card alike";

/// What can be tested: the operations, of which three go by a search string too, and two by the engine over the text.
pub trait Library {
    fn check(&self, sheet: &[u8], filter: &[u8]) -> Result<usize, Refusal>;
    fn matches(&self, sheet: &[u8], filter: &[u8], card: &[u8]) -> Result<bool, Refusal>;
    fn select(&self, sheet: &[u8], filter: &[u8], cards: &[u8], list: &mut [u32]) -> Result<usize, Refusal>;
    fn matches_by_text(&self, sheet: &[u8], filter: &[u8], card: &[u8]) -> Result<bool, Refusal>;
    fn select_by_text(&self, sheet: &[u8], filter: &[u8], cards: &[u8], list: &mut [u32]) -> Result<usize, Refusal>;
    fn explain(&self, sheet: &[u8], filter: &[u8], card: &[u8], cells: &mut [u8]) -> Result<bool, Refusal>;
    fn report(&self, sheet: &[u8], filter: &[u8], cards: &[u8], rows: &mut [Tally]) -> Result<(usize, usize), Refusal>;
    fn spell(&self, filter: &[u8], buffer: &mut [u8], from: usize) -> Result<usize, Refusal>;
    fn check_search(&self, sheet: &[u8], text: &[u8]) -> Result<usize, Refusal>;
    fn matches_search(&self, sheet: &[u8], text: &[u8], card: &[u8]) -> Result<bool, Refusal>;
    fn select_search(&self, sheet: &[u8], text: &[u8], cards: &[u8], list: &mut [u32]) -> Result<usize, Refusal>;
    fn prepare(&self, sheet: &[u8], filter: &[u8], list: &mut [u32]) -> Result<usize, Refusal>;
    fn judge(&self, sheet: &[u8], filter: &[u8], rows: &[u32], card: &[u8]) -> Result<bool, Refusal>;
}

/// What a run of the test found.
#[derive(Debug, Default)]
pub struct Outcome {
    /// How many cases agree in every answer, every cell, every row and every byte.
    pub passed: u64,
    /// How many do not.
    pub failed: u64,
    /// How often each operation gave each answer, by the second implementation.
    pub answers: BTreeMap<(&'static str, String), u64>,
    /// How many cases have a sheet or a card of the marked form.
    pub marked: u64,
    /// How many cases each mode made.
    pub modes: BTreeMap<&'static str, u64>,
}

impl Outcome {
    /// How many cases end in yes or no, of those in this row.
    pub fn verdicts(&self, row: &'static str) -> u64 {
        let count = |answer: &str| self.answers.get(&(row, answer.to_string()));
        ["yes", "no"].into_iter().filter_map(count).sum()
    }

    /// How many cases have a condition inside a path of their filter.
    pub fn conditions(&self) -> u64 {
        let answers = self.answers.iter().filter(|((row, _), _)| *row == CONDITIONS);
        answers.map(|(_, count)| count).sum()
    }

    /// Prints the counts; the last line is for the gate.
    pub fn print(&self, seed: u64, time: Duration) {
        let listed = |counts: Vec<String>| counts.join(", ");
        let modes = self.modes.iter().map(|(mode, count)| format!("{mode} {count}"));
        println!("cases: {}", listed(modes.collect()));
        let by_search = ["check by search", "match by search", "select by search"];
        let by_rows = ["prepare", "judge", OTHER_ROWS, ALIKE];
        let others = by_search.into_iter().chain(by_rows);
        for row in
            ["check", "match", CONDITIONS, "explain", SPARED, "select", "report", "spell"].into_iter().chain(others)
        {
            let answers = self.answers.iter().filter(|((of, _), _)| *of == row);
            let answers = answers.map(|((_, answer), count)| format!("{answer} {count}"));
            println!("{row}: {}", listed(answers.collect()));
        }
        let cases = self.passed + self.failed;
        println!("seed {seed}, {cases} cases in {:.1} s", time.as_secs_f64());
        println!("{} of them end in yes or no", self.verdicts("match"));
        println!("{} of them have bundles or occurrences in a block", self.marked);
        let (conditions, verdicts) = (self.conditions(), self.verdicts(CONDITIONS));
        println!("{conditions} of them have a condition inside a path, and {verdicts} of these end in yes or no");
        println!("{} passed, {} failed", self.passed, self.failed);
    }
}

/// Compares the library with the second implementation on this many cases and prints the first differences.
pub fn run(library: &impl Library, seed: u64, cases: u64) -> Outcome {
    let mut outcome = Outcome::default();
    for number in 0..cases {
        let (case, mode) = generate::case(seed, number);
        *outcome.modes.entry(mode).or_default() += 1;
        outcome.marked += u64::from(case.is_marked());
        let query = generate::query(seed, number, &case);
        let rows = generate::rows(seed, number, &case);
        let mut differences = compare(library, &case, &mut outcome.answers);
        differences.extend(compare_search(library, &case, &query, &mut outcome.answers));
        differences.extend(compare_explained(library, &case, &mut outcome.answers));
        differences.extend(compare_rows(library, &case, &rows, &mut outcome.answers));
        let mut random = Random::new(seed.wrapping_add(1), number);
        differences.extend(compare_alike(library, &case, &query, &rows, &mut random, &mut outcome.answers));
        if differences.is_empty() {
            outcome.passed += 1;
            continue;
        }
        outcome.failed += 1;
        if outcome.failed <= PRINTED {
            println!("seed {seed}, case {number} ({mode}):");
            differences.iter().for_each(|difference| println!("  {difference}"));
            println!("  search string: {:?}", String::from_utf8_lossy(&query));
            print_case(&case);
            println!("  rows to judge: {rows:?}");
        }
    }
    outcome
}

/// Runs each operation on both sides and tells where they differ.
fn compare(library: &impl Library, case: &Case, answers: &mut BTreeMap<(&'static str, String), u64>) -> Vec<String> {
    let Case { sheet, filter, card, cards, list, rows, buffer, from } = case;
    let mut differences = Vec::new();
    let mut note = |operation: &'static str, answer: String| {
        *answers.entry((operation, answer)).or_default() += 1;
    };

    let (ours, theirs) = (operations::check(sheet, filter), library.check(sheet, filter));
    note("check", told(ours, |_| "tests"));
    differences.extend(difference("check", ours, theirs));

    let (ours, theirs) = (operations::matches(sheet, filter, card), library.matches(sheet, filter, card));
    let answer = told(ours, |yes| if yes { "yes" } else { "no" });
    if case.has_condition() {
        note(CONDITIONS, answer.clone());
    }
    note("match", answer);
    differences.extend(difference("match", ours, theirs));
    differences.extend(difference("match by text", ours, library.matches_by_text(sheet, filter, card)));

    let lent = list.len();
    let mut our_list = list.clone();
    our_list.resize(lent + GUARD, 0);
    let (mut their_list, mut text_list) = (our_list.clone(), our_list.clone());
    let ours = operations::select(sheet, filter, cards, &mut our_list[..lent]);
    let theirs = library.select(sheet, filter, cards, &mut their_list[..lent]);
    let by_text = library.select_by_text(sheet, filter, cards, &mut text_list[..lent]);
    note("select", told(ours, |count| if count > 0 { "some cards" } else { "no cards" }));
    differences.extend(difference("select", ours, theirs));
    differences.extend(difference("select by text", ours, by_text));
    differences.extend(difference("list", &our_list, &their_list));
    differences.extend(difference("list by text", &our_list, &text_list));

    let lent = rows.len();
    let mut our_rows = rows.clone();
    our_rows.resize(lent + GUARD, Tally::default());
    let mut their_rows = our_rows.clone();
    let ours = operations::report(sheet, filter, cards, &mut our_rows[..lent]);
    let theirs = library.report(sheet, filter, cards, &mut their_rows[..lent]);
    note("report", told(ours, |counts| if counts == (0, 0) { "no cards" } else { "counts" }));
    differences.extend(difference("report", ours, theirs));
    differences.extend(difference("rows", our_rows, their_rows));

    let lent = buffer.len();
    let mut our_buffer = buffer.clone();
    our_buffer.resize(lent + GUARD, 0);
    let mut their_buffer = our_buffer.clone();
    let ours = operations::spell(filter, &mut our_buffer[..lent], *from);
    let theirs = library.spell(filter, &mut their_buffer[..lent], *from);
    note("spell", told(ours, |length| if length < filter.len() { "shorter" } else { "plain already" }));
    differences.extend(difference("spell", ours, theirs));
    differences.extend(difference("buffer", our_buffer, their_buffer));
    differences
}

/// The same of explain, into as many cells as there are tests, into one less, and into more.
fn compare_explained(
    library: &impl Library,
    case: &Case,
    answers: &mut BTreeMap<(&'static str, String), u64>,
) -> Vec<String> {
    let Case { sheet, filter, card, .. } = case;
    let mut differences = Vec::new();
    let mut note = |operation: &'static str, answer: String| {
        *answers.entry((operation, answer)).or_default() += 1;
    };

    let tests = filter::read(filter).map_or(0, |filter| filter.outer_tests().len());
    for lent in [tests.saturating_sub(1), tests, tests + 2] {
        let mut ours_marked = vec![GUARD as u8; lent + GUARD];
        let mut theirs_marked = ours_marked.clone();
        let ours = operations::explain(sheet, filter, card, &mut ours_marked[..lent]);
        let theirs = library.explain(sheet, filter, card, &mut theirs_marked[..lent]);
        let answer = told(ours, |yes| if yes { "yes" } else { "no" });
        if ours.is_ok() && ours_marked.contains(&0) {
            note(SPARED, answer.clone());
        }
        note("explain", answer);
        differences.extend(difference("explain", ours, theirs));
        differences.extend(difference("marks", ours_marked, theirs_marked));
    }
    differences
}

/// The same by a search string.
fn compare_search(
    library: &impl Library,
    case: &Case,
    query: &[u8],
    answers: &mut BTreeMap<(&'static str, String), u64>,
) -> Vec<String> {
    let Case { sheet, card, cards, list, .. } = case;
    let mut differences = Vec::new();
    let mut note = |operation: &'static str, answer: String| {
        *answers.entry((operation, answer)).or_default() += 1;
    };

    let (ours, theirs) = (operations::check_search(sheet, query), library.check_search(sheet, query));
    note("check by search", told(ours, |_| "alternatives"));
    differences.extend(difference("check by search", ours, theirs));

    let (ours, theirs) = (operations::matches_search(sheet, query, card), library.matches_search(sheet, query, card));
    note("match by search", told(ours, |yes| if yes { "yes" } else { "no" }));
    differences.extend(difference("match by search", ours, theirs));

    let lent = list.len();
    let mut our_list = list.clone();
    our_list.resize(lent + GUARD, 0);
    let mut their_list = our_list.clone();
    let ours = operations::select_search(sheet, query, cards, &mut our_list[..lent]);
    let theirs = library.select_search(sheet, query, cards, &mut their_list[..lent]);
    note("select by search", told(ours, |count| if count > 0 { "some cards" } else { "no cards" }));
    differences.extend(difference("select by search", ours, theirs));
    differences.extend(difference("list by search", our_list, their_list));
    differences
}

/// The same by rows.
fn compare_rows(
    library: &impl Library,
    case: &Case,
    rows: &[u32],
    answers: &mut BTreeMap<(&'static str, String), u64>,
) -> Vec<String> {
    let Case { sheet, filter, card, list, .. } = case;
    let mut differences = Vec::new();
    let mut note = |operation: &'static str, answer: String| {
        *answers.entry((operation, answer)).or_default() += 1;
    };

    let lent = list.len();
    let mut our_list = list.clone();
    our_list.resize(lent + GUARD, 0);
    let mut their_list = our_list.clone();
    let ours = operations::prepare(sheet, filter, &mut our_list[..lent]);
    let theirs = library.prepare(sheet, filter, &mut their_list[..lent]);
    note("prepare", told(ours, |_| "cells"));
    differences.extend(difference("prepare", ours, theirs));
    differences.extend(difference("prepared list", our_list, their_list));

    let mut prepared = [0; MOST_CELLS];
    if let Ok(cells) = library.prepare(sheet, filter, &mut prepared) {
        let cells = &prepared[..cells];
        let (ours, theirs) = (operations::matches(sheet, filter, card), library.judge(sheet, filter, cells, card));
        note("judge", told(ours, |yes| if yes { "yes" } else { "no" }));
        differences.extend(difference("judge of prepared rows", ours, theirs));
    }

    let (ours, theirs) = (operations::judge(sheet, filter, rows, card), library.judge(sheet, filter, rows, card));
    note(OTHER_ROWS, told(ours, |yes| if yes { "yes" } else { "no" }));
    differences.extend(difference("judge", ours, theirs));
    differences
}

/// Whether each side answers on a card alike as on the case's own: by the filter, with the explanation, by the rows and by the
/// search string.
fn compare_alike(
    library: &impl Library,
    case: &Case,
    query: &[u8],
    rows: &[u32],
    random: &mut Random,
    answers: &mut BTreeMap<(&'static str, String), u64>,
) -> Vec<String> {
    let Case { sheet, filter, card, .. } = case;
    let Ok(read) = block::read_sheet(sheet) else { return Vec::new() };
    let mut differences = Vec::new();

    if let Some(other) = generate::alike(random, &read, card, &generate::used_by_filter(filter, &read)) {
        let ours = |card: &[u8]| operations::matches(sheet, filter, card);
        let theirs = |card: &[u8]| library.matches(sheet, filter, card);
        let answer = told(ours(&other), |yes| if yes { "yes" } else { "no" });
        *answers.entry((ALIKE, answer)).or_default() += 1;
        differences.extend(unlike("match", ours, theirs, card, &other));

        let ours = |card: &[u8]| explained(|cells| operations::explain(sheet, filter, card, cells));
        let theirs = |card: &[u8]| explained(|cells| library.explain(sheet, filter, card, cells));
        differences.extend(unlike("explain", ours, theirs, card, &other));
    }
    if let Some(other) = generate::alike(random, &read, card, &generate::used_by_rows(rows, filter, &read)) {
        let ours = |card: &[u8]| operations::judge(sheet, filter, rows, card);
        let theirs = |card: &[u8]| library.judge(sheet, filter, rows, card);
        differences.extend(unlike("judge", ours, theirs, card, &other));
    }
    if let Some(other) = generate::alike(random, &read, card, &generate::used_by_query(query, &read)) {
        let ours = |card: &[u8]| operations::matches_search(sheet, query, card);
        let theirs = |card: &[u8]| library.matches_search(sheet, query, card);
        differences.extend(unlike("match by search", ours, theirs, card, &other));
    }
    differences
}

/// An explanation, with every cell.
fn explained(explain: impl Fn(&mut [u8]) -> Result<bool, Refusal>) -> (Result<bool, Refusal>, Vec<u8>) {
    let mut cells = vec![u8::MAX; filter::MOST_TESTS + GUARD];
    (explain(&mut cells), cells)
}

/// Where one side does not answer alike on two cards.
fn unlike<T: PartialEq + Debug>(
    operation: &str,
    ours: impl Fn(&[u8]) -> T,
    theirs: impl Fn(&[u8]) -> T,
    card: &[u8],
    other: &[u8],
) -> Vec<String> {
    let told = |side: &str, own: T, alike: T| {
        (own != alike).then(|| format!("{operation}, {side}: {own:?}, and {alike:?} on a card alike: {other:02x?}"))
    };
    let sides =
        [told("the library", theirs(card), theirs(other)), told("the second implementation", ours(card), ours(other))];
    sides.into_iter().flatten().collect()
}

fn told<T>(answer: Result<T, Refusal>, tell: impl Fn(T) -> &'static str) -> String {
    match answer {
        Ok(answer) => tell(answer).to_string(),
        Err(refusal) => format!("refused-{:02}", refusal.number),
    }
}

fn difference<T: PartialEq + Debug>(what: &str, ours: T, theirs: T) -> Option<String> {
    (ours != theirs).then(|| format!("{what}: {theirs:?}, and the second implementation {ours:?}"))
}

fn print_case(case: &Case) {
    println!("  filter as text: {:?}", String::from_utf8_lossy(&case.filter));
    println!("  list: {:?}", case.list);
    println!("  rows: {:?}", case.rows);
    println!("  buffer: {} bytes, from {}", case.buffer.len(), case.from);
    for (name, bytes) in
        [("sheet", &case.sheet), ("filter", &case.filter), ("card", &case.card), ("cards", &case.cards)]
    {
        let hex: String = bytes.iter().map(|byte| format!("{byte:02x}")).collect();
        println!("  {name}: {hex}");
    }
}
