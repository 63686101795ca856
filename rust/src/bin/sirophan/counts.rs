//! `sirophan report`: how many cards say yes to a filter and how many no, and what the cards have under each field.

use crate::advice::{Question, Words};
use crate::arguments::Arguments;
use crate::block::SIZE;
use crate::cards::{AtFault, RUN};
use crate::input::{Input, shown};
use crate::json;
use crate::kind;
use crate::report::{self, Failure, Message, Output};
use crate::sheet::Sheet;
use crate::survey::Survey;
use crate::table;
use crate::text::{counted, grouped};
use crate::zero;
use sirophan::Tally;
use std::slice;

/// What was counted so far.
struct Sum {
    yes: u64,
    no: u64,
    /// For each field how many cards have it, and how many values stand under it.
    rows: Vec<(u64, u64)>,
}

impl Sum {
    fn new(sheet: &Sheet) -> Sum {
        Sum { yes: 0, no: 0, rows: vec![(0, 0); sheet.parameters.len()] }
    }

    fn add(&mut self, other: Sum) {
        self.yes += other.yes;
        self.no += other.no;
        for (row, more) in self.rows.iter_mut().zip(other.rows) {
            *row = (row.0 + more.0, row.1 + more.1);
        }
    }
}

/// Reports on all cards, run by run, and answers with the sums.
pub fn run(arguments: &Arguments) -> Result<(), Failure> {
    let question = Question::read(arguments, Words::Filter)?;
    let path = &arguments.paths[2];
    let cards = Input::open(path)?;
    question.check_sealed(arguments, Some(&cards))?;
    let survey = Survey::new(slice::from_ref(&question));
    // The table has all fields, and so all of them are doubted.
    let counter = survey.counter_of_all();

    let mut sum = Sum::new(&question.sheet);
    let ask = |first, piece: &[u8]| count_piece(&question, first, piece);
    let held = counter.pass(cards, ask, |more, _| {
        sum.add(more);
        Ok(())
    })?;
    let mut warnings = survey.doubts_of_all(&shown(path), &held);
    warnings.extend(zero::told(&question, &survey.asked, path, &held, sum.yes));
    if arguments.json {
        return show_json(&question.sheet, &sum, &warnings);
    }
    show(&question.sheet, &sum)?;
    arguments.warn(&warnings);
    Ok(())
}

/// What the library reports on the runs of a piece before the first that is refused, and what is refused.
fn count_piece(question: &Question, first: u64, piece: &[u8]) -> (Sum, Option<AtFault>) {
    let mut sum = Sum::new(&question.sheet);
    let mut rows = vec![Tally::default(); sum.rows.len()];
    for (index, run) in piece.chunks(RUN * SIZE).enumerate() {
        let counts = match sirophan::report(&question.sheet.block, &question.text, run, &mut rows) {
            Ok(counts) => counts,
            Err(refusal) => return (sum, Some(AtFault::new(refusal, first + (index * RUN) as u64, run))),
        };
        let rows = rows.iter().map(|row| (row.cards.into(), row.values.into())).collect();
        sum.add(Sum { yes: counts.yes as u64, no: counts.no as u64, rows });
    }
    (sum, None)
}

/// The counts on a line, and a table of the fields below it.
fn show(sheet: &Sheet, sum: &Sum) -> Result<(), Failure> {
    let mut output = Output::new();
    let [yes, no] = [sum.yes, sum.no].map(grouped);
    output.line(format_args!("{}: yes {yes}, no {no}", counted(sum.yes + sum.no, "card")))?;
    let head = ["field", "kind", "cards", "values"].map(String::from);
    let rows = sum.rows.iter().enumerate().map(|(place, &(cards, values))| {
        let kind = kind::word_of(sheet.parameters[place].kind);
        [sheet.path(place, 0), kind, grouped(cards), grouped(values)]
    });
    let rows: Vec<[String; 4]> = [head].into_iter().chain(rows).collect();
    table::lines(&rows).iter().try_for_each(|line| output.line(line))?;
    output.flush()
}

/// The same as JSON.
fn show_json(sheet: &Sheet, sum: &Sum, warnings: &[Message]) -> Result<(), Failure> {
    let object = |(place, &(cards, values)): (usize, &(u64, u64))| {
        json::object(&[
            ("field", json::string(&sheet.path(place, 0))),
            ("kind", json::string(&kind::word_of(sheet.parameters[place].kind))),
            ("cards", cards.to_string()),
            ("values", values.to_string()),
        ])
    };
    let fields: Vec<String> = sum.rows.iter().enumerate().map(object).collect();
    let mut output = Output::new();
    output.line(json::object(&[
        ("yes", sum.yes.to_string()),
        ("no", sum.no.to_string()),
        ("fields", json::array(&fields)),
        report::warnings(warnings),
    ]))?;
    output.flush()
}
