//! `sirophan check`: whether a filter or a search string has a meaning on every card that fits a sheet.

use crate::advice::{Question, Words};
use crate::arguments::Arguments;
use crate::asked::Asked;
use crate::cards::Fit;
use crate::input::Input;
use crate::json;
use crate::kind;
use crate::report::{self, Failure, Message, Output};
use crate::survey::Survey;
use crate::table;
use crate::text::{counted, printable, spell};
use std::slice;

/// Checks, and answers with the number of tests or alternatives and a row for each.
pub fn run(arguments: &Arguments) -> Result<(), Failure> {
    let words = if arguments.search { Words::Search } else { Words::Filter };
    let question = Question::read(arguments, words)?;
    let cards = arguments.paths.get(2).map(|path| Input::open(path)).transpose()?;
    let count = question.check_sealed(arguments, cards.as_ref())?;
    let survey = Survey::new(slice::from_ref(&question));
    let warnings = match cards {
        Some(cards) => doubts_with_cards(&question, &survey, cards)?,
        None => survey.doubts_of_text(),
    };
    let (one, many) = if arguments.search { ("alternative", "alternatives") } else { ("test", "tests") };
    let tests: Vec<Told> = survey.asked.iter().map(|asked| Told::new(&question, asked)).collect();
    let mut output = Output::new();
    if arguments.json {
        let tests: Vec<String> = tests.iter().map(Told::json).collect();
        let pairs = [("count", count.to_string()), (many, json::array(&tests)), report::warnings(&warnings)];
        output.line(json::object(&pairs))?;
    } else {
        output.line(counted(count as u64, one))?;
        let rows: Vec<[String; 4]> = tests.into_iter().map(Told::row).collect();
        table::lines(&rows).iter().try_for_each(|line| output.line(line))?;
    }
    output.flush()?;
    arguments.warn(&warnings);
    Ok(())
}

/// The doubts that cards give too.
fn doubts_with_cards(question: &Question, survey: &Survey, cards: Input) -> Result<Vec<Message>, Failure> {
    let name = cards.name.clone();
    let fit = Fit { sheet: &question.sheet, asked: Some((question.words, question.text.clone())) };
    let held = survey.counter().pass(cards, |first, piece| fit.select_piece(first, piece), |_, _| Ok(()))?;
    Ok(survey.doubts(&name, &held, |_| false))
}

/// A test as it is told.
struct Told {
    field: String,
    kind: String,
    operator: String,
    /// The value as the text has it, and what it stands for.
    written: String,
    value: Vec<u8>,
}

impl Told {
    fn new(question: &Question, asked: &Asked) -> Told {
        Told {
            field: question.sheet.path(asked.place, 0),
            kind: kind::word_of(question.sheet.parameters[asked.place].kind),
            operator: asked.operator.clone(),
            written: if asked.words == Words::Search { spell(&asked.value) } else { printable(&asked.written) },
            value: asked.value.clone(),
        }
    }

    /// For people: the value as it was written.
    fn row(self) -> [String; 4] {
        [self.field, self.kind, self.operator, self.written]
    }

    /// For programs: the value without quotes and escapes.
    fn json(&self) -> String {
        json::object(&[
            ("field", json::string(&self.field)),
            ("kind", json::string(&self.kind)),
            ("operator", json::string(&self.operator)),
            ("value", json::bytes(&self.value)),
        ])
    }
}
