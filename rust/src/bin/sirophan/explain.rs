//! `sirophan explain`: why a filter or a search string says yes or no of cards.

use crate::advice::{Question, Words};
use crate::arguments::Arguments;
use crate::asked::Asked;
use crate::block::{self, SIZE, Sort};
use crate::cards::{AtFault, RUN};
use crate::input::{self, Input};
use crate::json;
use crate::report::{self, Failure, Message, Output};
use crate::survey::Survey;
use crate::tally::{Counter, Tally};
use crate::text::{counted, spell};
use crate::values;
use crate::verdicts;
use sirophan::{Explained, Explanation, Mark, Refusal};
use std::slice;

/// How many values of a card are shown for a test.
const SHOWN: usize = 8;

/// Explains each card of the file that has the record number, or each that matches.
pub fn run(arguments: &Arguments) -> Result<(), Failure> {
    if arguments.record.is_some() == arguments.all {
        let needed = "explain needs --record and the number of the card's record, or --all for every card of the list.";
        return Err(Failure::Usage(needed.into()));
    }
    let words = if arguments.search { Words::Search } else { Words::Filter };
    let question = Question::read(arguments, words)?;
    let path = &arguments.paths[2];
    let cards = Input::open(path)?;
    question.check_sealed(arguments, Some(&cards))?;
    let survey = Survey::new(slice::from_ref(&question));
    let counter = survey.counter();
    let mut walk = Walk { question: &question, asked: &survey.asked, counter: &counter, arguments, told: Vec::new() };
    // held back until the last card, so that a file that is refused gives no part of an answer
    let tally = walk.pass(cards)?;
    let told = walk.told;
    if let (Some(record), true) = (arguments.record, told.is_empty()) {
        let none = format!("{}: no card has the record number {record}.", input::shown(path));
        return Err(Failure::refused(Message::error(none)));
    }
    let held = counter.sum(vec![tally]);
    let records: Vec<u32> = told.iter().map(|told| told.record).collect();
    let warnings = survey.doubts(&input::shown(path), &held, |record| records.contains(&record));
    show(arguments, told, &warnings)
}

/// A card as it is told.
struct Told {
    record: u32,
    lines: String,
    pairs: Vec<(&'static str, String)>,
}

/// Writes the cards; in JSON the warnings stand in the last of them.
fn show(arguments: &Arguments, told: Vec<Told>, warnings: &[Message]) -> Result<(), Failure> {
    let mut output = Output::new();
    let last = told.len().saturating_sub(1);
    if arguments.json && told.is_empty() {
        output.line(json::object(&[report::warnings(warnings)]))?;
    }
    if arguments.all && !arguments.json {
        output.line(format_args!("{} on the list", counted(told.len() as u64, "card")))?;
    }
    for (number, told) in told.into_iter().enumerate() {
        if arguments.json {
            let warnings = report::warnings(if number == last { warnings } else { &[] });
            output.line(json::object(&[told.pairs, vec![warnings]].concat()))?;
        } else {
            output.line(told.lines)?;
        }
    }
    output.flush()?;
    arguments.warn(warnings);
    Ok(())
}

/// A walk over the cards, which explains some.
struct Walk<'a> {
    question: &'a Question,
    asked: &'a [Asked],
    counter: &'a Counter<'a>,
    arguments: &'a Arguments,
    told: Vec<Told>,
}

impl Walk<'_> {
    /// Goes through the cards, and counts them.
    fn pass(&mut self, mut cards: Input) -> Result<Tally, Failure> {
        let mut tally = Tally::default();
        let mut run = vec![0; RUN * SIZE];
        for first in (0..).step_by(RUN) {
            let filled = cards.fill(&mut run)?;
            let whole = filled - filled % SIZE;
            for (card, index) in run[..whole].chunks(SIZE).zip(first..) {
                if Sort::of(card) == Sort::Card {
                    self.counter.count(&mut tally, index, card);
                }
                if self.is_wanted(index, card)? {
                    self.explain(index, card)?;
                }
            }
            if whole < filled {
                return Err(self.refused(Refusal { number: 20, place: 0 }, first, &run[whole..filled]));
            }
            if filled < run.len() {
                break;
            }
        }
        Ok(tally)
    }

    /// Whether a card is to be explained.
    fn is_wanted(&self, index: u64, card: &[u8]) -> Result<bool, Failure> {
        if let Some(record) = self.arguments.record {
            return Ok(Sort::of(card) == Sort::Card && block::record(card) == record);
        }
        let Question { words, sheet, text, .. } = self.question;
        words.matches(&sheet.block, text, card).map_err(|refusal| self.refused(refusal, index, card))
    }

    fn refused(&self, refusal: Refusal, index: u64, card: &[u8]) -> Failure {
        let name = input::shown(&self.arguments.paths[2]);
        Failure::refused(AtFault::new(refusal, index, card).tell(&name, &self.question.sheet))
    }

    /// Explains a card.
    fn explain(&mut self, index: u64, card: &[u8]) -> Result<(), Failure> {
        let record = block::record(card);
        let Question { words, sheet, text, .. } = self.question;
        let refused = |refusal| self.refused(refusal, index, card);
        let (matches, lines, rest) = match words {
            Words::Filter => {
                let explanation = sirophan::explain(&sheet.block, text, card).map_err(refused)?;
                let lines = [explanation.render(text), self.deciding(&explanation, card)].join("\n");
                (explanation.matches, lines.trim_end().to_string(), ("tests", self.tests_json(&explanation, card)))
            }
            Words::Search => {
                let matches = sirophan::matches_search(&sheet.block, text, card).map_err(refused)?;
                let verdicts = verdicts::of_card(self.question, self.asked, card);
                (matches, verdicts::lines(&verdicts), ("verdicts", verdicts::json(&verdicts)))
            }
        };
        let answer = if matches { "yes" } else { "no" };
        let lines = format!("card {index}, record {record}: {answer}\n{lines}");
        let head = [("card", index.to_string()), ("record", record.to_string()), ("matches", matches.to_string())];
        self.told.push(Told { record, lines, pairs: head.into_iter().chain([rest]).collect() });
        Ok(())
    }

    /// The deciding tests, each with the values that it went by.
    fn deciding(&self, explanation: &Explanation, card: &[u8]) -> String {
        let outer = self.asked.iter().filter(|asked| !asked.is_inside());
        let rows = outer.zip(&explanation.tests).filter_map(|(asked, Explained { mark, .. })| {
            let says = says(*mark)?;
            Some((asked.shown.clone(), told(self.question, asked, says, card)))
        });
        columns(&rows.collect::<Vec<(String, String)>>())
    }

    /// All tests as JSON, those that decide with the values that they went by.
    fn tests_json(&self, explanation: &Explanation, card: &[u8]) -> String {
        let outer = self.asked.iter().filter(|asked| !asked.is_inside());
        let tests = outer.zip(&explanation.tests).map(|(asked, Explained { place, mark })| {
            let says = says(*mark);
            let word = says.map_or("spared", |says| if says { "yes" } else { "no" });
            let values = says.map(|says| ("values", values_json(&went_by(self.question, asked, says, card))));
            let pairs = [
                ("place", place.start.to_string()),
                ("test", json::bytes(&self.question.text[place.clone()])),
                ("mark", json::string(word)),
            ];
            json::object(&pairs.into_iter().chain(values).collect::<Vec<(&str, String)>>())
        });
        json::array(&tests.collect::<Vec<String>>())
    }
}

/// What a test that decides says.
fn says(mark: Mark) -> Option<bool> {
    match mark {
        Mark::Spared => None,
        Mark::Yes => Some(true),
        Mark::No => Some(false),
    }
}

/// Values as JSON; an empty list where there are none.
pub fn values_json(values: &[Vec<u8>]) -> String {
    json::array(&values.iter().map(|value| json::bytes(value)).collect::<Vec<String>>())
}

/// Texts and what is said of each, in two columns.
pub fn columns(rows: &[(String, String)]) -> String {
    let width = rows.iter().map(|(text, _)| text.chars().count()).max().unwrap_or(0);
    rows.iter().map(|(text, said)| format!("  {text:width$}   {said}")).collect::<Vec<String>>().join("\n")
}

/// The values of a card that a test goes by: those that make it yes, or all that do not.
pub fn went_by(question: &Question, asked: &Asked, says: bool, card: &[u8]) -> Vec<Vec<u8>> {
    let there = asked.with("pr", b"true");
    let set = || values::that_meet(&question.sheet, asked, Words::Filter, &there, card);
    let met = values::that_meet(&question.sheet, asked, asked.words, &asked.alone, card);
    // Whether there is a value says no value by itself.
    if says && !met.is_empty() && asked.operator != "pr" { met } else { set() }
}

/// What a test says of a card, with the values that it goes by.
pub fn told(question: &Question, asked: &Asked, says: bool, card: &[u8]) -> String {
    let answer = if says { "yes" } else { "no" };
    let path = question.sheet.path(asked.place, 0);
    match &went_by(question, asked, says, card)[..] {
        [] if asked.has_condition() && !values::under(card, asked.place).is_empty() => {
            format!("{answer}: no {path} on this card meets the condition")
        }
        [] => format!("{answer}: no {path} on this card"),
        values => {
            let more = values.len().saturating_sub(SHOWN);
            let more = if more > 0 { format!(" and {more} more") } else { String::new() };
            let values: Vec<String> = values.iter().take(SHOWN).map(|value| spell(value)).collect();
            format!("{answer}: {}{more}", values.join(", "))
        }
    }
}
