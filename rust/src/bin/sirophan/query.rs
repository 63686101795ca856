//! `sirophan query`: the record numbers of the cards that match a query as a registry sends it, filters and pairs together.

use crate::advice::{self, Question};
use crate::arguments::Arguments;
use crate::block::SIZE;
use crate::cards::{AtFault, RUN};
use crate::fhir::Bundle;
use crate::input::{self, Input, shown};
use crate::pick::{Found, List};
use crate::report::{Concern, Failure, Message};
use crate::seal;
use crate::sheet::Sheet;
use crate::survey::Survey;
use sirophan::query::{self, Query, QueryRefusal};

/// Reads the query, and answers as lines, or in the form that the command line or the query asks for.
pub fn run(arguments: &Arguments) -> Result<(), Failure> {
    if arguments.json && arguments.fhir {
        return Err(Failure::Usage("--json and --fhir are two forms of an answer. Give one of them.".into()));
    }
    let sheet = Sheet::read(input::read(&arguments.paths[0])?);
    let (text_name, text) = arguments.text(1)?;
    let query = Query::read(&sheet.block, &text);
    let is_fhir = arguments.fhir || (query.is_for_json() && !arguments.json);
    let asked = Asked::new(arguments, &sheet, &text_name, query);
    list(&asked, arguments, is_fhir).map_err(|failure| if is_fhir { failure.told_as_fhir() } else { failure })
}

/// A query with its parts as questions, each by what messages call it.
struct Asked {
    query: Query,
    questions: Vec<Question>,
}

impl Asked {
    fn new(arguments: &Arguments, sheet: &Sheet, text_name: &str, query: Query) -> Asked {
        let question = |part: &query::Part| Question {
            sheet_name: shown(&arguments.paths[0]),
            text_name: format!("{text_name}, {}", part.name()),
            sheet: sheet.clone(),
            words: part.words,
            text: part.text.clone(),
        };
        let questions = query.parts().iter().map(question).collect();
        Asked { query, questions }
    }

    /// Nothing, where each part has a meaning, and the sheet and the cards are what the seals beside them say.
    fn check_sealed(&self, arguments: &Arguments, cards: &Input) -> Result<(), Failure> {
        let Question { sheet_name, sheet, .. } = &self.questions[0];
        advice::require_sound(sheet_name, sheet)?;
        seal::hold(&arguments.paths[0], &sheet.block, Some(cards))?;
        self.query.check().map(|_| ()).map_err(|refused| Failure::refused(self.tell(&refused)))
    }

    /// A refusal as it is told of its part.
    fn tell(&self, refused: &QueryRefusal) -> Message {
        let place = self.query.parts().iter().position(|part| Some(part) == refused.part.as_ref());
        let mut message = self.questions[place.unwrap_or(0)].tell(refused.refusal);
        if let Some(part) = &refused.part {
            let parameter = part.parameter(refused.refusal);
            let name = parameter.as_deref().unwrap_or_default();
            let understood = query::understood(name).filter(|_| refused.refusal.number == 14);
            let name = String::from_utf8_lossy(name).into_owned();
            message
                .help
                .extend(understood.map(|value| format!("A query takes `{name}={value}`, and no other {name}.")));
            message.concern = Some(Concern { part: part.name(), parameter: parameter.map(|_| name) });
        }
        message
    }

    /// Selects from a piece: the record numbers found in the runs before the first that is refused, and what is refused.
    fn select_piece(&self, first: u64, piece: &[u8]) -> (Found, Option<AtFault>) {
        let mut found = Vec::new();
        for (run, first) in piece.chunks(RUN * SIZE).zip((first..).step_by(RUN)) {
            match self.query.select(run) {
                Ok(list) => found.extend(list),
                Err(refused) => return ((found, Vec::new()), Some(AtFault::new(refused.refusal, first, run))),
            }
        }
        ((found, Vec::new()), None)
    }
}

/// Selects from all cards, and writes the list when the last has passed.
fn list(asked: &Asked, arguments: &Arguments, is_fhir: bool) -> Result<(), Failure> {
    let path = &arguments.paths[2];
    let cards = Input::open(path)?;
    asked.check_sealed(arguments, &cards)?;
    let survey = Survey::new(&asked.questions);
    let mut list = List::new(arguments, !asked.query.is_for_count());
    let select = |first, piece: &[u8]| asked.select_piece(first, piece);
    let held = survey.quick_counter().pass(cards, select, |found, count| list.add(found, count))?;
    let warnings = survey.warnings(&shown(path), path, &held, &list.listed);
    if !is_fhir {
        return list.end(&warnings);
    }
    let records = if asked.query.is_for_count() { &[][..] } else { &list.listed };
    let total = list.listed.len() as u64;
    Bundle { total, query: &asked.query.plain(), records, warnings: &warnings }.write(&mut list.output)
}
