//! What a question's cards are counted for, and what is doubted of the question and of them: by every command alike.

use crate::advice::Question;
use crate::asked::{self, Asked};
use crate::doubt;
use crate::field_doubt;
use crate::report::Message;
use crate::sheet::Sheet;
use crate::tally::{Counter, Held};
use crate::zero;
use std::collections::HashSet;

/// Questions about the same cards, all to be met, with what they ask, one by one.
pub struct Survey<'a> {
    pub questions: &'a [Question],
    pub asked: Vec<Asked>,
}

impl<'a> Survey<'a> {
    /// Of one question or several; there is at least one, and all have the same sheet.
    pub fn new(questions: &'a [Question]) -> Survey<'a> {
        Survey { questions, asked: questions.iter().flat_map(asked::all).collect() }
    }

    fn sheet(&self) -> &'a Sheet {
        &self.questions[0].sheet
    }

    /// A counter of what the cards have under the fields that are asked.
    pub fn counter(&self) -> Counter<'a> {
        Counter::new(self.sheet(), doubt::places(&self.asked), &self.watched())
    }

    /// The same, for where a list has to come quickly.
    pub fn quick_counter(&self) -> Counter<'a> {
        self.counter().quick()
    }

    /// A counter of all fields.
    pub fn counter_of_all(&self) -> Counter<'a> {
        Counter::new(self.sheet(), 0..self.sheet().parameters.len(), &self.watched())
    }

    /// The values that the cards are watched for.
    fn watched(&self) -> Vec<(usize, Vec<u8>)> {
        self.doubtful().iter().map(doubt::Doubtful::watched).collect()
    }

    /// All that is warned of beside a list from cards that have a name, and may be gone through once more at a path.
    pub fn warnings(&self, cards: &str, path: &str, held: &Held, listed: &[u32]) -> Vec<Message> {
        // Most archives have no record number twice, and then none is looked for.
        let numbers: HashSet<u32> =
            if held.repeated.is_empty() { HashSet::new() } else { listed.iter().copied().collect() };
        let mut warnings = self.doubts(cards, held, |record| numbers.contains(&record));
        warnings.extend(zero::told(&self.questions[0], &self.asked, path, held, listed.len() as u64));
        warnings
    }

    /// The doubts with cards, of which those matter that bear certain record numbers.
    pub fn doubts(&self, cards: &str, held: &Held, matters: impl Fn(u32) -> bool) -> Vec<Message> {
        self.doubts_of(doubt::places(&self.asked), cards, held, matters)
    }

    /// The same of all fields, and of all record numbers.
    pub fn doubts_of_all(&self, cards: &str, held: &Held) -> Vec<Message> {
        self.doubts_of((0..held.fields.len()).collect(), cards, held, |_| true)
    }

    fn doubts_of(&self, places: Vec<usize>, cards: &str, held: &Held, matters: impl Fn(u32) -> bool) -> Vec<Message> {
        let sheet = self.sheet();
        let values = self.doubtful();
        let values = values.iter().zip(&held.seen).filter_map(|(value, seen)| {
            let field = &held.fields[value.watched().0];
            value.told(sheet, Some((field, *seen)))
        });
        let mut doubts = self.doubts_of_texts();
        doubts.extend(field_doubt::of_cards(cards, held, matters));
        doubts.extend(field_doubt::of_fields(sheet, held, places));
        doubts.extend(values);
        doubts
    }

    /// The doubts without cards: a name is told where no value under it is.
    pub fn doubts_of_text(&self) -> Vec<Message> {
        let sheet = self.sheet();
        let told = self.doubtful().iter().filter_map(|value| value.told(sheet, None)).collect::<Vec<Message>>();
        let told_of: Vec<usize> = self.doubtful().iter().map(|value| value.watched().0).collect();
        let names = doubt::places(&self.asked).into_iter().filter(|place| !told_of.contains(place));
        let names = doubt::of_names(sheet, names);
        self.doubts_of_texts().into_iter().chain(told).chain(names).collect()
    }

    fn doubts_of_texts(&self) -> Vec<Message> {
        self.questions.iter().flat_map(doubt::of_text).collect()
    }

    fn doubtful(&self) -> Vec<doubt::Doubtful<'_>> {
        doubt::doubtful(self.sheet(), &self.asked)
    }
}
