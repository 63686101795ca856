//! What is not on a list and might be, asked of the library: the filter with a test that asks for less, or with the tests of a field
//! that ask whether it is missing.

use crate::advice::{Question, Words};
use crate::asked::Asked;
use crate::block::{self, SIZE};
use crate::doubt;
use crate::filter::Filter;
use crate::kind;
use crate::matching;
use crate::reason;
use crate::text::spell;

/// What asks whether a field is missing, in the place of an operator and a value.
const MISSING: &[u8] = b"pr false";

/// Cards of one sort that might be on the list.
pub struct MightBe {
    /// Which cards they are, in words.
    pub told: String,
    /// The field that they lack, if it is that.
    lacks: Option<usize>,
    /// The filter that finds them, beside what is on the list; none where it would be too long.
    filter: Option<Vec<u8>>,
}

/// The sorts that a question has: values less precise than what is asked, and cards without a field.
pub fn of(question: &Question, asked: &[Asked]) -> Vec<MightBe> {
    let (sheet, text) = (&question.sheet, &question.text);
    let tests = Filter::read(text).map_or_else(Vec::new, |filter| filter.tests);
    let accepted = |filter: &Vec<u8>| Words::Filter.check(&sheet.block, filter).is_ok();
    let imprecise = asked.iter().zip(&tests).filter_map(|(asked, test)| {
        let kind = kind::by_number(sheet.parameters[asked.place].kind)?.word;
        let operator = reason::overlap(kind, &asked.operator)?;
        let filter = [&text[..test.operator.start], operator.as_bytes(), &text[test.operator.end..]].concat();
        let value = spell(&asked.value);
        let told = match kind {
            "number" => format!("with a number that is less precise than `{}` asks for", asked.shown),
            kind => {
                format!("with a {kind} that overlaps {value}, and is too imprecise or too long for `{}`", asked.shown)
            }
        };
        Some(MightBe { told, lacks: None, filter: Some(filter).filter(accepted) })
    });
    let without = doubt::places(asked).into_iter().filter_map(|place| {
        let mut filter = text.clone();
        let is_meant = |asked: &Asked| asked.place == place && asked.operator != "pr";
        let meant: Vec<_> = asked.iter().zip(&tests).filter(|(asked, _)| is_meant(asked)).collect();
        for (_, test) in meant.iter().rev() {
            filter.splice(test.operator.start..test.value.end, MISSING.iter().copied());
        }
        let told = format!("without {}, that match in all else", sheet.path(place, 0));
        (!meant.is_empty()).then(|| MightBe { told, lacks: Some(place), filter: Some(filter).filter(accepted) })
    });
    imprecise.chain(without).collect()
}

impl MightBe {
    /// How many cards of a run are of this sort, beside those on the list; none where it is not known.
    pub fn count(&self, question: &Question, run: &[u8], on_list: u128) -> Option<u64> {
        let (sheet, filter) = (&question.sheet.block, self.filter.as_ref()?);
        let Some(place) = self.lacks else {
            let found = matching::in_run(Words::Filter, sheet, filter, run).ok()?;
            return Some(u64::from((found & !on_list).count_ones()));
        };
        // Few cards lack a field, and only they are asked.
        let lacks = |card: &&[u8; SIZE]| block::items(*card).all(|item| usize::from(item.byte) != place);
        let lacking: Vec<u8> = matching::cards(run, !on_list).filter(lacks).flatten().copied().collect();
        if lacking.is_empty() {
            return Some(0);
        }
        Words::Filter.select(sheet, filter, &lacking, &mut [0; crate::cards::RUN]).ok().map(|count| count as u64)
    }
}
