//! The verdicts of the library on a search string's pairs and alternatives, each asked by itself. It has no marks for
//! search strings, so that these are no deciding tests.

use crate::advice::Question;
use crate::asked::Asked;
use crate::explain;
use crate::json;
use crate::search;
use crate::text::printable;

/// What is said of a pair or an alternative.
struct Verdict {
    text: Vec<u8>,
    says: bool,
    /// Its answer with the values that it goes by, and these, where it is an alternative.
    told: String,
    values: Option<Vec<Vec<u8>>>,
}

/// A pair with its alternatives.
pub struct PairVerdict {
    pair: Verdict,
    alternatives: Vec<Verdict>,
}

/// The verdicts on a card.
pub fn of_card(question: &Question, asked: &[Asked], card: &[u8]) -> Vec<PairVerdict> {
    let says = |text: &[u8]| sirophan::matches_search(&question.sheet.block, text, card).unwrap_or(false);
    let mut asked = asked.iter();
    let pairs = search::read(&question.text).unwrap_or_default();
    let pairs = pairs.iter().map(|pair| {
        let text = question.text[pair.whole.clone()].to_vec();
        let alternatives = asked.by_ref().take(pair.alternatives.len()).map(|asked| {
            let says = says(&asked.alone);
            let values = Some(explain::went_by(question, asked, says, card));
            Verdict { text: asked.alone.clone(), says, told: explain::told(question, asked, says, card), values }
        });
        let alternatives: Vec<Verdict> = alternatives.collect();
        let says = says(&text);
        let told = if says { "yes" } else { "no" }.to_string();
        PairVerdict { pair: Verdict { text, says, told, values: None }, alternatives }
    });
    pairs.collect()
}

/// The verdicts for people. A pair with one alternative is that alternative.
pub fn lines(verdicts: &[PairVerdict]) -> String {
    let row = |verdict: &Verdict, inset: &str| (format!("{inset}{}", printable(&verdict.text)), verdict.told.clone());
    let rows = verdicts.iter().flat_map(|PairVerdict { pair, alternatives }| match &alternatives[..] {
        [alone] => vec![row(alone, "")],
        several => {
            [row(pair, "")].into_iter().chain(several.iter().map(|alternative| row(alternative, "  "))).collect()
        }
    });
    format!("verdicts on each by itself:\n{}", explain::columns(&rows.collect::<Vec<(String, String)>>()))
}

/// The same as JSON.
pub fn json(verdicts: &[PairVerdict]) -> String {
    let object = |name: &'static str, verdict: &Verdict, rest: Option<String>| {
        let pairs = [(name, json::bytes(&verdict.text)), ("says", verdict.says.to_string())];
        let values = verdict.values.as_ref().map(|values| ("values", explain::values_json(values)));
        let rest = rest.map(|rest| ("alternatives", rest));
        json::object(&pairs.into_iter().chain(values).chain(rest).collect::<Vec<(&str, String)>>())
    };
    let pair = |verdict: &PairVerdict| {
        let alternatives: Vec<String> =
            verdict.alternatives.iter().map(|alternative| object("alternative", alternative, None)).collect();
        object("pair", &verdict.pair, Some(json::array(&alternatives)))
    };
    json::array(&verdicts.iter().map(pair).collect::<Vec<String>>())
}
