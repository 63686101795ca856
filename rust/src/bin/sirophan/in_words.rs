//! What a test asks, in words: "birthdate, a date: lies in 1974".

use crate::asked::Asked;
use crate::kind;
use crate::sheet::Sheet;
use crate::system;
use crate::text::{quoted, spell};

/// What is asked of a field, by the operator and the word of the field's kind; `{}` stands for the value.
const RELATIONS: [(&str, &[&str], &str); 23] = [
    ("eq", &["string"], "is {}"),
    ("ne", &["string"], "is another text than {}"),
    ("co", &["string"], "holds {}"),
    ("sw", &["string"], "starts with {}"),
    ("ew", &["string"], "ends with {}"),
    ("eq", &["number"], "rounds to {}"),
    ("ne", &["number"], "does not round to {}"),
    ("co", &["number"], "is what {} rounds to"),
    ("gt", &["number"], "is greater than {}"),
    ("lt", &["number"], "is less than {}"),
    ("ge", &["number"], "is {} or greater"),
    ("le", &["number"], "is {} or less"),
    ("eq", &["date", "period"], "lies in {}"),
    ("ne", &["date", "period"], "does not lie in {}"),
    ("co", &["date", "period"], "holds the whole of {}"),
    ("gt", &["date", "period"], "ends later than {}"),
    ("lt", &["date", "period"], "starts earlier than {}"),
    ("ge", &["date", "period"], "ends later than {}, or lies in it"),
    ("le", &["date", "period"], "starts earlier than {}, or lies in it"),
    ("sa", &["date", "period"], "starts when {} has ended, or later"),
    ("eb", &["date", "period"], "has ended when {} starts"),
    ("po", &["date", "period"], "overlaps {}"),
    ("re", &["reference"], "is {}"),
];

/// A test in words.
pub fn told(sheet: &Sheet, asked: &Asked) -> String {
    let path = sheet.path(asked.place, 0);
    let kind = kind::by_number(sheet.parameters[asked.place].kind);
    let (one, word) = kind.map_or(("", ""), |kind| (kind.one, kind.word));
    let bundle = match sheet.parameters[asked.place].bundle {
        0 => String::new(),
        place => sheet.name(usize::from(place) - 1),
    };
    let beside = match (asked.is_inside(), asked.has_condition()) {
        (true, _) => format!(", in the same {bundle} as the others in its brackets"),
        (_, true) => format!(", in a {bundle} that meets the condition in brackets"),
        _ => String::new(),
    };
    format!("{path}, {one}: {}{beside}", relation(word, asked))
}

/// What is asked of the field.
fn relation(kind: &str, asked: &Asked) -> String {
    match (asked.operator.as_str(), kind) {
        ("pr", _) if asked.value.eq_ignore_ascii_case(b"true") => "is on the card".into(),
        ("pr", _) => "is not on the card".into(),
        ("eq", "token") => format!("is {}", token(&asked.value)),
        ("ne", "token") => format!("is something else than {}", token(&asked.value)),
        (operator, kind) => {
            let row = RELATIONS.iter().find(|(other, kinds, _)| *other == operator && kinds.contains(&kind));
            let value = if kind == "string" { quoted(&asked.value) } else { spell(&asked.value) };
            row.map_or_else(|| format!("{operator} {value}"), |(_, _, words)| words.replacen("{}", &value, 1))
        }
    }
}

/// A token in its four forms.
fn token(value: &[u8]) -> String {
    let (system, code) = system::split(value);
    let meant = spell(system::meant(system));
    match (value.contains(&b'|'), system, code) {
        (false, ..) => format!("the code {}, whichever its system", spell(code)),
        (true, b"", code) => format!("the code {} without a system", spell(code)),
        (true, _, b"") => format!("any code of {meant}"),
        (true, _, code) => format!("the code {} of {meant}", spell(code)),
    }
}

#[cfg(test)]
mod tests {
    use super::*;
    use crate::advice::{Question, Words};
    use crate::kind::{KINDS, Reader};
    use crate::sheet::Parameter;

    fn words(text: &str) -> Vec<String> {
        let kinds = KINDS.iter().map(|kind| Parameter::new(kind.number, kind.word));
        let member = Parameter::new(kind::TOKEN, "type").in_bundle(6);
        let sheet = Sheet::write(kinds.chain([member]).collect()).unwrap();
        let question = Question {
            sheet_name: String::new(),
            text_name: String::new(),
            sheet,
            words: Words::Filter,
            text: text.into(),
        };
        question.check().unwrap();
        crate::asked::all(&question).iter().map(|asked| told(&question.sheet, asked)).collect()
    }

    #[test]
    fn tests_in_words() {
        assert_eq!(words("date eq 1974"), ["date, a date: lies in 1974"]);
        assert_eq!(words("string co \"a b\""), ["string, a string: holds \"a b\""]);
        assert_eq!(words("token eq loinc|1-2"), ["token, a token: is the code 1-2 of http://loinc.org"]);
        assert_eq!(words("token ne |1"), ["token, a token: is something else than the code 1 without a system"]);
        assert_eq!(words("token eq snomed|"), ["token, a token: is any code of http://snomed.info/sct"]);
        assert_eq!(words("reference pr false"), ["reference, a reference: is not on the card"]);
        assert_eq!(
            words("bundle[type eq x].type pr true"),
            [
                "bundle.type, a token: is on the card, in a bundle that meets the condition in brackets",
                "bundle.type, a token: is the code x, whichever its system, in the same bundle as the others in its brackets"
            ]
        );
    }

    /// Every operator that a kind has is said in words.
    #[test]
    fn all_operators() {
        for kind in KINDS.iter().filter(|kind| kind.number != kind::BUNDLE) {
            for operator in Reader::new(kind.number).operators() {
                let value = if operator == "pr" { "true" } else { "1974" };
                let said = words(&format!("{} {operator} {value}", kind.word));
                assert!(!said[0].contains(&format!(": {operator} ")), "{said:?}");
            }
        }
    }
}
