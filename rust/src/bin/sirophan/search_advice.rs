//! What to do about a refusal of a search string.

use crate::advice::{self, Question};
use crate::asked::{self, PREFIXES};
use crate::kind::{self, BUNDLE, Reader};
use crate::report::Message;
use crate::search::{self, Alternative, Pair};
use crate::sheet::Sheet;
use crate::text::{printable, row, spell};
use sirophan::Refusal;
use sirophan::query::FILTER;

/// A refusal of the text as it is told: the pair underlined, the library's sentence, and help.
pub fn told(question: &Question, refusal: Refusal) -> Message {
    let text = &question.text;
    let part = search::part_at(text, refusal.place);
    let pairs = search::read(text).unwrap_or_default();
    let pair = pairs.iter().find(|pair| pair.whole == part);
    let help = match (refusal.number, pair) {
        (50, _) => part_help(text, &text[part.clone()]),
        (51, _) => many_help(&pairs),
        (14, Some(pair)) => name_help(&question.sheet, pair),
        (16 | 17, Some(pair)) => alternative_help(&question.sheet, text, pair, refusal.number),
        _ => vec![advice::text_size_help(text)],
    };
    let shown = matches!(refusal.number, 14..=17 | 50).then(|| sirophan::underline(text, part));
    Message { shown, ..advice::told(refusal, &question.text_name, help) }
}

/// Help with a part that is no pair.
fn part_help(text: &[u8], part: &[u8]) -> Vec<String> {
    let filter = sirophan::plain(text).is_ok();
    let filter = filter.then(|| "It is a filter, and `sirophan pick` takes those.".to_string());
    let address = part.iter().position(|&byte| byte == b'?').filter(|_| !part.contains(&b'='));
    if let Some(mark) = address {
        return address_help(&part[..mark], b"a pair, such as title=ward");
    }
    let help = if part.is_empty() {
        "There is no pair before or behind an &. Leave the & out."
    } else if !part.contains(&b'=') {
        "A pair is a name, = and a value, as in `title=ward`. An & in a value is written %26."
    } else {
        "Behind % stand two hex digits. A % itself is written %25."
    };
    filter.into_iter().chain([help.into()]).collect()
}

/// Help with too many alternatives.
fn many_help(pairs: &[Pair]) -> Vec<String> {
    let count: usize = pairs.iter().map(|pair| pair.alternatives.len()).sum();
    vec![format!("It has {count}, over all pairs. Each comma makes one more; a comma of the text is written \\,.")]
}

/// Help with a name that search strings cannot ask.
fn name_help(sheet: &Sheet, pair: &Pair) -> Vec<String> {
    let name = &pair.name[..];
    let for_filters =
        "Search strings ask for no bundles and no members. `sirophan pick` takes filters, which do.".to_string();
    if sheet.find_bundle(name).is_some() {
        return vec![advice::bundle_help(sheet, name), for_filters];
    }
    if sheet.parameters.iter().any(|parameter| parameter.bundle > 0 && parameter.name == name) {
        return vec![advice::top_name_help(sheet, name), for_filters];
    }
    if let Some(mark) = name.iter().rposition(|&byte| byte == b'?') {
        return address_help(&name[..mark], &name[mark + 1..]);
    }
    if let Some(help) = parameter_help(pair) {
        return help;
    }
    match name.iter().position(|&byte| byte == b':') {
        Some(colon) => modifier_help(sheet, &name[..colon], &name[colon + 1..], pair),
        None => vec![unknown_help(sheet, name)],
    }
}

/// A name that is not on the sheet, and the nearest.
fn unknown_help(sheet: &Sheet, name: &[u8]) -> String {
    let with_texts = sheet.members(0).filter(|&place| sheet.parameters[place].kind != BUNDLE);
    let names: Vec<String> = with_texts.map(|place| sheet.name(place)).collect();
    let name = spell(name);
    format!("{name} is not on the sheet. {}", advice::choices(&name, &names))
}

/// Help with an address, or its question mark, before the first pair.
fn address_help(before: &[u8], name: &[u8]) -> Vec<String> {
    let what = match before {
        [] => "The ? belongs to an address".to_string(),
        _ => format!("{}? is an address", spell(before)),
    };
    vec![format!("{what}, and no part of a search string: leave it out, and begin with {}.", spell(name))]
}

/// Parameters of FHIR that are about the answer, and what they do.
const ABOUT_ANSWERS: [(&str, &str); 12] = [
    ("_count", "how many are listed at a time"),
    ("_offset", "where a list goes on"),
    ("_page", "which part of a list is given"),
    ("_sort", "in which order a list is"),
    ("_format", "in which form an answer comes"),
    ("_pretty", "in which form an answer comes"),
    ("_summary", "how much of a record is given"),
    ("_elements", "how much of a record is given"),
    ("_include", "which records come along"),
    ("_revinclude", "which records come along"),
    ("_total", "whether there is a count"),
    ("_contained", "whether records inside others count"),
];

/// Help with a parameter of FHIR that is no field: one that carries a filter, and those about the answer.
fn parameter_help(pair: &Pair) -> Option<Vec<String>> {
    let name = String::from_utf8_lossy(&pair.name);
    if name == FILTER {
        return Some(vec![told_filter(pair)]);
    }
    let bare = name.split(':').next().unwrap_or_default();
    let (theirs, does) = ABOUT_ANSWERS.iter().find(|(theirs, _)| *theirs == bare)?;
    Some(vec![format!(
        "{theirs} says {does}, and asks nothing of a card. All cards that match are listed: leave it out."
    )])
}

/// What to do with a pair that carries a filter.
fn told_filter(pair: &Pair) -> String {
    let written: Vec<&[u8]> = pair.alternatives.iter().map(|alternative| &alternative.text[..]).collect();
    let filter = shell_quoted(&written.join(&b","[..]));
    format!(
        "{FILTER} carries a filter. `sirophan query` asks it with the pairs beside it, and `sirophan pick {filter}` alone."
    )
}

/// What to do with a text for `sirophan pick` that is a search string, carries its filter behind a name, as an address does, or
/// has a modifier.
pub fn of_filter(sheet: &Sheet, text: &[u8]) -> Vec<String> {
    if sirophan::check_search(&sheet.block, text).is_ok() {
        return vec!["It is a search string, and `sirophan search` takes those.".into()];
    }
    let start = text.iter().rposition(|&byte| byte == b'?').map_or(0, |mark| mark + 1);
    let pairs = search::read(&text[start..]).unwrap_or_default();
    let carried = pairs.iter().find(|pair| pair.name == FILTER.as_bytes()).map(|pair| vec![told_filter(pair)]);
    let modified = pairs.iter().find_map(|pair| {
        let colon = pair.name.iter().position(|&byte| byte == b':')?;
        sheet.find(0, &pair.name[..colon])?;
        Some(modifier_help(sheet, &pair.name[..colon], &pair.name[colon + 1..], pair))
    });
    carried.or(modified).unwrap_or_default()
}

/// A filter as -e takes it in a shell.
fn shell_quoted(filter: &[u8]) -> String {
    format!("-e '{}'", printable(filter).replace('\'', "'\\''"))
}

/// What a modifier makes of a pair, as a filter.
enum Modified {
    /// None of the alternatives holds.
    Not,
    /// There is no value, or there is one.
    Missing,
    /// Each alternative by this operator.
    By(&'static str),
}

/// The modifiers that a filter has words for.
const MODIFIERS: [(&str, Modified); 4] = [
    ("not", Modified::Not),
    ("missing", Modified::Missing),
    ("exact", Modified::By("eq")),
    ("contains", Modified::By("co")),
];

/// Help with a modifier: the filter that asks it. Without the modifier the string would ask something else.
fn modifier_help(sheet: &Sheet, field: &[u8], modifier: &[u8], pair: &Pair) -> Vec<String> {
    let shown = format!(":{}", String::from_utf8_lossy(modifier));
    let Some(place) = sheet.find(0, field) else { return vec![unknown_help(sheet, field)] };
    let no_modifiers = format!("{shown} is a modifier, and search strings have none here.");
    let modified = MODIFIERS.iter().find(|(name, _)| name.as_bytes() == modifier);
    let filter = modified.map(|(_, modified)| modified_filter(sheet, place, modified, pair));
    let filter = filter.filter(|filter| sirophan::check(&sheet.block, filter).is_ok());
    let help = match filter {
        Some(filter) => {
            format!("The filter `{}` asks it: `sirophan pick {}`.", printable(&filter), shell_quoted(&filter))
        }
        None => format!(
            "Without it the string asks something else. See `sirophan pick` for what filters ask of {}.",
            spell(field)
        ),
    };
    let letters = "Large and small letters are alike in it, other than in :exact.".to_string();
    let letters = (modifier == b"exact").then_some(letters);
    [no_modifiers, help].into_iter().chain(letters).collect()
}

/// The filter of a modified pair.
fn modified_filter(sheet: &Sheet, place: usize, modified: &Modified, pair: &Pair) -> Vec<u8> {
    let (name, kind) = (&sheet.parameters[place].name[..], sheet.parameters[place].kind);
    let tests = pair.alternatives.iter().map(|alternative| {
        let (operator, value) = match modified {
            Modified::By(operator) => (operator.to_string(), alternative.text.clone()),
            _ => asked::operator_of(kind, &alternative.text),
        };
        [name, b" ", operator.as_bytes(), b" ", &asked::as_value(&value)].concat()
    });
    match modified {
        Modified::Missing => {
            let missing = pair.alternatives.first().is_some_and(|value| value.text.eq_ignore_ascii_case(b"true"));
            [name, b" pr ", if missing { &b"false"[..] } else { b"true" }].concat()
        }
        Modified::Not => [b"not (", &tests.collect::<Vec<_>>().join(&b" or "[..])[..], b")"].concat(),
        Modified::By(_) => tests.collect::<Vec<_>>().join(&b" or "[..]),
    }
}

/// Help with the first alternative of a pair that has no meaning. Which one it is, the library is asked.
fn alternative_help(sheet: &Sheet, text: &[u8], pair: &Pair, number: u32) -> Vec<String> {
    let written = &text[pair.whole.clone()];
    let cut = written.iter().position(|&byte| byte == b'=').map_or(0, |cut| cut + 1);
    let refused = |alternative: &&Alternative| {
        let alone = [&written[..cut], &alternative.written[..]].concat();
        sirophan::check_search(&sheet.block, &alone).is_err_and(|refusal| refusal.number == number)
    };
    let found = pair.alternatives.iter().find(refused).zip(sheet.find(0, &pair.name));
    let Some((alternative, place)) = found else { return Vec::new() };
    let (path, kind) = (sheet.path(place, 0), sheet.parameters[place].kind);
    let prefixes = prefixes_of(kind);
    let prefix = PREFIXES.into_iter().find(|prefix| alternative.text.starts_with(prefix.as_bytes()));
    let prefix = prefix.filter(|_| !prefixes.is_empty()).unwrap_or_default();
    if number == 16 {
        return vec![prefix_help(&path, kind, &prefixes), advice::for_others(&path, prefix)];
    }
    let value = &alternative.text[prefix.len()..];
    let plus = "A + stands for a space. A plus itself is written %2B.".to_string();
    let plus = alternative.written.contains(&b'+').then_some(plus);
    advice::value_help(&path, kind, value).into_iter().chain(plus).collect()
}

/// The prefixes that a kind has: the operators of the same name, where any gives an order.
fn prefixes_of(kind: u8) -> Vec<&'static str> {
    let operators = Reader::new(kind).operators();
    let ordered = operators.contains(&"ge");
    PREFIXES.into_iter().filter(|prefix| ordered && operators.contains(prefix)).collect()
}

fn prefix_help(path: &str, kind: u8, prefixes: &[&str]) -> String {
    let one = kind::by_number(kind).map_or("a parameter", |kind| kind.one);
    format!("{path} is {one}, which has the prefixes {}.", row(prefixes, "and"))
}
