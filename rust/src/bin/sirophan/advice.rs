//! What to do about a refusal: sentences that go below the library's own.

use crate::arguments::Arguments;
use crate::block::{self, Sort};
use crate::filter::{Filter, Test};
use crate::input::{self, Input, shown};
use crate::kind::{self, BUNDLE, Reader};
use crate::report::{Failure, Message};
use crate::seal;
use crate::search_advice;
use crate::sheet::{Parameter, Sheet};
use crate::text::{self, printable, row, spell};
use sirophan::Refusal;
pub use sirophan::Words;

/// What to do about a wrong check sum.
const DAMAGED: &str = "It was changed or damaged since it was written: pack it again from its description.";

/// What to do about a description in the place of cards.
pub const TEXT_FOR_CARDS: &str = "It is a text. A description becomes cards by `sirophan pack DIR OUT`.";

/// A sheet and a filter or a search string, with what messages call them.
pub struct Question {
    pub sheet_name: String,
    pub text_name: String,
    pub sheet: Sheet,
    pub words: Words,
    pub text: Vec<u8>,
}

impl Question {
    /// Reads the sheet and the text, which are the first two of what was given.
    pub fn read(arguments: &Arguments, words: Words) -> Result<Question, Failure> {
        let sheet_name = &arguments.paths[0];
        let sheet = Sheet::read(input::read(sheet_name)?);
        let (text_name, text) = arguments.text(1)?;
        Ok(Question { sheet_name: shown(sheet_name), text_name, sheet, words, text })
    }

    /// The same, where the sheet and the cards are what the seals beside them say. A sheet is at fault before a text is.
    pub fn check_sealed(&self, arguments: &Arguments, cards: Option<&Input>) -> Result<usize, Failure> {
        require_sound(&self.sheet_name, &self.sheet)?;
        seal::hold(&arguments.paths[0], &self.sheet.block, cards)?;
        self.check()
    }

    /// The number of the text's tests or alternatives, or the refusal with its help.
    pub fn check(&self) -> Result<usize, Failure> {
        self.words.check(&self.sheet.block, &self.text).map_err(|refusal| Failure::refused(self.tell(refusal)))
    }

    /// A refusal of the sheet or the text as it is told.
    pub fn tell(&self, refusal: Refusal) -> Message {
        match (refusal.number, self.words) {
            (1..=3, _) => sheet_refused(&self.sheet_name, &self.sheet, refusal),
            (_, Words::Filter) => self.tell_filter(refusal),
            (_, Words::Search) => search_advice::told(self, refusal),
        }
    }

    /// A refusal of the filter as it is told: the test underlined, the library's sentence, and help.
    fn tell_filter(&self, refusal: Refusal) -> Message {
        let filter = Filter::read(&self.text);
        let test = filter.as_ref().and_then(|filter| filter.test_at(refusal.place));
        if let (14..=18, Some(test)) = (refusal.number, test) {
            let shown = Some(sirophan::underline(&self.text, test.whole.clone()));
            let help = test_help(refusal.number, &self.sheet, &self.text, test);
            return Message { shown, ..told(refusal, &self.text_name, help) };
        }
        let message = text_refused(&self.text_name, &self.text, &self.sheet.parameters, refusal);
        let help = search_advice::of_filter(&self.sheet, &self.text);
        Message { help: [help, message.help].concat(), ..message }
    }
}

/// A refusal of a text that is no filter as it is told: where it stops being one, the library's sentence, and help, which
/// knows the fields of a sheet where there is one.
pub fn text_refused(name: &str, filter: &[u8], parameters: &[Parameter], refusal: Refusal) -> Message {
    let (shown, help) = match refusal.number {
        11..=13 => {
            let shown = sirophan::underline(filter, refusal.place..refusal.place + 1);
            (Some(shown), text_help(refusal, parameters, filter))
        }
        _ => (None, vec![text_size_help(filter)]),
    };
    Message { shown, ..told(refusal, name, help) }
}

/// A refusal of a file, with sentences of help.
pub fn told(refusal: Refusal, name: &str, help: Vec<String>) -> Message {
    Message { refusal: Some(refusal), help, ..Message::error(format!("{name}: {refusal}")) }
}

/// A refusal of a sheet as it is told.
fn sheet_refused(name: &str, sheet: &Sheet, refusal: Refusal) -> Message {
    told(refusal, name, sheet_help(refusal.number, sheet))
}

/// Nothing, where a sheet is sound.
pub fn require_sound(name: &str, sheet: &Sheet) -> Result<(), Failure> {
    sheet.refusal().map_or(Ok(()), |refusal| Err(Failure::refused(sheet_refused(name, sheet, refusal))))
}

/// Help with a sheet that is refused.
fn sheet_help(number: u32, sheet: &Sheet) -> Vec<String> {
    match (number, Sort::of(&sheet.block)) {
        (1, Sort::Card) => vec!["It begins as a card does. The sheet is another file, such as sheet.bin.".into()],
        (1, Sort::Neither) if text::is_text(&sheet.block) => {
            vec!["It is a text. A description becomes a sheet by `sirophan pack DIR OUT`.".into()]
        }
        (1, _) => vec![size_help(&sheet.block)],
        (2, _) => vec![DAMAGED.into()],
        _ => sheet.faults(),
    }
}

/// Help with a filter or a search string that is empty or too long.
pub fn text_size_help(text: &[u8]) -> String {
    if !text::is_text(text) && Sort::of(text) != Sort::Neither {
        return "It is a file of blocks. The filter is another file, such as filter.txt, and comes before the cards."
            .into();
    }
    size_help(text)
}

/// How many bytes a file has that is too short or too long.
fn size_help(file: &[u8]) -> String {
    let more = if file.len() == input::MOST_BYTES { " or more" } else { "" };
    format!("It has {}{more}.", text::counted(file.len() as u64, "byte"))
}

/// Signs that make a text no filter and are easily overlooked: what the text holds, and what to do.
const NO_FILTER: [(&[u8], &str); 8] = [
    (
        b"\xEF\xBB\xBF",
        "It has a byte order mark (EF BB BF). Save it as UTF-8 without one, or mend it by `tail -c +4 OLD > NEW`.",
    ),
    (b"\xFF\xFE", "It is UTF-16. Save it as UTF-8 without a byte order mark."),
    (
        b"\r",
        "It has a Windows line end (0x0D). Save it with a line feed alone, or mend it by `tr -d '\\r' < OLD > NEW`.",
    ),
    (b"\n", "It has more than one line. A filter is one line."),
    (b"\t", "It has a tab. Only spaces may stand between the words."),
    ("\u{201C}".as_bytes(), "It has a curly quote. Texts are quoted with the straight sign \"."),
    ("\u{201E}".as_bytes(), "It has a curly quote. Texts are quoted with the straight sign \"."),
    ("\u{A0}".as_bytes(), "It has a no-break space. Only plain spaces may stand between the words."),
];

/// Help with a text that is no filter.
fn text_help(refusal: Refusal, parameters: &[Parameter], filter: &[u8]) -> Vec<String> {
    let holds = |sign: &[u8]| filter.windows(sign.len()).any(|window| window == sign);
    let sign = NO_FILTER.iter().find(|(sign, _)| holds(sign)).map(|(_, help)| help.to_string());
    let dash = dash_at(filter, refusal.place);
    let letters = (!filter.is_ascii()).then(|| "Letters beyond ASCII stand between double quotes only.".to_string());
    let letters = dash.or(letters);
    let (begun, rest) = filter.split_at(refusal.place.min(filter.len()));
    let place = match refusal.number {
        12 => vec!["Round and square brackets together nest at most 8 deep.".into()],
        13 => vec!["A filter has at most 32 tests, those inside square brackets counted too.".into()],
        _ => Beginning { parameters, begun }.help(rest),
    };
    let word = capitals(filter).or_else(|| foreign(begun, rest)).or_else(|| without_brackets(begun, rest));
    sign.or(letters).into_iter().chain(word).chain(place).collect()
}

/// Help with a dash where a filter stops, in a word that would be a date with hyphens.
fn dash_at(filter: &[u8], place: usize) -> Option<String> {
    let start = filter[..place.min(filter.len())].iter().rposition(|byte| b" (".contains(byte)).map_or(0, |at| at + 1);
    let length = filter[start..].iter().position(|byte| b" )]".contains(byte)).unwrap_or(filter.len() - start);
    dash_help(&filter[start..start + length], kind::by_word("date")?.number)
}

/// Help with a `not` that has no brackets behind it.
fn without_brackets(begun: &[u8], rest: &[u8]) -> Option<String> {
    let before = begun.trim_ascii_end().strip_suffix(b"not")?;
    let is_word = before.last().is_none_or(|last| b" ([".contains(last));
    let whole = [b"not (", rest, b")"].concat();
    let shown = if sirophan::plain(&whole).is_ok() { printable(&whole) } else { "not (ward eq A)".into() };
    (is_word && !rest.is_empty()).then(|| format!("Behind not stands a filter in brackets: write `{shown}`."))
}

/// Words and signs of other languages, and the words of a filter for them.
const FOREIGN: [(&str, &str); 13] = [
    ("=", "eq"),
    ("==", "eq"),
    ("equals", "eq"),
    ("!=", "ne"),
    ("<>", "ne"),
    ("<", "lt"),
    (">", "gt"),
    ("<=", "le"),
    (">=", "ge"),
    ("contains", "co"),
    ("like", "co"),
    ("&&", "and"),
    ("||", "or"),
];

/// Help with a word or a sign of another language, where the text stops being a filter.
fn foreign(begun: &[u8], rest: &[u8]) -> Option<String> {
    let ends_word = |byte: &u8| b" ()[]".contains(byte);
    let start = begun.iter().rposition(ends_word).map_or(0, |place| place + 1);
    let end = rest.iter().position(ends_word).unwrap_or(rest.len());
    let word = [&begun[start..], &rest[..end]].concat();
    let (theirs, ours) = FOREIGN.iter().find(|(theirs, _)| theirs.as_bytes() == word)?;
    Some(format!("{theirs} is written {ours}."))
}

/// The beginning of a text up to where it can no longer become a filter. What could stand behind it, the library is asked.
struct Beginning<'a> {
    parameters: &'a [Parameter],
    begun: &'a [u8],
}

impl Beginning<'_> {
    /// Whether some filter begins with the beginning and these bytes.
    fn goes_on(&self, with: &str) -> bool {
        let text = [self.begun, with.as_bytes()].concat();
        match sirophan::plain(&text) {
            Err(refusal) => refusal.number != 10 && refusal.place == text.len(),
            Ok(_) => true,
        }
    }

    /// Whether the beginning is a filter itself.
    fn is_filter(&self) -> bool {
        sirophan::plain(self.begun).is_ok()
    }

    /// Whether a word may begin behind it without a space.
    fn takes_word(&self) -> bool {
        self.begun.last().is_none_or(|last| b" ([.".contains(last))
    }

    /// What could stand behind the beginning, in place of the rest.
    fn help(&self, rest: &[u8]) -> Vec<String> {
        if self.goes_on(" zz( zz(") {
            let help =
                "It goes on between double quotes. Close them with \", and write \\t and the like for control signs.";
            return vec![help.into()];
        }
        let choices = self.choices();
        if choices.is_empty() {
            let last_word = self.begun.iter().rposition(|&byte| byte == b' ').unwrap_or(0);
            let operators = Beginning { begun: &self.begun[..last_word], ..*self }.operators();
            let no_word = "The last word cannot end here: it is no name and no operator.".to_string();
            return [no_word].into_iter().chain(operators).collect();
        }
        let joins = choices.contains(&"`and`") && self.ends_with_bare_word();
        let several = (joins && rest.first().is_some_and(u8::is_ascii_alphanumeric))
            .then(|| "A value of several words stands between double quotes.".into());
        let space = if self.takes_word() { "" } else { " Words have a space before them." };
        let place = format!("Here could stand {}.{space}", row(&choices, "or"));
        let operators = self.operators().filter(|_| choices.contains(&"an operator"));
        several.into_iter().chain([place]).chain(operators).collect()
    }

    /// The kinds of signs and words that could stand behind it. Words are tried behind a space where they would else go on
    /// with the last one.
    fn choices(&self) -> Vec<&'static str> {
        let word = |word: &str| self.goes_on(&format!("{}{word}", if self.takes_word() { "" } else { " " }));
        // A value may begin with a digit and a name may not; no operator begins with zz.
        let (value, name) = (word("1") && word("\""), word("zz") && !word("1"));
        // Only a bundle has square brackets.
        let bracket = self.goes_on("[zz") && !self.goes_on("[1") && self.operators().is_none();
        let choices = [
            (name, "a name"),
            (word("(") && !value, "`(`"),
            (word("eq ") && !value && !name, "an operator"),
            (value, "a value"),
            (bracket, "`[`"),
            (self.goes_on(")"), "`)`"),
            (self.goes_on("]"), "`]`"),
            (self.goes_on(".zz") && !self.goes_on("1"), "`.`"),
            (word("and ") && !value && !name, "`and`"),
            (word("or ") && !value && !name, "`or`"),
            (self.is_filter(), "the end"),
        ];
        choices.into_iter().filter_map(|(stands, what)| stands.then_some(what)).collect()
    }

    /// Whether a value without quotes, and a space behind it, stand at its end.
    fn ends_with_bare_word(&self) -> bool {
        let word = self.begun.trim_ascii_end();
        word.len() < self.begun.len() && word.last().is_some_and(|last| !b"\")]".contains(last))
    }

    /// The operators of the field that it ends with, if it ends with one that has texts.
    fn operators(&self) -> Option<String> {
        let name = self.begun.trim_ascii_end().rsplit(|byte| b" ([.".contains(byte)).next()?;
        let mut found = self.parameters.iter().filter(|parameter| parameter.name == name);
        let kind = found.next().map(|parameter| parameter.kind).filter(|kind| *kind != BUNDLE)?;
        let alone = found.all(|parameter| parameter.kind == kind);
        alone.then(|| operators_of(&String::from_utf8_lossy(name), kind))
    }
}

/// Help with a word of the grammar that is written in capitals.
fn capitals(filter: &[u8]) -> Option<String> {
    let words = filter.split(|byte| b" ()[]".contains(byte)).map(String::from_utf8_lossy);
    let small = |word: &str| word.to_lowercase();
    let mut capitals = words.filter(|word| *word != small(word) && kind::is_word_of_grammar(&small(word)));
    capitals
        .next()
        .map(|word| format!("{word} is written {}: operators, and, or and not are in small letters.", small(&word)))
}

/// Help with a test that has no meaning.
fn test_help(number: u32, sheet: &Sheet, filter: &[u8], test: &Test) -> Vec<String> {
    let operator = String::from_utf8_lossy(&filter[test.operator.clone()]).into_owned();
    let parameter = test.place(sheet, filter).map(|place| (sheet.path(place, 0), sheet.parameters[place].kind));
    match (number, parameter) {
        (15, Some((path, kind))) => vec![operators_of(&path, kind)],
        (16, Some((path, kind))) => operator_help(&path, kind, &operator),
        (17, Some(_)) if operator == "pr" => {
            vec!["Behind pr stands true (there is a text) or false (there is none).".into()]
        }
        (17, Some((path, kind))) => value_help(&path, kind, &test.decoded(filter)),
        (18, Some(_)) => vec![bundle_help(sheet, &filter[test.name.clone()])],
        _ => vec![name_help(sheet, filter, test)],
    }
}

/// Which operators a parameter has.
fn operators_of(path: &str, kind: u8) -> String {
    let Some(known) = kind::by_number(kind) else { return String::new() };
    format!("{path} is {}, which has the operators {}.", known.one, row(&Reader::new(kind).operators(), "and"))
}

/// Help with an operator that the kind does not have.
fn operator_help(path: &str, kind: u8, operator: &str) -> Vec<String> {
    // The R4 page has its own operator for references, and eq is what one thinks of.
    let by_re = Reader::new(kind).operators().contains(&"re") && operator == "eq";
    let by_re = by_re.then(|| "A reference is asked by re, as in `re Patient/17`.".to_string());
    [operators_of(path, kind)].into_iter().chain(by_re).chain([for_others(path, operator)]).collect()
}

/// Which kinds have an operator that a field has not.
pub fn for_others(path: &str, operator: &str) -> String {
    format!(
        "{operator} is for {}. If that is what {path} holds, the sheet gives it the wrong kind.",
        row(&kind::kinds_with(operator), "and")
    )
}

/// Help with a value that cannot be read.
pub fn value_help(path: &str, kind: u8, value: &[u8]) -> Vec<String> {
    let Some(known) = kind::by_number(kind) else { return Vec::new() };
    let by = kind::asked_by(known);
    let asked = if by.number == kind { String::new() } else { format!(", which is asked by {}", by.one) };
    let shown = spell(value);
    let unread = format!("{path} is {}{asked}, and {shown} cannot be read as one: {}.", known.one, by.written);
    dash_help(value, by.number).into_iter().chain([unread]).collect()
}

/// Signs that look like a hyphen, and their names.
const DASHES: [(char, &str); 7] = [
    ('\u{2013}', "an en dash"),
    ('\u{2014}', "an em dash"),
    ('\u{2012}', "a figure dash"),
    ('\u{2015}', "a horizontal bar"),
    ('\u{2010}', "another hyphen"),
    ('\u{2011}', "a no-break hyphen"),
    ('\u{2212}', "a minus sign"),
];

/// Help with a value that could be read as a kind if its dashes were hyphens.
fn dash_help(value: &[u8], kind: u8) -> Option<String> {
    let text = str::from_utf8(value).ok()?;
    let (dash, name) = DASHES.into_iter().find(|(dash, _)| text.contains(*dash))?;
    let mended = text.replace(DASHES.map(|(dash, _)| dash), "-");
    let readable = Reader::new(kind).reads(mended.as_bytes());
    let written = format!("It has {name} (U+{:04X}) in the place of a hyphen. Write {mended}.", u32::from(dash));
    readable.then_some(written)
}

/// How a bundle is asked.
pub fn bundle_help(sheet: &Sheet, name: &[u8]) -> String {
    let bundle = String::from_utf8_lossy(name);
    let members: Vec<String> = sheet
        .find_bundle(name)
        .map_or_else(Vec::new, |place| sheet.members(place).map(|place| sheet.name(place)).collect());
    match &members[..] {
        [] => format!("{bundle} is a bundle without members, and cannot be asked."),
        [first, rest @ ..] => {
            let last = rest.last().unwrap_or(first);
            format!(
                "{bundle} is a bundle of {}. Write `{bundle}[{first} pr true].{last} pr true`.",
                row(&members, "and")
            )
        }
    }
}

/// Help with a name that is not on the sheet, or stands where it cannot.
fn name_help(sheet: &Sheet, filter: &[u8], test: &Test) -> String {
    if test.inside.is_some() && test.bundle.is_some() {
        return "Inside square brackets no name has square brackets: no bundle is in a bundle.".into();
    }
    let bundle = test.bundle.as_ref().or(test.inside.as_ref()).map(|bundle| &filter[bundle.clone()]);
    let name = &filter[test.name.clone()];
    match bundle {
        None => top_name_help(sheet, name),
        Some(bundle) => member_help(sheet, bundle, name),
    }
}

/// Help with a name that stands by itself.
pub fn top_name_help(sheet: &Sheet, name: &[u8]) -> String {
    let member = sheet.parameters.iter().find(|parameter| parameter.bundle > 0 && parameter.name == name);
    let shown = String::from_utf8_lossy(name);
    match member {
        Some(parameter) => {
            let bundle = sheet.name(usize::from(parameter.bundle) - 1);
            format!("{shown} is a member of {bundle}. Write `{bundle}[{shown} pr true].{shown}` in place of {shown}.")
        }
        None => format!("{shown} is not on the sheet. {}", choices(&shown, &names_in(sheet, 0))),
    }
}

/// Help with a name inside square brackets, or behind them.
fn member_help(sheet: &Sheet, bundle: &[u8], name: &[u8]) -> String {
    let (shown, of) = (String::from_utf8_lossy(name), String::from_utf8_lossy(bundle));
    match sheet.find_bundle(bundle) {
        None if sheet.find(0, bundle).is_some() => format!("{of} is no bundle, and has no square brackets behind it."),
        None => format!("{of} is not on the sheet. {}", choices(&of, &names_in(sheet, 0))),
        Some(place) => format!("{shown} is no member of {of}. {}", choices(&shown, &names_in(sheet, place))),
    }
}

/// The names of a bundle's members, the bundle given as they have it; 0 is the top.
fn names_in(sheet: &Sheet, bundle: u8) -> Vec<String> {
    sheet.members(bundle).map(|place| sheet.name(place)).collect()
}

/// Which names could stand in the place of one: the nearest, or all where none is near.
pub fn choices(name: &str, names: &[String]) -> String {
    let near = text::nearest(name, names);
    match (names, &near[..]) {
        ([], _) => "There are no names to choose from.".into(),
        (_, []) => format!("There are {}.", row(names, "and")),
        _ => format!("Is it {}?", row(&near, "or")),
    }
}

/// What is wrong with a card by itself, if it is not sound.
pub fn unsound(card: &[u8]) -> Option<String> {
    let refusal = kind::sound_card(card).err()?;
    let seen = match (refusal.number, Sort::of(card)) {
        (_, Sort::Neither) if text::is_text(card) => {
            return Some(TEXT_FOR_CARDS.into());
        }
        (21, _) => return Some(format!("{} {DAMAGED}", refusal.sentence())),
        (_, Sort::Card) => row(&block::faults(card), "and"),
        (_, Sort::Sheet) => "the first byte of a sheet".into(),
        _ => "the first byte of no card".into(),
    };
    Some(format!("{} It has {seen}.", refusal.sentence()))
}

/// What is wrong with a card that a sheet does not take, each sentence with the field.
pub fn card_faults(sheet: &Sheet, card: &[u8]) -> Vec<String> {
    if let Some(fault) = unsound(card) {
        return vec![fault];
    }
    let faults = block::items(card).filter_map(|item| {
        let place = usize::from(item.byte);
        let fault = entry_fault(sheet, place, item.text)?;
        Some(format!("{}: {fault}", sheet.path(place, item.mark)))
    });
    faults.collect()
}

/// What is wrong with a text under a parameter, if the sheet does not take it.
pub fn entry_fault(sheet: &Sheet, place: usize, text: &[u8]) -> Option<String> {
    let Some(parameter) = sheet.parameters.get(place) else {
        return Some(format!("the sheet has no parameter at this place, but {}.", sheet.parameters.len()));
    };
    if Reader::new(parameter.kind).reads(text) {
        return None;
    }
    let kind = kind::by_number(parameter.kind)?;
    Some(match parameter.kind {
        BUNDLE => "a bundle has no texts of its own. Put the text under one of its members.".into(),
        _ => format!("{} cannot be read as {}: {}.", spell(text), kind.one, kind.written),
    })
}
