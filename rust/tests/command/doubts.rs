//! What the command says beside an answer that may not be what was meant: doubts about fields and values, and answers without
//! cards. Every command tells the same, and nothing of an archive that has nothing to doubt.

use crate::folder::{Folder, Said};

/// Cards with one text each under a name, with the record numbers 1, 2 and so on.
fn cards<'a>(name: &str, texts: impl IntoIterator<Item = &'a str>) -> String {
    texts.into_iter().zip(1..).map(|(text, record)| format!("record: {record}\n{name} {text}\n")).collect()
}

/// Thirty cards with a discharge entered as a token, all but the last of the kind of a text.
fn thirty(text: impl Fn(u32) -> String, last: &str) -> String {
    let texts: Vec<String> = (1..30).map(text).chain([last.to_string()]).collect();
    cards("discharge", texts.iter().map(String::as_str))
}

fn month(number: u32) -> String {
    format!("1973-{:02}", number % 12 + 1)
}

const WRONG_KIND: &str =
    "  If it holds dates, the sheet gives it the wrong kind, and a filter asks something else than it seems to.\n";

impl Folder {
    /// Picks by a filter that is given as a text.
    fn pick_by(&self, filter: &str) -> Said {
        self.run(&["pick", "-e", filter, "sheet.bin", "cards.bin"])
    }

    /// Searches by a string that is given as a text.
    fn search_by(&self, string: &str) -> Said {
        self.run(&["search", "-e", string, "sheet.bin", "cards.bin"])
    }
}

/// 29 dates and one `unknown` under a token, in every command that sees the cards.
#[test]
fn one_odd_value_does_not_hide_dates() {
    let folder = Folder::described("odd-value", "token discharge\n", &thirty(month, "unknown"), "discharge eq 1975\n");
    let doubt = format!(
        "warning: discharge is a token, and 29 of 30 values look like dates; others: \"unknown\".\n{WRONG_KIND}"
    );
    folder.run(&["pack", ".", "."]).says(0, "30 cards and a sheet with 1 parameter, in .\n", &doubt);
    let files = ["sheet.bin", "filter.txt", "cards.bin"];
    folder.run(&["pick", files[0], files[1], files[2]]).says(0, "0 of 30\n", &doubt);
    folder.run(&["pick", "--stream", files[0], files[1], files[2]]).says(0, "0 of 30\n", &doubt);
    folder.search_by("discharge=1975").says(0, "0 of 30\n", &doubt);
    let table = "  field      kind   cards  values\n  discharge  token  30     30\n";
    folder.run(&["report", files[0], files[1], files[2]]).says(0, &format!("30 cards: yes 0, no 30\n{table}"), &doubt);
    folder.run(&["check", files[0], files[1], files[2]]).says(0, "1 test\n  discharge  token  eq  1975\n", &doubt);
    folder.run(&["explain", "--record", "30", files[0], files[1], files[2]]).says(
        0,
        "card 29, record 30: no\ndischarge eq 1975\n^^^^^^^^^^^^^^^^^\nno\n  discharge eq 1975   no: unknown\n",
        &doubt,
    );
    let found = |what, seal| {
        format!("the {what}: 30 cards, a sheet with 1 parameter, a filter with 1 test{seal}: all go together\n")
    };
    folder.run(&["verify", "."]).says(0, &(found("description", "") + &found("blocks", ", a seal")), &doubt);
    let fields = "30 cards\n  field      kind   cards  values  example\n  discharge  token  30     30      1973-02\n";
    folder.run(&["fields", files[0], files[2]]).says(0, &format!("{fields}{doubt}"), "");
}

/// The same in JSON: it stands in the answer, with a code, the field and figures, and nowhere else.
#[test]
fn doubts_in_json() {
    let sheet = "token discharge\n";
    let folder = Folder::packed("doubts-json", sheet, &thirty(month, "unknown"), "discharge eq 1975\n");
    let warning = "{\"level\":\"warning\",\"code\":\"looks_like\",\"field\":\"discharge\",\"message\":\"discharge is a token, and 29 of \
                   30 values look like dates; others: \\\"unknown\\\".\",\"help\":[\"If it holds dates, the sheet gives it the wrong \
                   kind, and a filter asks something else than it seems to.\"],\
                   \"figures\":{\"values\":30,\"alike\":29,\"unreadable\":0}}";
    let commands: [&[&str]; 8] = [
        &["pick", "sheet.bin", "filter.txt", "cards.bin"],
        &["pick", "--stream", "sheet.bin", "filter.txt", "cards.bin"],
        &["report", "sheet.bin", "filter.txt", "cards.bin"],
        &["check", "sheet.bin", "filter.txt", "cards.bin"],
        &["explain", "--record", "1", "sheet.bin", "filter.txt", "cards.bin"],
        &["fields", "sheet.bin", "cards.bin"],
        &["pack", ".", "."],
        &["verify", "."],
    ];
    for command in commands {
        let said = folder.run(&[command, &["--json"]].concat());
        assert_eq!((said.status, said.errors.as_str()), (0, ""), "{command:?}");
        let end = format!("\"warnings\":[{warning}]}}\n");
        assert!(said.output.ends_with(&end), "{command:?}: {}", said.output);
    }
}

/// Dates in other spellings.
#[test]
fn dates_in_other_spellings() {
    let written =
        "dates are written YYYY, YYYY-MM, YYYY-MM-DD, or YYYY-MM-DDThh:mm:ss with Z or a zone such as +02:00.\n";
    let folder =
        Folder::packed("spellings", "token discharge\n", &thirty(|day| format!("{day}.3.1973"), "30.3.1973"), "");
    let doubt = format!(
        "warning: discharge is a token, and 30 of 30 values look like dates.\n{WRONG_KIND}\
         \x20 All of these are in a spelling that cannot be read, such as \"1.3.1973\": {written}"
    );
    folder.pick_by("discharge eq 1975").says(0, "0 of 30\n", &doubt);
    let fields = "30 cards\n  field      kind   cards  values  example\n  discharge  token  30     30      1.3.1973\n";
    folder.run(&["fields", "sheet.bin", "cards.bin"]).says(0, &format!("{fields}{doubt}"), "");
    let folder = Folder::packed("spellings-some", "token discharge\n", &thirty(month, "4.3.1961"), "");
    let doubt = format!(
        "warning: discharge is a token, and 30 of 30 values look like dates.\n{WRONG_KIND}\
         \x20 1 of these is in a spelling that cannot be read, such as \"4.3.1961\": {written}"
    );
    folder.pick_by("discharge eq 1975").says(0, "0 of 30\n", &doubt);
}

/// A prefix on a field that takes none.
#[test]
fn prefixes_on_tokens() {
    let texts: Vec<String> = (1..29).map(month).collect();
    let described = cards("discharge", texts.iter().map(String::as_str)) + "record: 29\nrecord: 30\n";
    let folder = Folder::packed("prefixes", "token discharge\n", &described, "");
    folder.search_by("discharge=lt1975").says(
        0,
        "0 of 30\n",
        &format!(
            "warning: discharge is a token, and 28 of 28 values look like dates.\n{WRONG_KIND}\
             warning: the value lt1975 of discharge is asked as a text: discharge is a token, which has no prefixes.\n\
             \x20 lt before a value is for numbers, dates and periods. `sirophan fields` shows what it holds.\n"
        ),
    );
    // A ward that is really called so is no prefix and a number.
    let folder = Folder::packed("prefixes-none", "token ward\n", &cards("ward", ["eb1", "sa2", "eb1"]), "");
    folder.search_by("ward=eb1").says(0, "1\n3\n2 of 3\n", "");
}

/// Values that look like a date on a field that is none, whatever its name.
#[test]
fn values_that_look_like_dates() {
    let folder =
        Folder::packed("values", "token discharge\ntoken code\nstring title\nnumber pages\n", "record: 1\n", "");
    let check = |filter: &str| folder.run(&["check", "-e", filter, "sheet.bin"]).errors;
    let doubt = |value: &str, field: &str, kind: &str, one: &str| {
        format!(
            "warning: the value {value} of {field} looks like {one}, and {field} is {kind}: it is asked as a text.\n\
             \x20 `sirophan fields` shows what it holds.\n"
        )
    };
    assert_eq!(check("discharge eq 1975"), doubt("1975", "discharge", "a token", "a date"));
    assert_eq!(check("code eq 4.3.1973"), doubt("4.3.1973", "code", "a token", "a date"));
    assert_eq!(check("title eq \"3 March 1973\""), doubt("3 March 1973", "title", "a string", "a date"));
    assert_eq!(check("code eq 1973/1975"), doubt("1973/1975", "code", "a token", "a period"));
    for filter in
        ["title co 1975", "code eq 291", "code eq 32485007", "code eq 1234-5", "pages eq 1975", "code pr true"]
    {
        assert_eq!(check(filter), "", "{filter}");
    }
    // With cards, a value that one of them has is what it seems to be, and four digits among codes are a code.
    let codes = Folder::packed("values-codes", "token code\n", &cards("code", ["4019", "1975", "2910", "V58"]), "");
    codes.pick_by("code eq 1975").says(0, "2\n1 of 4\n", "");
    let notes = Folder::packed("values-notes", "string note\n", &cards("note", ["came 4.3.1973", "left 1973-04"]), "");
    notes.pick_by("note co 4.3.1973").says(0, "1\n1 of 2\n", "");
    notes.pick_by("note co 1973-04").says(0, "2\n1 of 2\n", "");
    codes.pick_by("code eq 1830").says(
        0,
        "0 of 4\n",
        "note: no card meets `code eq 1830`: 4 of 4 cards have code, such as \"4019\".\n",
    );
}

/// A field that no card has; from a pipe, where the cards are read once, it is told too.
#[test]
fn fields_that_no_card_has() {
    let described: String = (1..=30).map(|record| format!("record: {record}\n")).collect();
    let folder = Folder::packed("no-field", "date discharge\n", &described, "");
    let doubt = "warning: no card meets `discharge lt 1975`: no card has discharge.\n\
                 \x20 `sirophan fields` shows what the cards have.\n";
    folder.pick_by("discharge lt 1975").says(0, "0 of 30\n", doubt);
    let piped = folder.run_with(&["pick", "-e", "discharge lt 1975", "sheet.bin", "-"], &folder.read("cards.bin"));
    piped.says(0, "0 of 30\n", doubt);
    folder.search_by("discharge=lt1975").says(0, "0 of 30\n", &doubt.replace("discharge lt 1975", "discharge=lt1975"));
    let asked = folder.pick_by("discharge pr false");
    assert_eq!(asked.errors, "");
}

/// Systems of tokens: on no card, in another spelling, or another one.
#[test]
fn systems_that_no_card_has() {
    let icd = Folder::packed("systems", "token code\n", &cards("code", ["http://hl7.org/fhir/sid/icd-9|291"; 30]), "");
    icd.pick_by("code eq icd-9|291").says(
        0,
        "0 of 30\n",
        "warning: no card meets `code eq icd-9|291`: no card has the system icd-9, and 30 values have \
         http://hl7.org/fhir/sid/icd-9.\n\
         \x20 `code eq http://hl7.org/fhir/sid/icd-9|291` asks for that; `code eq 291` asks without a system.\n",
    );
    icd.pick_by("code eq snomed|291").says(
        0,
        "0 of 30\n",
        "warning: no card meets `code eq snomed|291`: no card has the system http://snomed.info/sct, which snomed stands for.\n\
         \x20 The cards have http://hl7.org/fhir/sid/icd-9 (30 values).\n",
    );
    icd.pick_by("code eq |291").says(
        0,
        "0 of 30\n",
        "warning: no card meets `code eq |291`: 30 values have this code with a system, such as \
         http://hl7.org/fhir/sid/icd-9|291.\n\
         \x20 `code eq 291` asks for it whichever its system.\n",
    );
    let loinc = Folder::packed("systems-short", "token code\n", &cards("code", ["loinc|1234-5"; 30]), "");
    loinc.pick_by("code eq loinc|1234-5").says(
        0,
        "0 of 30\n",
        "warning: no card meets `code eq loinc|1234-5`: no card has the system http://loinc.org, which loinc stands for, and 30 \
         values have loinc.\n\
         \x20 A filter cannot ask for a system of that name; `code eq 1234-5` asks without a system.\n",
    );
}

/// Texts that differ in what folding does not cover.
#[test]
fn texts_that_differ_in_little() {
    let names = ["Antonín Dvořák", "Ström", "\"Smith,\\xC2\\xA0John\"", "Ward\u{2013}4"];
    let folder = Folder::packed("letters", "string name\n", &cards("name", names), "");
    for (filter, differs, example, record) in [
        ("name co \"DVOŘÁK\"", "large and small letters beyond À to Þ", "Antonín Dvořák", 1),
        ("name co \"Stro\u{308}m\"", "how letters with accents are put together", "Ström", 2),
        ("name eq \"Smith, John\"", "spaces", "Smith,\\xC2\\xA0John", 3),
        ("name sw ward-4", "kinds of hyphens", "Ward\u{2013}4", 4),
        ("name ew strom", "accents", "Ström", 2),
    ] {
        folder.pick_by(filter).says(
            0,
            "0 of 4\n",
            &format!(
                "warning: no card meets `{filter}`: 1 value differs only in {differs}, such as \"{example}\".\n\
                 \x20 Such texts are compared byte by byte: copy it from a card. It stands on record {record}.\n"
            ),
        );
    }
    folder.pick_by("name eq Ward").says(
        0,
        "0 of 4\n",
        "warning: no card meets `name eq Ward`: 1 value holds it as a part, such as \"Ward\u{2013}4\".\n\
         \x20 `name co Ward` finds it.\n",
    );
    folder.pick_by("name eq \"Dvořák, Antonín\"").says(
        0,
        "0 of 4\n",
        "warning: no card meets `name eq \"Dvořák, Antonín\"`: 1 value has its words in another order, such as \"Antonín Dvořák\".\n\
         \x20 `name co \"Dvořák\" and name co \"Antonín\"` asks for the words.\n",
    );
    folder.pick_by("name eq Ward or name co smith").says(0, "3\n1 of 4\n", "");
    let references =
        Folder::packed("references", "reference subject\n", &cards("subject", ["http://h/Patient/17"]), "");
    references.pick_by("subject re Patient/17").says(
        0,
        "0 of 1\n",
        "warning: no card meets `subject re Patient/17`: 1 value differs only in what stands before it, such as \
         http://h/Patient/17.\n\
         \x20 A reference is asked by its whole text, as the cards have it.\n",
    );
}

/// Dates, periods and numbers that are less precise than what is asked.
#[test]
fn values_that_overlap() {
    let sheet = "date birthdate\nperiod stay\nnumber pages\n";
    let described = "record: 1\nbirthdate 1945\nstay 1945/1946\npages 12\nrecord: 2\nbirthdate 1950-07\npages 300\n";
    let folder = Folder::packed("overlap", sheet, described, "");
    for (filter, why, finds) in [
        (
            "birthdate eq 1945-06",
            "1 card has a date that overlaps 1945-06 and does not lie in it, such as 1945",
            "`birthdate po 1945-06` finds it",
        ),
        (
            "stay eq 1945",
            "1 card has a period that overlaps 1945 and does not lie in it, such as 1945/1946",
            "`stay po 1945` finds it",
        ),
        (
            "birthdate le 1945-01",
            "1 card has a date that overlaps 1945-01, such as 1945",
            "`birthdate po 1945-01` finds it",
        ),
        (
            "pages eq 12.0",
            "1 card has a less precise number that 12.0 may lie in, such as 12",
            "`pages co 12.0` finds it",
        ),
    ] {
        let told = format!("warning: no card meets `{filter}`: {why}.\n  {finds}.\n");
        folder.pick_by(filter).says(0, "0 of 2\n", &told);
    }
    let told = "warning: no card meets `birthdate=1945-06`: 1 card has a date that overlaps 1945-06 and does not lie in it, such as \
                1945.\n  `birthdate po 1945-06` finds it.\n";
    folder.search_by("birthdate=1945-06").says(0, "0 of 2\n", told);
    folder.pick_by("birthdate lt 1930").says(
        0,
        "0 of 2\n",
        "note: no card meets `birthdate lt 1930`: 2 of 2 cards have birthdate, with values from 1945 to 1950-07.\n",
    );
    folder.pick_by("birthdate eq 1945 and pages gt 100").says(
        0,
        "0 of 2\n",
        "note: asked by itself, each is met by so many of 2 cards: `birthdate eq 1945` 1, `pages gt 100` 1.\n",
    );
    // A test of several that no card meets is told where few match, and not where no reason is found.
    folder.pick_by("pages gt 100 or birthdate eq 1945-06").says(
        0,
        "2\n1 of 2\n",
        "warning: no card meets `birthdate eq 1945-06`: 1 card has a date that overlaps 1945-06 and does not lie in it, such as \
         1945.\n  `birthdate po 1945-06` finds it.\n",
    );
    folder.pick_by("pages gt 100 or birthdate eq 1999").says(0, "2\n1 of 2\n", "");
}

/// A test inside square brackets is asked by itself, and a member's values in its occurrence.
#[test]
fn tests_inside_brackets() {
    let sheet = "bundle related\ntoken related.type\ndate related.since\n";
    let described = "record: 1\nrelated#1.type a\nrelated#1.since 1945\nrelated#2.type b\nrelated#2.since 1950\n";
    let folder = Folder::packed("brackets", sheet, described, "");
    folder.pick_by("related[type eq a].since eq 1945-06").says(
        0,
        "0 of 1\n",
        "warning: no card meets `related[type eq a].since eq 1945-06`: 1 card has a date that overlaps 1945-06 and does not lie in \
         it, such as 1945.\n\
         \x20 `related[type eq a].since po 1945-06` finds it.\n\
         note: asked by itself, each is met by so many of 1 card: `related[type eq a].since eq 1945-06` 0, `type eq a` 1.\n",
    );
    let explained = |filter: &str| {
        let said = folder.run(&["explain", "-e", filter, "--all", "sheet.bin", "cards.bin"]);
        assert_eq!((said.status, said.errors.as_str()), (0, ""));
        said.output.lines().last().unwrap_or_default().to_string()
    };
    assert_eq!(explained("related[type eq b].since gt 1900"), "  related[type eq b].since gt 1900   yes: 1950");
    assert_eq!(
        explained("related[type eq c].since pr false"),
        "  related[type eq c].since pr false   yes: no related.since on this card meets the condition"
    );
}

/// Record numbers that several cards bear, and archives without cards.
#[test]
fn record_numbers_and_empty_archives() {
    let described = "record: 7\ntitle a\nrecord: 8\ntitle b\nrecord: 7\ntitle c\n";
    let folder = Folder::described("repeated", "string title\n", described, "");
    let doubt = |name: &str| {
        format!(
            "warning: {name}: a record number is borne by several cards: 7 (2 cards).\n\
             \x20 A list names them by the number alone, once for each card that matches.\n"
        )
    };
    std::fs::remove_file(folder.path.join("filter.txt")).unwrap();
    let packed = "3 cards and a sheet with 1 parameter, in .\n";
    folder.run(&["pack", ".", "."]).says(0, packed, &doubt("./cards.txt"));
    let told = "the description: 3 cards, a sheet with 1 parameter: all go together\n\
                the blocks: 3 cards, a sheet with 1 parameter, a seal: all go together\n";
    folder.run(&["verify", "."]).says(0, told, &doubt("./cards.bin"));
    folder.pick_by("title eq a").says(0, "7\n1 of 3\n", &doubt("cards.bin"));
    folder.pick_by("title eq b").says(0, "8\n1 of 3\n", "");

    let folder = Folder::described("empty", "string title\n", "", "title pr true\n");
    let doubt = |name: &str| format!("warning: {name} has no cards.\n  It is empty. Is it the file that was meant?\n");
    folder.run(&["pack", ".", "."]).says(0, "0 cards and a sheet with 1 parameter, in .\n", &doubt("./cards.txt"));
    folder.pick_by("title pr true").says(0, "0 of 0\n", &doubt("cards.bin"));
    let verified = folder.run(&["verify", "."]);
    assert_eq!((verified.status, verified.errors), (0, doubt("./cards.bin")));
    let fields = folder.run(&["fields", "sheet.bin", "cards.bin"]);
    assert!(fields.output.ends_with(&doubt("cards.bin")), "{}", fields.output);
}

/// Fields whose values look like those of another kind, and fields that have nothing to doubt.
#[test]
fn fields_by_their_values() {
    let doubt = |kind: &str, texts: &[&str]| {
        let folder = Folder::packed("by-values", &format!("{kind} x\n"), &cards("x", texts.iter().copied()), "");
        let said = folder.run(&["fields", "sheet.bin", "cards.bin"]).output;
        let warning = said.lines().find_map(|line| line.strip_prefix("warning: x is "));
        warning.map(|warning| warning.split(", and ").nth(1).unwrap().to_string()).unwrap_or_default()
    };
    for (kind, texts, told) in [
        ("token", &["1974-06", "1980", "1981"][..], "3 of 3 values look like dates."),
        ("token", &["04/03/1973", "3 March 1973", "19730304"], "3 of 3 values look like dates."),
        ("token", &["1974", "1980", "x"], "2 of 3 values look like dates; others: \"x\"."),
        (
            "string",
            &["1974", "a", "b", "c", "1975", "1976", "1977"],
            "4 of 7 values look like dates; others: \"a\", \"b\".",
        ),
        ("number", &["1974", "1980"], "2 of 2 values look like dates."),
        (
            "reference",
            &["1974-06-30", "Patient/17", "1974-07-01"],
            "2 of 3 values look like dates; others: \"Patient/17\".",
        ),
        ("string", &["1973-1975", "from 1973", "1974/"], "3 of 3 values look like periods."),
        (
            "token",
            &["1973", "1974-1975", "x", "1973-04", "1973/"],
            "4 of 5 values look like dates or periods; others: \"x\".",
        ),
        ("string", &["12", "1,234", "96.5"], "3 of 3 values look like numbers."),
        ("token", &["-3", "12,5", "x"], "2 of 3 values look like numbers; others: \"x\"."),
        ("string", &["http://loinc.org|1234-5"], "1 of 1 value looks like a token."),
        (
            "string",
            &["\"\"", "1973-04", "\"\"", "\" \"", "1974-05"],
            "2 of 2 values that are not empty look like dates.",
        ),
        ("token", &["1973-00-00", "00.03.1973", "Mar-73"], "3 of 3 values look like dates."),
        ("string", &["250", "12", "96", "4"], "4 of 4 values look like numbers."),
        (
            "string",
            &[
                "34", "57", "61", "19", "42", "88", "23", "71", "65", "50", "37", "29", "44", "91", "16", "78", "53",
                "67", "39", "25", "82",
            ],
            "21 of 21 values look like numbers.",
        ),
        // Half is not more than half.
        ("token", &["1974-06", "x"], ""),
        ("token", &["32485007", "19730304", "73211009"], ""),
        ("token", &["4", "12", "7"], ""),
        ("token", &["4019", "2910", "1975", "1850"], ""),
        ("token", &["291", "303", "1974", "1975"], ""),
        ("token", &["1749", "1629", "1539", "1850"], ""),
        ("token", &["1234-5", "1975-2", "1988-5"], ""),
        ("token", &["291.0", "303.9", "81.54"], ""),
        ("reference", &["17", "18"], ""),
        ("string", &["4", "12", "7"], ""),
        ("string", &["5551234", "0301234", "5559876"], ""),
        ("string", &["Ward book 4", "Ward book 1973"], ""),
        ("string", &["555-1234", "+49 30 1234567"], ""),
        ("string", &["May", "June", "August"], ""),
        ("number", &["250", "1974", "1975"], ""),
        ("date", &["1974", "1975-06"], ""),
        ("period", &["1974/"], ""),
    ] {
        assert_eq!(doubt(kind, texts), told, "{kind} {texts:?}");
    }
}

/// Of many values `pick` looks at some, and says so; the figures are the same in every run. Of a field with few it looks at all.
#[test]
fn many_cards_are_looked_at_in_part() {
    let texts: Vec<String> = (0..20_000).map(month).collect();
    let described = cards("discharge", texts.iter().map(String::as_str));
    let described = described + "record: 20001\nnote \"Str\\xF6m\"\n";
    let folder = Folder::packed("many-dates", "token discharge\nstring note\n", &described, "");
    let said = folder.pick_by("discharge eq 1975 or note eq x");
    let doubt = format!(
        "warning: discharge is a token, and 313 of 313 values looked at look like dates.\n{WRONG_KIND}\
         warning: note: 1 of 1 value seems to be in another encoding, first on record 20001: not UTF-8, perhaps Latin-1.\n\
         \x20 Letters beyond ASCII have other bytes there, and a filter in UTF-8 does not find them.\n\
         note: asked by itself, each is met by so many of 20,001 cards: `discharge eq 1975` 0, `note eq x` 0.\n"
    );
    said.says(0, "0 of 20001\n", &doubt);
    // Six in ten, beside a list of many.
    let texts: Vec<String> = (0..3000).map(|n| if n % 10 < 6 { month(n) } else { format!("none {n}") }).collect();
    let described = cards("discharge", texts.iter().map(String::as_str));
    let folder = Folder::packed("most-dates", "token discharge\n", &described, "");
    let said = folder.pick_by("discharge ne x");
    assert!(said.output.ends_with("\n3000 of 3000\n"), "{}", said.output);
    let doubt = "warning: discharge is a token, and 224 of 376 values looked at look like dates; others: \"none 18\", \"none 26\".\n";
    assert_eq!(said.errors, format!("{doubt}{WRONG_KIND}"));
}

/// An archive with nothing to doubt: every command is silent beside its answer.
#[test]
fn an_archive_with_nothing_to_doubt() {
    let sheet = "string title\ndate birthdate\ntoken code\nnumber pages\nreference subject\nperiod stay\nstring ward\n\
                 token diagnosis\nbundle related\ntoken related.type\nreference related.target\n";
    let card = |record: u32| {
        format!(
            "record: {record}\ntitle Ward book {}, Štefan Dvořák\nbirthdate {}-{:02}\ncode http://loinc.org|{}-{}\npages {}.5\n\
             subject Patient/{record}\nstay {}/{}\nward Women {}\ndiagnosis {}\ndiagnosis {}\nrelated#1.type replaces\n\
             related#1.target Observation/{record}\n",
            record % 7,
            1900 + record % 60,
            record % 12 + 1,
            1200 + record,
            record % 10,
            record % 300,
            1950 + record % 20,
            1970 + record % 9,
            record % 4,
            290 + record % 30,
            2900 + record % 200,
        )
    };
    let described: String = (1..=60).map(card).collect();
    let folder = Folder::described("nothing", sheet, &described, "title co \"ŠTEFAN\" or birthdate ge 1900\n");
    folder.write("string.txt", "birthdate=ge1900&title=ward\n");
    folder.run(&["pack", ".", "."]).says(0, "60 cards and a sheet with 11 parameters, in .\n", "");
    let commands: [&[&str]; 13] = [
        &["pick", "sheet.bin", "filter.txt", "cards.bin"],
        &["pick", "--stream", "sheet.bin", "filter.txt", "cards.bin"],
        &["pick", "-e", "diagnosis eq 291 and ward co women", "sheet.bin", "cards.bin"],
        &["pick", "-e", "related[type eq replaces].target re Observation/7", "sheet.bin", "cards.bin"],
        &["pick", "-e", "not (pages lt 3) and stay po 1960", "sheet.bin", "cards.bin"],
        &["search", "sheet.bin", "string.txt", "cards.bin"],
        &["report", "sheet.bin", "filter.txt", "cards.bin"],
        &["check", "sheet.bin", "filter.txt"],
        &["check", "sheet.bin", "filter.txt", "cards.bin"],
        &["check", "--search", "sheet.bin", "string.txt", "cards.bin"],
        &["explain", "--record", "7", "sheet.bin", "filter.txt", "cards.bin"],
        &["explain", "--all", "sheet.bin", "filter.txt", "cards.bin"],
        &["verify", "."],
    ];
    for command in commands {
        let said = folder.run(command);
        assert_eq!((said.status, said.errors.as_str()), (0, ""), "{command:?}");
    }
    let fields = folder.run(&["fields", "sheet.bin", "cards.bin"]);
    assert!(!fields.output.contains("warning"), "{}", fields.output);
    for command in commands {
        let said = folder.run(&[command, &["--json"]].concat());
        assert!(said.output.trim_end().ends_with("\"warnings\":[]}"), "{command:?}: {}", said.output);
    }
}
