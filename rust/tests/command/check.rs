//! `sirophan check`.

use crate::folder::{Folder, sum};

#[test]
fn check_answers_with_the_tests() {
    let folder = Folder::ward("check");
    folder.run(&["check", "sheet.bin", "filter.txt"]).says(
        0,
        "3 tests\n\
         \x20 birthdate  date    le  1974-06\n\
         \x20 code       token   eq  loinc|1234-5\n\
         \x20 title      string  co  \"admissions\"\n",
        "",
    );
    folder.run_with(&["check", "--json", "sheet.bin", "-"], b"pages gt 5").says(
        0,
        "{\"count\":1,\"tests\":[{\"field\":\"pages\",\"kind\":\"number\",\"operator\":\"gt\",\"value\":\"5\"}],\"warnings\":[]}\n",
        "",
    );
    folder.run_with(&["check", "--json", "sheet.bin", "-"], b"title co \"a\\tb \\\\ c\"").says(
        0,
        "{\"count\":1,\"tests\":[{\"field\":\"title\",\"kind\":\"string\",\"operator\":\"co\",\"value\":\"a\\u0009b \\\\ c\"}],\"warnings\":[]}\n",
        "",
    );
    let folder = Folder::packed("check-name", "token discharge-date\n", "record: 1\n", "discharge-date eq 1974");
    folder.run(&["check", "sheet.bin", "filter.txt"]).says(
        0,
        "1 test\n  discharge-date  token  eq  1974\n",
        "warning: the value 1974 of discharge-date looks like a date, and discharge-date is a token: it is asked as a text.\n\
         \x20 `sirophan fields` shows what it holds.\n",
    );
}

#[test]
fn check_helps_with_tests() {
    let sheet = "string title\nnumber pages\nbundle related\ntoken related.type\nreference related.target\n";
    let folder = Folder::packed("check-tests", sheet, "record: 1\n", "title pr true");
    let unknown = "The name is not on the sheet, or cannot stand here: members are named with their bundle's brackets.";
    let unreadable = "The value cannot be read as the parameter's kind, or for pr as true or false.";
    let cases = [
        ("tilte co x", 14, 0, unknown, "tilte is not on the sheet. Is it title?"),
        ("ward eq 4", 14, 0, unknown, "ward is not on the sheet. There are title, pages and related."),
        (
            "type eq x",
            14,
            0,
            unknown,
            "type is a member of related. Write `related[type pr true].type` in place of type.",
        ),
        ("related[tpye eq x].target pr true", 14, 8, unknown, "tpye is no member of related. Is it type?"),
        ("title[x eq x].target pr true", 14, 0, unknown, "title is no bundle, and has no square brackets behind it."),
        (
            "title ap x",
            15,
            0,
            "The operators ap, ss, sb, in and ni have no meaning for any kind.",
            "title is a string, which has the operators eq, ne, co, sw, ew and pr.",
        ),
        (
            "pages eq twelve",
            17,
            0,
            unreadable,
            "pages is a number, and twelve cannot be read as one: 1 to 8 digits, then perhaps a point and 1 to 9 digits.",
        ),
        (
            "related[target eq x].type pr true",
            16,
            8,
            "The operator has no meaning for a parameter of this kind.",
            "related.target is a reference, which has the operators pr and re.\n  A reference is asked by re, as in \
             `re Patient/17`.\n  eq is for strings, numbers, dates, tokens and periods. If that is what \
             related.target holds, the sheet gives it the wrong kind.",
        ),
        ("pages pr maybe", 17, 0, unreadable, "Behind pr stands true (there is a text) or false (there is none)."),
        (
            "related pr true",
            18,
            0,
            "A bundle's name needs a condition in square brackets, and a member behind it.",
            "related is a bundle of type and target. Write `related[type pr true].target pr true`.",
        ),
    ];
    for (filter, number, place, sentence, help) in cases {
        let test = filter[place..].split(']').next().unwrap();
        let length = if place == 0 { filter.len() } else { test.len() };
        let carets = format!("{}{}", " ".repeat(place), "^".repeat(length));
        let message =
            format!("{filter}\n{carets}\nstandard input: refused {number} at {place}: {sentence}\n  {help}\n");
        folder.check(filter).fails(2, &message);
    }
}

#[test]
#[expect(clippy::too_many_lines, reason = "it is one table")]
fn check_helps_with_texts_that_are_no_filters() {
    let sheet = "string title\nbundle related\ntoken related.type\nreference related.target\n";
    let folder = Folder::packed("check-texts", sheet, "record: 1\n", "title pr true");
    let told = |filter: &str, place: usize, help: &str| {
        let sentence = "The text is no filter by the grammar: no filter goes on like this.";
        let carets = format!("{}^", " ".repeat(place));
        let message = format!("{filter}\n{carets}\nstandard input: refused 11 at {place}: {sentence}\n  {help}\n");
        folder.check(filter).fails(2, &message);
    };
    let words = "Words have a space before them.";
    let title = "title is a string, which has the operators eq, ne, co, sw, ew and pr.";
    for (filter, place, help) in [
        (" ", 1, "Here could stand a name or `(`."),
        ("related", 7, "Here could stand an operator or `[`. Words have a space before them."),
        ("wrad", 4, "Here could stand an operator or `[`. Words have a space before them."),
        ("title eq", 8, "Here could stand a value. Words have a space before them."),
        ("title eq ", 9, "Here could stand a value."),
        ("title eq \"a\"b", 12, "Here could stand `and`, `or` or the end. Words have a space before them."),
        ("title eq x)", 10, "Here could stand `and`, `or` or the end. Words have a space before them."),
        ("(title eq x", 11, "Here could stand `)`, `and` or `or`. Words have a space before them."),
        (
            "not title eq x",
            4,
            "Behind not stands a filter in brackets: write `not (title eq x)`.\n  Here could stand `(`.",
        ),
        ("title eq x and", 14, "Here could stand a name or `(`. Words have a space before them."),
        ("related[].target pr true", 8, "Here could stand a name or `(`."),
        ("related[type eq x", 17, "Here could stand `]`, `and` or `or`. Words have a space before them."),
        ("related[type eq x] .target pr true", 18, "Here could stand `.`. Words have a space before them."),
        (
            "title eq \"abc",
            13,
            "It goes on between double quotes. Close them with \", and write \\t and the like for control signs.",
        ),
    ] {
        told(filter, place, help);
    }
    let no_word = "The last word cannot end here: it is no name and no operator.";
    told("title e", 7, &format!("{no_word}\n  {title}"));
    told("title", 5, &format!("Here could stand an operator. {words}\n  {title}"));
    let token = "type is a token, which has the operators eq, ne and pr.";
    told(
        "related[type = x].target pr true",
        13,
        &format!("= is written eq.\n  Here could stand an operator.\n  {token}"),
    );
    told("related[type is x].target pr true", 14, &format!("{no_word}\n  {token}"));
    // What other languages have.
    told("title = x", 6, &format!("= is written eq.\n  Here could stand an operator.\n  {title}"));
    let joins = "Here could stand `and`, `or` or the end.";
    told("title eq x && title pr true", 11, &format!("&& is written and.\n  {joins}"));
    told("title equals x", 8, &format!("equals is written eq.\n  Here could stand a value. {words}"));
    let several = "A value of several words stands between double quotes.";
    told("title eq Ward book 4", 14, &format!("{several}\n  {joins}"));
    told("(title eq x) title pr true", 13, joins);
    let value = "Here could stand a value.";
    told("title eq \u{F6}", 9, &format!("Letters beyond ASCII stand between double quotes only.\n  {value}"));
    let curly = "It has a curly quote. Texts are quoted with the straight sign \".";
    told("title eq \u{201C}x\u{201D}", 9, &format!("{curly}\n  {value}"));
    let capitals = "EQ is written eq: operators, and, or and not are in small letters.";
    told("title EQ x", 6, &format!("{capitals}\n  Here could stand an operator.\n  {title}"));
    for (filter, shown, place, help, stands) in [
        (
            "title eq x\r\n",
            "title eq x\u{FFFD}\n          ^",
            10,
            "It has a Windows line end (0x0D). Save it with a line feed alone, or mend it by `tr -d '\\r' < OLD > NEW`.",
            format!("Here could stand `and`, `or` or the end. {words}"),
        ),
        (
            "\u{FEFF}title eq x",
            "\u{FEFF}title eq x\n^",
            0,
            "It has a byte order mark (EF BB BF). Save it as UTF-8 without one, or mend it by `tail -c +4 OLD > NEW`.",
            "Here could stand a name or `(`.".into(),
        ),
        (
            "title eq x\n\n",
            "title eq x\u{FFFD}\n          ^",
            10,
            "It has more than one line. A filter is one line.",
            format!("Here could stand `and`, `or` or the end. {words}"),
        ),
        (
            "title\teq x",
            "title\u{FFFD}eq x\n     ^",
            5,
            "It has a tab. Only spaces may stand between the words.",
            format!("Here could stand an operator. {words}\n  {title}"),
        ),
    ] {
        let sentence = "The text is no filter by the grammar: no filter goes on like this.";
        let message = format!("{shown}\nstandard input: refused 11 at {place}: {sentence}\n  {help}\n  {stands}\n");
        folder.check(filter).fails(2, &message);
    }
    let deep = "(".repeat(9);
    folder.check(&deep).fails(
        2,
        &format!(
            "{deep}\n        ^\nstandard input: refused 12 at 8: The text is no filter: here it would need brackets more than 8 \
             deep.\n  Round and square brackets together nest at most 8 deep.\n"
        ),
    );
    let many = ["a eq x"; 33].join(" or ");
    let said = folder.check(&many);
    assert!(
        said.errors.ends_with("  A filter has at most 32 tests, those inside square brackets counted too.\n"),
        "{said:?}"
    );
    let empty = "standard input: refused 10 at 0: The filter or search string is empty or longer than 1,024 bytes.\n  It has 0 bytes.\n";
    folder.check("\n").fails(2, empty);
    let long = "standard input: refused 10 at 0: The filter or search string is empty or longer than 1,024 bytes.\n  It has 2,000 bytes.\n";
    folder.check(&"x".repeat(2000)).fails(2, long);
    folder.write("many.bin", folder.read("cards.bin").repeat(3));
    folder.run(&["check", "sheet.bin", "many.bin"]).fails(
        2,
        "many.bin: refused 10 at 0: The filter or search string is empty or longer than 1,024 bytes.\n\
         \x20 It is a file of blocks. The filter is another file, such as filter.txt, and comes before the cards.\n",
    );
}

#[test]
fn check_helps_with_sheets() {
    let folder = Folder::ward("check-sheets");
    let check = |sheet: &str| folder.run(&["check", sheet, "filter.txt"]);
    folder.write("sheet.txt", "string title\n");
    check("sheet.txt").fails(
        4,
        "sheet.txt: refused 1 at 0: The sheet is not 512 bytes long.\n\
         \x20 It is a text. A description becomes a sheet by `sirophan pack DIR OUT`.\n",
    );
    check("cards.bin").fails(
        4,
        "cards.bin: refused 1 at 0: The sheet is not 512 bytes long.\n\
         \x20 It begins as a card does. The sheet is another file, such as sheet.bin.\n",
    );
    folder.write("empty.bin", "");
    check("empty.bin").fails(4, "empty.bin: refused 1 at 0: The sheet is not 512 bytes long.\n  It has 0 bytes.\n");
    folder.change("sheet.bin", |sheet| sheet[2] = 9);
    check("sheet.bin").fails(
        4,
        "sheet.bin: refused 2 at 0: The sheet's check sum is wrong.\n\
         \x20 It was changed or damaged since it was written: pack it again from its description.\n",
    );
    folder.change("sheet.bin", |sheet| sum(sheet, 0));
    check("sheet.bin").fails(
        4,
        "sheet.bin: refused 3 at 0: The sheet breaks its layout, or the rules for its names or its bundles.\n\
         \x20 title has kind 9, which no kind has.\n",
    );
    folder.change("sheet.bin", |sheet| {
        sheet[2] = 7;
        sum(sheet, 0);
    });
    check("sheet.bin").fails(
        4,
        "sheet.bin: refused 3 at 0: The sheet breaks its layout, or the rules for its names or its bundles.\n\
         \x20 title is a bundle, and a sheet that begins with 0x50 has none: it begins with 0x51.\n",
    );
}

/// A dash in a date, and a filter that stands in an address.
#[test]
fn check_names_dashes_and_addresses() {
    let folder = Folder::packed("check-dashes", "date birthdate\n", "record: 1\n", "");
    let dash = "  It has an en dash (U+2013) in the place of a hyphen. Write 1974-06.\n";
    let bare = folder.check("birthdate eq 1974\u{2013}06");
    assert!(bare.errors.contains(dash) && !bare.errors.contains("Letters"), "{}", bare.errors);
    let quoted = folder.check("birthdate eq \"1974\u{2013}06\"");
    assert!(quoted.errors.contains(dash), "{}", quoted.errors);
    let modified = folder.check("birthdate:missing=true");
    let told = "  :missing is a modifier, and search strings have none here.\n\
                \x20 The filter `birthdate pr false` asks it: `sirophan pick -e 'birthdate pr false'`.\n";
    assert!(modified.errors.contains(told), "{}", modified.errors);
    for text in ["_filter=birthdate+lt+1975", "http://h/Patient?_filter=birthdate%20lt%201975"] {
        let said = folder.check(text);
        let told = "  _filter carries a filter. `sirophan query` asks it with the pairs beside it, and `sirophan pick -e 'birthdate lt 1975'` alone.\n";
        assert!(said.status == 2 && said.errors.contains(told), "{}", said.errors);
    }
}
