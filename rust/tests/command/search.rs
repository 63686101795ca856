//! `sirophan search`.

use crate::folder::Folder;

#[test]
fn search_lists_and_counts() {
    let folder = Folder::ward("search");
    folder.search("title=ward").says(0, "7\n19\n2 of 3\n", "");
    folder.search("birthdate=lt1975&title=ward,admissions\n").says(0, "7\n300\n2 of 3\n", "");
    folder.search("title=admissions\\,+men&pages=ge50,12").says(0, "300\n1 of 3\n", "");
    folder.write("string.txt", "code=http://loinc.org|1234-5\n");
    let files = ["sheet.bin", "string.txt", "cards.bin"];
    let lines = "{\"record\":7}\n{\"record\":19}\n{\"matching\":2,\"cards\":3,\"warnings\":[]}\n";
    folder.run(&["search", files[0], files[1], files[2], "--json", "--stream"]).says(0, lines, "");
    folder.run(&["search", "sheet.bin", "title=ward", "cards.bin"]).fails(
        3,
        "sirophan: title=ward cannot be opened: No such file or directory\n\
         \x20 This is to be a file. The text itself is given by -e in its place.\n",
    );
    folder.change("cards.bin", |cards| cards[600] ^= 1);
    let damaged = folder.search("title=ward");
    assert_eq!((damaged.status, damaged.output.as_str()), (4, ""));
    assert!(damaged.errors.starts_with("cards.bin: refused 21 at 1: "), "{}", damaged.errors);
}

/// The pair at fault is underlined, and what to do stands below.
#[test]
fn search_helps_with_strings() {
    let sheet = "string title\nnumber pages\ndate birthdate\nperiod stay\nbundle related\ntoken related.type\n";
    let folder = Folder::packed("search-strings", sheet, "record: 1\n", "title pr true");
    let no_pair = "A part of the search string is no pair: it has no \"=\", or a % without two hex digits behind it.";
    let unknown = "The name is not on the sheet, or cannot stand here: members are named with their bundle's brackets.";
    let unreadable = "The value cannot be read as the parameter's kind, or for pr as true or false.";
    let no_meaning = "The operator has no meaning for a parameter of this kind.";
    let pair = "A pair is a name, = and a value, as in `title=ward`. An & in a value is written %26.";
    let cases = [
        ("title=a&ward", 50, 8..12, no_pair, pair),
        ("title=a&&pages=1", 50, 8..9, no_pair, "There is no pair before or behind an &. Leave the & out."),
        ("title=a&", 50, 8..9, no_pair, "There is no pair before or behind an &. Leave the & out."),
        ("title=5%", 50, 0..8, no_pair, "Behind % stand two hex digits. A % itself is written %25."),
        ("tilte=x&pages=1", 14, 0..7, unknown, "tilte is not on the sheet. Is it title?"),
        (
            "title:exact=x",
            14,
            0..13,
            unknown,
            ":exact is a modifier, and search strings have none here.\n  The filter `title eq x` asks it: `sirophan pick -e 'title \
             eq x'`.\n  Large and small letters are alike in it, other than in :exact.",
        ),
        ("ward=x", 14, 0..6, unknown, "ward is not on the sheet. There are title, pages, birthdate and stay."),
        (
            "type=x",
            14,
            0..6,
            unknown,
            "type is a member of related. Write `related[type pr true].type` in place of type.\n  Search strings ask for no \
             bundles and no members. `sirophan pick` takes filters, which do.",
        ),
        (
            "related=x",
            14,
            0..9,
            unknown,
            "related is a bundle of type. Write `related[type pr true].type pr true`.\n  Search strings ask for no bundles and \
             no members. `sirophan pick` takes filters, which do.",
        ),
        (
            "title=a&pages=1,sa5,x",
            16,
            8..21,
            no_meaning,
            "pages is a number, which has the prefixes eq, ne, gt, lt, ge and le.\n  sa is for dates and periods. If that is \
             what pages holds, the sheet gives it the wrong kind.",
        ),
        (
            "pages=1,getwelve",
            17,
            0..16,
            unreadable,
            "pages is a number, and twelve cannot be read as one: 1 to 8 digits, then perhaps a point and 1 to 9 digits.",
        ),
        (
            "stay=1974/",
            17,
            0..10,
            unreadable,
            "stay is a period, which is asked by a date, and 1974/ cannot be read as one: YYYY, YYYY-MM, YYYY-MM-DD, or \
             YYYY-MM-DDThh:mm:ss with Z or a zone such as +02:00.",
        ),
        (
            "birthdate=1974-06-01T00:00:00+01:00",
            17,
            0..35,
            unreadable,
            "birthdate is a date, and 1974-06-01T00:00:00 01:00 cannot be read as one: YYYY, YYYY-MM, YYYY-MM-DD, or \
             YYYY-MM-DDThh:mm:ss with Z or a zone such as +02:00.\n  A + stands for a space. A plus itself is written %2B.",
        ),
    ];
    for (string, number, part, sentence, help) in cases {
        let carets = format!("{}{}", " ".repeat(part.start), "^".repeat(part.len()));
        let message =
            format!("{string}\n{carets}\nstandard input: refused {number} at {}: {sentence}\n  {help}\n", part.start);
        folder.search(string).fails(2, &message);
    }
    folder.search("title=a").says(
        0,
        "0 of 1\n",
        "warning: no card meets `title=a`: no card has title.\n  `sirophan fields` shows what the cards have.\n",
    );
}

#[test]
fn search_helps_with_sizes_and_with_filters() {
    let folder = Folder::ward("search-sizes");
    folder.search("").fails(
        2,
        "standard input: refused 10 at 0: The filter or search string is empty or longer than 1,024 bytes.\n  It has 0 bytes.\n",
    );
    folder.search(&format!("title={}&pages=1", ",".repeat(32))).fails(
        2,
        "standard input: refused 51 at 0: The search string has more than 32 alternatives.\n\
         \x20 It has 34, over all pairs. Each comma makes one more; a comma of the text is written \\,.\n",
    );
    folder.search("title co ward").fails(
        2,
        "title co ward\n^^^^^^^^^^^^^\nstandard input: refused 50 at 0: A part of the search string is no pair: it has no \
         \"=\", or a % without two hex digits behind it.\n\
         \x20 It is a filter, and `sirophan pick` takes those.\n\
         \x20 A pair is a name, = and a value, as in `title=ward`. An & in a value is written %26.\n",
    );
    let picked = folder.pick("title=ward");
    assert!(picked.errors.contains("\n  It is a search string, and `sirophan search` takes those.\n"), "{picked:?}");
    assert_eq!((picked.status, picked.output.as_str()), (2, ""));
}

#[test]
fn search_says_what_may_be_meant_otherwise() {
    let folder = Folder::packed(
        "search-doubts",
        "string title\ntoken birthdate\n",
        "record: 1\ntitle x\nbirthdate 1974\n",
        "title pr true",
    );
    folder.search("birthdate=1980").says(
        0,
        "0 of 1\n",
        "warning: birthdate is a token, and 1 of 1 value looks like a date.\n\
         \x20 If it holds dates, the sheet gives it the wrong kind, and a filter asks something else than it seems to.\n",
    );
    let told = "asks for its quotes too.\n  A search string has no quotes: leave them out.\n";
    let near = |pair: &str| {
        format!(
            "warning: no card meets `{pair}`: 1 value differs only in points and the like, such as \"x\".\n\
             \x20 Such texts are compared byte by byte: copy it from a card. It stands on record 1.\n"
        )
    };
    let quoted = format!("warning: the value \"\\\"x\\\"\" of title {told}{}", near("title=%22x%22"));
    folder.search("title=%22x%22").says(0, "0 of 1\n", &quoted);
    let quoted = format!("warning: the value 'x' of title {told}{}", near("title='x'"));
    folder.search("title='x'").says(0, "0 of 1\n", &quoted);
    folder.search("title=x\r\n").says(
        0,
        "0 of 1\n",
        "warning: the search string has a line end in it, and asks for it too.\n\
         \x20 Save it with one line feed at its end, or without a line end.\n\
         warning: no card meets `title=x\u{FFFD}`: 1 value differs only in spaces, such as \"x\".\n\
         \x20 Such texts are compared byte by byte: copy it from a card. It stands on record 1.\n",
    );
    folder.search("title=%F6").says(
        0,
        "0 of 1\n",
        "warning: the search string seems to be in another encoding: not UTF-8, perhaps Latin-1.\n\
         \x20 Letters beyond ASCII have other bytes there: on cards in UTF-8 it does not find them.\n\
         note: no card meets `title=%F6`: 1 of 1 card has title, such as \"x\".\n",
    );
}

/// Modifiers, parameters about the answer, addresses: each is named for what it is, with the filter that asks it.
#[test]
fn search_names_what_it_does_not_take() {
    let sheet = "string title\ntoken code\nreference subject\ndate birthdate\n";
    let folder = Folder::packed("search-modifiers", sheet, "record: 1\n", "");
    let unknown = "The name is not on the sheet, or cannot stand here: members are named with their bundle's brackets.";
    let modifier = |name: &str, filter: &str| {
        let quoted = filter.replace('\'', "'\\''");
        format!(
            ":{name} is a modifier, and search strings have none here.\n  The filter `{filter}` asks it: `sirophan pick -e \
             '{quoted}'`."
        )
    };
    for (string, help) in [
        ("code:not=291", modifier("not", "not (code eq 291)")),
        ("code:not=291,292", modifier("not", "not (code eq 291 or code eq 292)")),
        ("birthdate:not=lt1975", modifier("not", "not (birthdate lt 1975)")),
        ("title:not=O'Neill", modifier("not", "not (title sw O'Neill)")),
        ("subject:missing=true", modifier("missing", "subject pr false")),
        ("subject:missing=false", modifier("missing", "subject pr true")),
        ("title:contains=ward+4", modifier("contains", "title co \"ward 4\"")),
        (
            "title:exact=Ward",
            modifier("exact", "title eq Ward") + "\n  Large and small letters are alike in it, other than in :exact.",
        ),
        (
            "title:above=x",
            ":above is a modifier, and search strings have none here.\n  Without it the string asks something else. See `sirophan \
             pick` for what filters ask of title."
                .into(),
        ),
        ("titel:not=x", "titel is not on the sheet. Is it title?".into()),
        (
            "_filter=title+co+x",
            "_filter carries a filter. `sirophan query` asks it with the pairs beside it, and `sirophan pick -e 'title co x'` alone.".into(),
        ),
        (
            "_count=10",
            "_count says how many are listed at a time, and asks nothing of a card. All cards that match are listed: leave it out."
                .into(),
        ),
        (
            "?title=x",
            "The ? belongs to an address, and no part of a search string: leave it out, and begin with title.".into(),
        ),
        (
            "http://h/Patient?title=x",
            "http://h/Patient? is an address, and no part of a search string: leave it out, and begin with title.".into(),
        ),
        ("birthdate=1974\u{2013}06", String::new()),
    ] {
        let said = folder.search(string);
        assert_eq!((said.status, said.output.as_str()), (2, ""), "{string}");
        let carets = "^".repeat(string.chars().count());
        let message = format!("{string}\n{carets}\nstandard input: refused 14 at 0: {unknown}\n  {help}\n");
        let dash = "  It has an en dash (U+2013) in the place of a hyphen. Write 1974-06.\n";
        if help.is_empty() {
            assert!(said.errors.contains(dash), "{}", said.errors);
        } else {
            assert_eq!(said.errors, message);
        }
    }
}
