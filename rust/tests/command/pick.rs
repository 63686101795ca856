//! `sirophan pick`.

use crate::folder::{Folder, sum};

#[test]
fn pick_lists_and_counts() {
    let folder = Folder::ward("pick");
    let files = ["sheet.bin", "filter.txt", "cards.bin"];
    folder.run(&["pick", files[0], files[1], files[2]]).says(0, "7\n300\n2 of 3\n", "");
    folder.run(&["pick", "--stream", files[0], files[1], files[2]]).says(0, "7\n300\n2 of 3\n", "");
    let json = "{\"records\":[7,300],\"matching\":2,\"cards\":3,\"warnings\":[]}\n";
    folder.run(&["pick", "--json", files[0], files[1], files[2]]).says(0, json, "");
    let lines = "{\"record\":7}\n{\"record\":300}\n{\"matching\":2,\"cards\":3,\"warnings\":[]}\n";
    folder.run(&["pick", files[0], files[1], files[2], "--json", "--stream"]).says(0, lines, "");
    for place in 0..3 {
        let mut paths = files;
        paths[place] = "-";
        let said = folder.run_with(&["pick", paths[0], paths[1], paths[2]], &folder.read(files[place]));
        said.says(0, "7\n300\n2 of 3\n", "");
    }
    folder.unsealed().write("cards.bin", "");
    folder.pick("title pr true\n").says(
        0,
        "0 of 0\n",
        "warning: cards.bin has no cards.\n  It is empty. Is it the file that was meant?\n",
    );
}

#[test]
fn pick_refuses_a_filter_before_the_cards() {
    let folder = Folder::ward("pick-filter");
    folder.pick("title pr true or code gt 5\n").fails(
        2,
        "title pr true or code gt 5\n\
         \x20                ^^^^^^^^^\n\
         standard input: refused 16 at 17: The operator has no meaning for a parameter of this kind.\n\
         \x20 code is a token, which has the operators eq, ne and pr.\n\
         \x20 gt is for numbers, dates and periods. If that is what code holds, the sheet gives it the wrong kind.\n",
    );
    let json = folder.run_with(&["pick", "--json", "sheet.bin", "-", "cards.bin"], b"title eq");
    json.fails(
        2,
        "{\"level\":\"error\",\"message\":\"standard input: refused 11 at 8: The text is no filter by the grammar: no filter goes on \
         like this.\",\"help\":[\"Here could stand a value. Words have a space before them.\"],\"refused\":11,\"place\":8}\n",
    );
}

#[test]
fn pick_names_the_card_at_fault() {
    let folder = Folder::ward("pick-cards");
    folder.change("cards.bin", |cards| cards[512 + 100] ^= 1);
    folder.pick("title pr true").fails(
        4,
        "cards.bin: refused 21 at 1: The card's check sum is wrong.\n\
         \x20 card 1, record 19: The card's check sum is wrong. It was changed or damaged since it was written: pack it again \
         from its description.\n\
         \x20 There is no answer until it is put right. `sirophan show --record 19 cards.bin` shows it.\n",
    );
    folder.change("cards.bin", |cards| {
        cards[512 + 5] = 65;
        sum(cards, 512);
    });
    folder.pick("title pr true").fails(
        4,
        "cards.bin: refused 22 at 1: The card breaks its layout.\n\
         \x20 card 1, record 19: The card breaks its layout. It has more entries than are allowed.\n\
         \x20 There is no answer until it is put right. `sirophan show --record 19 cards.bin` shows it.\n",
    );
    let folder = Folder::ward("pick-misfit");
    folder.change("cards.bin", |cards| {
        let pages = cards.windows(4).position(|bytes| bytes == b"12.0").unwrap();
        cards[pages + 1] = b'x';
        sum(cards, 0);
    });
    folder.pick("title pr true").fails(
        4,
        "cards.bin: refused 23 at 0: The card does not fit the sheet: a text is under a bundle or no parameter, or cannot be read.\n\
         \x20 card 0, record 7: pages: 1x.0 cannot be read as a number: 1 to 8 digits, then perhaps a point and 1 to 9 digits.\n\
         \x20 There is no answer until it is put right. `sirophan show --record 7 cards.bin` shows it.\n",
    );
    let folder = Folder::ward("pick-rest");
    folder.unsealed().change("cards.bin", |cards| cards.push(b'C'));
    folder.pick("title pr true").fails(
        4,
        "cards.bin: refused 20 at 0: The card is not 512 bytes long, or the run is no whole number of cards or over 128.\n\
         \x20 Behind its last whole card it has 1 byte.\n",
    );
    let text = "It is a text. A description becomes cards by `sirophan pack DIR OUT`.";
    folder.write("cards.bin", "record: 1\n");
    folder.pick("title pr true").fails(
        4,
        &format!(
            "cards.bin: refused 20 at 0: The card is not 512 bytes long, or the run is no whole number of cards or over 128.\n\
             \x20 {text}\n"
        ),
    );
    folder.write("cards.bin", "record: 1\ntitle Ward 41\n".repeat(64).split_at(1024).0);
    folder
        .pick("title pr true")
        .fails(4, &format!("cards.bin: refused 21 at 0: The card's check sum is wrong.\n  card 0: {text}\n"));
    folder.write("cards.bin", folder.read("sheet.bin"));
    folder.pick("title pr true").fails(
        4,
        "cards.bin: refused 22 at 0: The card breaks its layout.\n\
         \x20 card 0: The card breaks its layout. It has the first byte of a sheet.\n",
    );
}

/// Five thousand cards: the order is kept, however many processors there are; a late fault takes the list back.
#[test]
fn pick_goes_through_many_cards_in_order() {
    let cards: String = (0..5000).map(|record| format!("record: {}\n", 9000 - record)).collect();
    let folder = Folder::packed("many", "string title\n", &cards, "title pr false\n");
    let numbers = |count: u32| (0..count).map(|record| format!("{}\n", 9000 - record)).collect::<String>();
    let files = ["sheet.bin", "filter.txt", "cards.bin"];
    folder.run(&["pick", files[0], files[1], files[2]]).says(0, &format!("{}5000 of 5000\n", numbers(5000)), "");
    folder.change("cards.bin", |cards| cards[4500 * 512 + 9] = 1);
    let message = "cards.bin: refused 21 at 4500: The card's check sum is wrong.\n\
                   \x20 card 4500, record 4500: The card's check sum is wrong. It was changed or damaged since it was written: \
                   pack it again from its description.\n\
                   \x20 There is no answer until it is put right. `sirophan show --record 4500 cards.bin` shows it.\n";
    folder.run(&["pick", files[0], files[1], files[2]]).fails(4, message);
    let streamed = folder.run(&["pick", "--stream", files[0], files[1], files[2]]);
    streamed.says(4, &numbers(4500 / 128 * 128), message);
}

#[test]
fn pick_says_what_may_be_meant_otherwise() {
    let cards = "record: 1\nbirthdate 1974-06\ntitle Ward\nrecord: 2\nbirthdate 1980\nbirthdate 1981\n\
                 title \"Str\\xF6m\"\nsubject http://loinc.org|1\n";
    let sheet = "string title\ntoken birthdate\nstring subject\n";
    let folder = Folder::packed("doubts", sheet, cards, "birthdate eq 1974\n");
    folder.run(&["pick", "sheet.bin", "filter.txt", "cards.bin"]).says(
        0,
        "0 of 2\n",
        "warning: birthdate is a token, and 3 of 3 values look like dates.\n\
         \x20 If it holds dates, the sheet gives it the wrong kind, and a filter asks something else than it seems to.\n",
    );
    let encoding = "warning: title: 1 of 2 values seems to be in another encoding, first on record 2: not UTF-8, perhaps Latin-1.\n\
                    \x20 Letters beyond ASCII have other bytes there, and a filter in UTF-8 does not find them.\n";
    let quotes = "warning: the value 'Ward' of title asks for its quotes too.\n  Write \"Ward\" to ask without them.\n";
    let note = |test: &str| format!("note: no card meets `{test}`: 2 of 2 cards have title, such as \"Ward\".\n");
    let near = "warning: no card meets `title co 'Ward'`: 1 value differs only in points and the like, such as \"Ward\".\n\
                \x20 Such texts are compared byte by byte: copy it from a card. It stands on record 1.\n";
    folder.pick("title co 'Ward'").says(0, "0 of 2\n", &format!("{quotes}{encoding}{near}"));
    let joins = "warning: `and` and `or` are read from left to right, with equal rank. The filter asks:\n\
                 \x20 (subject eq loinc|1 or title pr false) and title pr true\n";
    let kind = "warning: subject is a string, and 1 of 1 value looks like a token.\n\
                \x20 If it holds tokens, the sheet gives it the wrong kind, and a filter asks something else than it seems to.\n";
    let counts = "note: asked by itself, each is met by so many of 2 cards: `subject eq loinc|1` 0, `title pr false` 0, \
                  `title pr true` 2.\n";
    let filter = "subject eq loinc|1 or title pr false and title pr true";
    folder.pick(filter).says(0, "0 of 2\n", &format!("{joins}{encoding}{kind}{counts}"));
    let latin = "warning: the filter seems to be in another encoding: not UTF-8, perhaps Latin-1.\n\
                 \x20 Letters beyond ASCII have other bytes there: on cards in UTF-8 it does not find them.\n";
    let said = folder.run_with(&["pick", "sheet.bin", "-", "cards.bin"], b"title eq \"\xD6\"");
    said.says(0, "0 of 2\n", &format!("{latin}{encoding}{}", note("title eq \"\u{FFFD}\"")));
    let json =
        folder.run_with(&["pick", "--json", "sheet.bin", "-", "cards.bin"], b"title co 'Ward' and subject pr true");
    let warning = "{\"level\":\"warning\",\"code\":\"quotes\",\"field\":\"title\",\"message\":\"the value 'Ward' of title asks for its quotes too.\",\
                   \"help\":[\"Write \\\"Ward\\\" to ask without them.\"]}";
    assert_eq!(json.errors, "");
    let start = format!("{{\"records\":[],\"matching\":0,\"cards\":2,\"warnings\":[{warning},{{");
    assert!(json.output.starts_with(&start), "{}", json.output);
}
