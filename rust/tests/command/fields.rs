//! `sirophan fields`.

use crate::folder::{Folder, sum};

#[test]
fn fields_show_what_the_cards_hold() {
    let sheet = "string title\ntoken birthdate\nbundle related\ntoken related.type\n";
    let cards = "record: 1\nbirthdate 1974-06\nbirthdate 1975\nrelated#1.type x\nrecord: 2\nbirthdate 1980\n\
                 title Ward book of the admissions from 1890 on, men\n";
    let folder = Folder::packed("fields", sheet, cards, "title pr true");
    folder.run(&["fields", "sheet.bin", "cards.bin"]).says(
        0,
        "2 cards\n\
         \x20 field         kind    cards  values  example\n\
         \x20 title         string  1      1       Ward book of the admissions from 1890 on...\n\
         \x20 birthdate     token   2      3       1974-06\n\
         \x20 related       bundle  0      0\n\
         \x20 related.type  token   1      1       x\n\
         warning: birthdate is a token, and 3 of 3 values look like dates.\n\
         \x20 If it holds dates, the sheet gives it the wrong kind, and a filter asks something else than it seems to.\n",
        "",
    );
    folder.change("cards.bin", |cards| cards.truncate(600));
    folder.run(&["fields", "sheet.bin", "cards.bin"]).fails(
        4,
        "cards.bin: refused 20 at 0: The card is not 512 bytes long, or the run is no whole number of cards or over 128.\n\
         \x20 Behind its last whole card it has 88 bytes.\n",
    );
    let folder = Folder::packed("fields-json", "date d\n", "record: 1\nd 1974\n", "d pr true");
    folder.run(&["fields", "--json", "sheet.bin", "cards.bin"]).says(
        0,
        "{\"cards\":1,\"fields\":[{\"field\":\"d\",\"kind\":\"date\",\"cards\":1,\"values\":1,\"example\":\"1974\",\
         \"looks_like\":null,\"warnings\":[]}],\"warnings\":[]}\n",
        "",
    );
}

/// Periods: packed, shown in words, asked by dates, and told where they cannot be read.
#[test]
fn periods_in_words() {
    let sheet = "period stay\nstring ward\nperiod discharge-date\n";
    let cards = "record: 1\nstay 1974-06/1974\nrecord: 2\nstay 1974/\nward 1960/\nrecord: 3\nstay /1974-06\n";
    let folder = Folder::packed("periods", sheet, cards, "stay lt 1974-06");
    folder.run(&["show", "cards.bin"]).says(
        0,
        "card 0, record 1, 1 entry\n\
         \x20 name  kind    text\n\
         \x20 stay  period  1974-06/1974 (from 1974-06 to the end of 1974)\n\
         card 1, record 2, 2 entries\n\
         \x20 name  kind    text\n\
         \x20 stay  period  1974/ (from 1974 on, end open)\n\
         \x20 ward  string  1960/\n\
         card 2, record 3, 1 entry\n\
         \x20 name  kind    text\n\
         \x20 stay  period  /1974-06 (to the end of 1974-06, start open)\n",
        "",
    );
    folder.run(&["fields", "sheet.bin", "cards.bin"]).says(
        0,
        "3 cards\n\
         \x20 field           kind    cards  values  example\n\
         \x20 stay            period  3      3       1974-06/1974\n\
         \x20 ward            string  1      1       1960/\n\
         \x20 discharge-date  period  0      0\n\
         warning: ward is a string, and 1 of 1 value looks like a period.\n\
         \x20 If it holds periods, the sheet gives it the wrong kind, and a filter asks something else than it seems to.\n",
        "",
    );
    folder.pick("stay gt 1974-06").says(0, "1\n2\n2 of 3\n", "");
    folder.pick("stay eq 1974").says(0, "1\n1 of 3\n", "");
    folder.check("discharge-date eq 1974").says(0, "1 test\n  discharge-date  period  eq  1974\n", "");
    folder.check("stay eq 1974/").fails(
        2,
        "stay eq 1974/\n^^^^^^^^^^^^^\nstandard input: refused 17 at 0: The value cannot be read as the parameter's kind, or for pr \
         as true or false.\n\
         \x20 stay is a period, which is asked by a date, and 1974/ cannot be read as one: YYYY, YYYY-MM, YYYY-MM-DD, or \
         YYYY-MM-DDThh:mm:ss with Z or a zone such as +02:00.\n",
    );
    folder.write("cards.txt", "record: 1\nstay 1974\n");
    folder.run(&["pack", ".", "."]).fails(
        2,
        "./cards.txt:2: record 1, stay: 1974 cannot be read as a period: two dates with a slash between, of which one may be \
         missing, such as 1974-06/1975, 1974/ or /1975; it ends after it starts.\n",
    );
}

/// A sheet without fields takes cards without entries.
#[test]
fn fields_of_a_sheet_without_fields() {
    let folder = Folder::described("no-fields", "bundle b\n", "record: 1\nrecord: 2\n", "b pr true\n");
    folder.run(&["pack", ".", "."]).says(
        0,
        "2 cards and a sheet with 1 parameter, in .\n",
        "warning: ./filter.txt: refused 18 at 0: A bundle's name needs a condition in square brackets, and a member behind it.\n\
         \x20 `sirophan check` says what to do.\n",
    );
    let table = "2 cards\n  field  kind    cards  values  example\n  b      bundle  0      0\n";
    folder.run(&["fields", "sheet.bin", "cards.bin"]).says(0, table, "");
    folder.change("cards.bin", |cards| {
        cards[512 + 5] = 1;
        sum(cards, 512);
    });
    folder.run(&["fields", "sheet.bin", "cards.bin"]).fails(
        4,
        "cards.bin: refused 23 at 1: The card does not fit the sheet: a text is under a bundle or no parameter, or cannot be read.\n\
         \x20 card 1, record 2: b: a bundle has no texts of its own. Put the text under one of its members.\n\
         \x20 There is no answer until it is put right. `sirophan show --record 2 cards.bin` shows it.\n",
    );
}
