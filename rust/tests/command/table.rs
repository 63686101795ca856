//! Cards as tables and as descriptions: `pick --columns` and `--csv`, `pack` from cards.csv, `show --description` and `--csv`.

use crate::folder::{Folder, Said, sum};
use std::fs;

const SHEET: &str = "string name\ndate birthdate\nbundle related\ntoken related.type\nreference related.target\n";
const CARDS: &str = "record: 7\nname Anna, \"the elder\"\nname \" b;c \"\nbirthdate 1974-06\nbirthdate 1980\n\
                     related#2.type x\nrelated#2.target a/1\nrelated.type y\nrecord: 19\nrecord: 300\nname \"two\\x0Alines\"\n\
                     related#2.type z\nrelated#2.type zz\n";
/// The same as a table: comma, quotes, columns for the most values that a card has.
const TABLE: &str = "record,name,name,birthdate,birthdate,related.type,related#2.type,related#2.type,related#2.target\r\n\
                     7,\"Anna, \"\"the elder\"\"\",\" b;c \",1974-06,1980,y,x,,a/1\r\n\
                     19,,,,,,,,\r\n\
                     300,\"two\nlines\",,,,,z,zz,\r\n";

/// Packs a folder that has a table of cards.
fn pack_table(test: &str, sheet: &str, table: impl AsRef<[u8]>) -> (Folder, Said) {
    let folder = Folder::new(test);
    folder.write("sheet.txt", sheet).write("cards.csv", table);
    let said = folder.run(&["pack", ".", "."]);
    (folder, said)
}

#[test]
fn lists_with_columns() {
    let folder = Folder::packed("columns-pick", SHEET, CARDS, "name pr true\n");
    let pick = |more: &[&str]| folder.run(&[&["pick", "sheet.bin", "filter.txt", "cards.bin"], more].concat());
    pick(&["--columns", "birthdate,related.type"]).says(
        0,
        "record  birthdate      related.type\n\
         7       1974-06; 1980  #2 x; y\n\
         300                    #2 z; #2 zz\n\
         2 of 3\n",
        "",
    );
    pick(&["--columns=name", "--csv"]).says(
        0,
        "record,name,name\r\n7,\"Anna, \"\"the elder\"\"\",\" b;c \"\r\n300,\"two\nlines\",\r\n",
        "2 of 3\n",
    );
    let all: String = TABLE.split_inclusive("\r\n").filter(|row| !row.starts_with("19,")).collect();
    pick(&["--csv"]).says(0, &all, "2 of 3\n");
    pick(&["--columns", "birthdate", "--json"]).says(
        0,
        "{\"records\":[7,300],\"rows\":[{\"record\":7,\"values\":{\"birthdate\":[\"1974-06\",\"1980\"]}},\
         {\"record\":300,\"values\":{\"birthdate\":[]}}],\"matching\":2,\"cards\":3,\"warnings\":[]}\n",
        "",
    );
    let search = folder.run(&["search", "--columns", "birthdate", "-e", "birthdate=1980", "sheet.bin", "cards.bin"]);
    search.says(0, "record  birthdate\n7       1974-06; 1980\n1 of 3\n", "");
    pick(&["--columns", "birth"]).fails(
        1,
        "sirophan: birth is no field of the sheet. There are name, birthdate, related.type and related.target.\n",
    );
    pick(&["--columns", "birthdat"]).fails(1, "sirophan: birthdat is no field of the sheet. Is it birthdate?\n");
    pick(&["--columns", "name", "--stream"])
        .fails(1, "sirophan: --stream goes without --columns and --csv, which need the whole list.\n");
    pick(&["--csv", "--json"])
        .fails(1, "{\"level\":\"error\",\"message\":\"sirophan: A list is JSON or CSV: --json or --csv.\"}\n");
    // A refusal gives no table, and cards with one record number are told apart.
    let refused = folder.run(&["pick", "--csv", "-e", "name gt 1", "sheet.bin", "cards.bin"]);
    assert_eq!((refused.status, refused.output.as_str()), (2, ""));
    let cards = "record: 1\nname a\nrecord: 1\nname b\nrecord: 1\nname c\nrecord: 1\nname b\n";
    let folder = Folder::packed("columns-twice", "string name\n", cards, "name eq b or name eq c\n");
    let said = folder.run(&["pick", "--columns", "name", "sheet.bin", "filter.txt", "cards.bin"]);
    assert!(said.output == "record  name\n1       b\n1       c\n1       b\n3 of 4\n", "{}", said.output);
}

/// Bytes that no table has are shown by their numbers in a list.
#[test]
fn lists_of_odd_texts() {
    let folder = Folder::packed("columns-odd", "string name\n", "record: 1\nname \"Str\\xF6m\"\n", "name pr true\n");
    let said = folder.run(&["pick", "--csv", "sheet.bin", "filter.txt", "cards.bin"]);
    assert_eq!((said.status, said.output.as_str()), (0, "record,name\r\n1,Str\u{27E8}0xF6\u{27E9}m\r\n"));
    let said = folder.run(&["pick", "--columns=name", "sheet.bin", "filter.txt", "cards.bin"]);
    assert_eq!(said.output, "record  name\n1       \"Str\\xF6m\"\n1 of 1\n");
}

/// A table is packed to the same cards, with commas or semicolons, a byte order mark, either line end, and rows without texts.
#[test]
fn tables_are_packed() {
    let described = Folder::packed("table-text", SHEET, CARDS, "");
    let semicolons = TABLE.replace("\" b;c \"", "\u{1}").replace("Anna, ", "\u{2}").replace(',', ";");
    let semicolons = semicolons.replace('\u{1}', "\" b;c \"").replace('\u{2}', "Anna, ");
    for (number, table) in [
        TABLE.to_string(),
        TABLE.replace("\r\n", "\n"),
        semicolons,
        format!("\u{FEFF}{TABLE}"),
        format!("{TABLE},,\r\n,,,,,,,,\r\n"),
        TABLE.trim_end().to_string(),
    ]
    .into_iter()
    .enumerate()
    {
        let (folder, said) = pack_table(&format!("table-{number}"), SHEET, &table);
        let note = if number == 3 { "note: ./cards.csv: its byte order mark is left out.\n" } else { "" };
        said.says(0, "3 cards and a sheet with 5 parameters, in .\n", note);
        let shown = |folder: &Folder| {
            let shown = folder.run(&["show", "--csv", "cards.bin"]).output;
            assert_eq!(shown, TABLE);
        };
        shown(&folder);
        shown(&described);
        folder.run(&["verify", "."]).says(
            0,
            "the description: 3 cards, a sheet with 5 parameters: all go together\n\
             the blocks: 3 cards, a sheet with 5 parameters, a seal: all go together\n",
            note,
        );
    }
    // A quote inside a cell that does not begin with one is itself.
    let (folder, said) = pack_table("table-quote", "string name\n", "\"record\";\"name\"\n1;5\" gun\n2;a \"b\" c\n");
    said.says(0, "2 cards and a sheet with 1 parameter, in .\n", "");
    folder.run(&["show", "--csv", "cards.bin"]).says(
        0,
        "record,name\r\n1,\"5\"\" gun\"\r\n2,\"a \"\"b\"\" c\"\r\n",
        "",
    );
    // A field may be called record.
    let (folder, said) = pack_table("table-record", "string record\n", "record,record\n5,five\n");
    assert_eq!(said.status, 0);
    folder.run(&["show", "--csv", "cards.bin"]).says(0, "record,record\r\n5,five\r\n", "");
}

/// What is wrong with a table is told with its line, and nothing is packed.
#[test]
fn faults_of_tables() {
    let fails = |test: &str, table: &[u8], told: &str| {
        let (folder, said) = pack_table(&format!("table-fault-{test}"), SHEET, table);
        said.fails(2, told);
        assert_eq!(folder.files(), ["cards.csv", "sheet.txt"]);
    };
    fails(
        "empty",
        b"",
        "./cards.csv:1: there is no head. Its first row has the names of the fields, `record` first.\n",
    );
    fails(
        "first",
        b"name,record\nx,1\n",
        "./cards.csv:1: the first column is to be `record`, the record number of each card.\n\
                                            ./cards.csv:1: record: it is not on the sheet. There are name, birthdate, related.type and related.target.\n\
                                            ./cards.csv:2: x is no record number: it is a number up to 4,294,967,295.\n\
                                            ./cards.csv:2: record 0, record: it is not on the sheet. There are name, birthdate, related.type and related.target.\n",
    );
    fails("name", b"record,nam\n", "./cards.csv:1: nam: it is not on the sheet. Is it name?\n");
    fails(
        "number",
        b"record,name#1\n",
        "./cards.csv:1: name#1: name is no member of a bundle, and takes no number. Leave out #1.\n",
    );
    fails(
        "date",
        b"record,name,birthdate\n1,\"a\nb\",1974\n2,c,4.3.1973\n",
        "./cards.csv:4: record 2, birthdate: 4.3.1973 cannot be read as a date: YYYY, YYYY-MM, YYYY-MM-DD, or YYYY-MM-DDThh:mm:ss with \
         Z or a zone such as +02:00.\n",
    );
    fails(
        "record",
        b"record,name\n,x\n",
        "./cards.csv:2: \"\" is no record number: it is a number up to 4,294,967,295.\n",
    );
    fails("wide", b"record,name\n1,x,y\n", "./cards.csv:2: record 1: y stands in a column without a name.\n");
    fails(
        "quote",
        b"record,name\n1,\"x\"y\n",
        "./cards.csv:2: behind a cell in quotes stands something else than the next cell.\n",
    );
    fails(
        "open",
        b"record,name\n1,\"x\n2,y\n",
        "./cards.csv:2: a cell that begins with a quote has no other at its end.\n",
    );
    fails(
        "latin",
        b"record,name\n1,Str\xF6m\n",
        "./cards.csv:2: this row is not UTF-8: it has the byte 0xF6, perhaps of Latin-1. Save the file as UTF-8.\n",
    );
    fails("utf16", b"\xFF\xFEr\0e\0", "./cards.csv:1: this file is UTF-16. Save it as UTF-8.\n");
    let (folder, _) = pack_table("table-both", SHEET, TABLE);
    folder.write("cards.txt", CARDS);
    folder
        .run(&["pack", ".", "."])
        .fails(2, "./cards.txt and ./cards.csv are both there, and one of them is packed: take the other away.\n");
}

/// What --description writes is packed to the same blocks, byte for byte, whatever program has made them.
#[test]
fn descriptions_come_back() {
    let folder = Folder::packed("describe", SHEET, CARDS, "name pr true\n");
    folder.run(&["show", "--description", "sheet.bin"]).says(
        0,
        "string     name\ndate       birthdate\nbundle     related\ntoken      related.type\nreference  related.target\n",
        "",
    );
    folder.run(&["show", "--description", "--record", "300", "cards.bin"]).says(
        0,
        "record:    300\nname       \"two\\x0Alines\"\nrelated#2.type z\nrelated#2.type zz\n",
        "",
    );
    comes_back(&folder);
    // Forms that pack itself does not choose: a sheet for bundles without one, cards with idle occurrences.
    let folder = Folder::packed(
        "describe-forms",
        "string name\nnumber pages\n",
        "record: 1\nname a\npages 5\nrecord: 2\n",
        "name pr true\n",
    );
    let blocks = |folder: &Folder| {
        folder.change("sheet.bin", |sheet| {
            let old = sheet.clone();
            let items = b"\x51\x02\x01\x00\x04name\x02\x00\x05pages";
            sheet.fill(0);
            sheet[..items.len()].copy_from_slice(items);
            assert_ne!(*sheet, old);
            sum(sheet, 0);
        });
        folder.change("cards.bin", |cards| {
            cards.fill(0);
            for (at, items) in [(0, &b"\x44\x01\0\0\0\x02\x00\x03\x01a\x01\x00\x015"[..]), (512, b"\x44\x02\0\0\0\x00")]
            {
                cards[at..at + items.len()].copy_from_slice(items);
                sum(cards, at);
            }
        });
    };
    blocks(&folder);
    folder.unsealed().run(&["seal", "."]);
    folder.run(&["show", "--description", "sheet.bin"]).says(
        0,
        "sheet:     with-bundles\nstring     name\nnumber     pages\n",
        "",
    );
    folder.run(&["show", "--description", "cards.bin"]).says(
        0,
        "record#:   1\nname#3     a\npages      5\nrecord#:   2\n",
        "",
    );
    comes_back(&folder);
    // In columns the texts are the same, and idle occurrences are left out.
    folder.run(&["show", "--csv", "cards.bin"]).says(0, "record,name,pages\r\n1,a,5\r\n2,,\r\n", "");
}

/// Describes the blocks of a folder, packs that elsewhere, and compares.
#[track_caller]
fn comes_back(folder: &Folder) {
    let again = Folder::new(&format!("again-{}", folder.path.file_name().unwrap().to_str().unwrap()));
    for name in ["sheet", "cards"] {
        let said = folder.run(&["show", "--description", &format!("{name}.bin")]);
        assert_eq!((said.status, said.errors.as_str()), (0, ""));
        again.write(&format!("{name}.txt"), said.output);
    }
    assert_eq!(again.run(&["pack", ".", "."]).status, 0);
    for name in ["sheet.bin", "cards.bin", "archive.txt"] {
        assert!(again.read(name) == folder.read(name), "{name}");
    }
}

/// Cards that cannot be put into columns, blocks that are not sound, and command lines that ask for two forms.
#[test]
fn what_cannot_be_written() {
    for (text, why) in [
        ("\"\"", "an empty text, and an empty cell is none"),
        ("\"Str\\xF6m\"", "bytes that are no UTF-8"),
        ("\"a\\x00b\"", "a zero byte"),
    ] {
        let folder =
            Folder::packed("no-columns", "string name\n", &format!("record: 1\nname a\nrecord: 2\nname {text}\n"), "");
        folder.run(&["show", "--csv", "cards.bin"]).fails(
            2,
            &format!(
                "cards.bin: card 1, record 2: name has {why}.\n\
                 \x20 It cannot be put into columns. `sirophan show --description` writes all that cards hold.\n"
            ),
        );
        comes_back(&folder);
    }
    let folder = Folder::ward("no-description");
    folder.run(&["show", "--csv", "sheet.bin"]).fails(2, "sheet.bin is a sheet, and only cards make a table.\n");
    folder.run(&["show", "--csv", "--record=5", "cards.bin"]).fails(2, "no card has the record number 5.\n");
    folder
        .run(&["show", "--csv", "--description", "cards.bin"])
        .fails(1, "sirophan: Blocks are written in one form: --json, --csv or --description.\n");
    folder
        .run(&["show", "--csv", "sheet.bin", "cards.bin"])
        .fails(1, "sirophan: A description and a table are of one file, the sheet's or the cards'.\n");
    folder
        .run(&["show", "--csv", "-"])
        .fails(1, "sirophan: The blocks are read twice, and standard input can be only once: give a file.\n");
    folder.change("cards.bin", |cards| cards[1100] ^= 1);
    for form in ["--csv", "--description"] {
        folder.run(&["show", form, "cards.bin"]).fails(
            4,
            "cards.bin: card 2, record 300: The card's check sum is wrong. It was changed or damaged since it was written: pack it \
             again from its description.\n",
        );
    }
    fs::remove_file(folder.path.join("sheet.bin")).unwrap();
    folder
        .run(&["show", "--description", "cards.bin"])
        .fails(2, "cards.bin: there is no sheet.bin beside it, which has the names of the fields.\n");
}
