//! `sirophan pack`.

use crate::folder::{Folder, PROGRAM, REPOSITORY};
use std::fmt::Write as _;
use std::fs;
use std::io::Write;
use std::os::unix::process::ExitStatusExt;
use std::process::Command;
use std::thread;
use std::time::Duration;

/// What is packed has the bytes of the archive that `pick` is tried on.
#[test]
fn pack_writes_blocks() {
    let folder = Folder::ward("pack");
    for name in ["sheet.bin", "cards.bin"] {
        assert!(folder.read(name) == fs::read(format!("{REPOSITORY}/crates/pick/data/{name}")).unwrap(), "{name}");
    }
    assert_eq!(folder.files(), ["archive.txt", "cards.bin", "filter.txt", "sheet.bin"]);
    let sheet = "token related.type\nbundle related\nstring title\nbundle b\ndate b.type\n";
    let cards = "record: 7\ntitle x\nrelated#1.type a\nb#255.type 1974\nrecord: 8\nrelated.type a\nb#0.type 1974\n";
    let folder = Folder::packed("pack-bundles", sheet, cards, "title pr true");
    let sheet = folder.read("sheet.bin");
    let expected = b"\x51\x05\x04\x02\x04type\x07\0\x07related\x01\0\x05title\x07\0\x01b\x03\x04\x04type\0";
    assert!(sheet.starts_with(expected));
    let cards = folder.read("cards.bin");
    assert!(cards.starts_with(b"\x44\x07\0\0\0\x03\x02\0\x01x\0\x01\x01a\x04\xFF\x041974\0"));
    assert!(cards[512..].starts_with(b"\x43\x08\0\0\0\x02\0\x01a\x04\x041974\0"));
    let json = "{\"cards\":2,\"parameters\":5,\"warnings\":[]}\n";
    folder.run(&["pack", "--json", ".", "new"]).says(0, json, "");
}

/// Every fault of cards.txt is told with its line, and the archive that was there stays.
#[test]
fn pack_tells_the_faults_of_cards() {
    let sheet = "string title\ndate birthdate\nbundle related\ntoken related.type\n";
    let folder = Folder::packed("pack-cards", sheet, "record: 1\n", "title pr true");
    let before = folder.read("cards.bin");
    let lines = [
        ("title x", "title stands before the first record number. A card begins with `record:` and a number."),
        ("record: x", "x is no record number: it is a number up to 4,294,967,295."),
        ("record: 4294967296", "4294967296 is no record number: it is a number up to 4,294,967,295."),
        ("record: 1", ""),
        ("", ""),
        ("# title", ""),
        ("titel x", "record 1, titel: it is not on the sheet. Is it title?"),
        ("ward x", "record 1, ward: it is not on the sheet. There are title, birthdate and related.type."),
        (
            "birthdate 1974-13",
            "record 1, birthdate: 1974-13 cannot be read as a date: YYYY, YYYY-MM, YYYY-MM-DD, or YYYY-MM-DDThh:mm:ss with Z or a \
             zone such as +02:00.",
        ),
        ("related x", "record 1, related: a bundle has no texts of its own. Put the text under one of its members."),
        ("related#256.type x", "record 1, related#256.type: behind # stands a number from 0 to 255, and not 256."),
        ("related#+1.type x", "record 1, related#+1.type: behind # stands a number from 0 to 255, and not +1."),
        ("title#1 x", "record 1, title#1: title is no member of a bundle, and takes no number. Leave out #1."),
        ("related#2.type |", "record 1, related#2.type: | cannot be read as a token: a code, or system|code."),
        ("title", "there is no text behind title. An empty text is written \"\"."),
        (
            "title \"x",
            "the text \"x cannot be read. A text that begins with a double quote ends with one; inside stand \\\" \\\\ and \\xHH \
             for these signs.",
        ),
        ("title \u{2028}", ""),
    ];
    let cards: String = lines.iter().map(|(line, _)| format!("{line}\n")).collect();
    let faults = lines.iter().zip(1..).filter(|((_, fault), _)| !fault.is_empty());
    let message: String = faults.map(|((_, fault), number)| format!("./cards.txt:{number}: {fault}\n")).collect();
    folder.write("cards.txt", cards);
    folder.run(&["pack", ".", "."]).fails(2, &message);
    folder.run(&["pack", ".", "new"]).fails(2, &message);
    assert_eq!(folder.read("cards.bin"), before);
    assert_eq!(folder.files(), ["archive.txt", "cards.bin", "cards.txt", "filter.txt", "sheet.bin", "sheet.txt"]);
}

/// A card and a text take what they have room for, and no more.
#[test]
fn pack_tells_what_has_no_room() {
    let entry = |length: usize| format!("title {}\n", "x".repeat(length));
    let card = |entries: &str| format!("record: 1\n{entries}");
    let folder = Folder::packed("pack-room", "string title\n", &card(&(entry(255) + &entry(243))), "title pr true");
    let cases = [
        (
            entry(255) + &entry(244),
            "./cards.txt:3: record 1: the card is full: this entry takes 246 bytes with its head of 2, 1 more than are left. \
             Shorten a text.\n",
        ),
        (
            entry(256),
            "./cards.txt:2: record 1, title: the text has 256 bytes, and an entry has room for 255. Shorten it.\n",
        ),
        (entry(1).repeat(65), "./cards.txt:66: record 1: a card has room for 64 entries, and this is one more.\n"),
        (entry(1).repeat(650), "./cards.txt:66: record 1: a card has room for 64 entries, and this is one more.\n"),
        (entry(1 << 16), "./cards.txt:2: this line has over 65,536 bytes. Is this a description?\n"),
        (" ".repeat(1 << 16) + &entry(1), "./cards.txt:2: this line has over 65,536 bytes. Is this a description?\n"),
    ];
    for (entries, message) in cases {
        folder.write("cards.txt", card(&entries));
        folder.run(&["pack", ".", "."]).fails(2, message);
    }
    folder.write("cards.txt", format!("#{}\n{}", " a comment".repeat(1 << 14), card(&entry(1))));
    folder.run(&["pack", ".", "."]).says(0, "1 card and a sheet with 1 parameter, in .\n", "");
    folder.write("cards.txt", "title x\n".repeat(25));
    let said = folder.run(&["pack", ".", "."]);
    assert_eq!((said.status, said.errors.lines().count()), (2, 21));
    assert_eq!(said.errors.lines().last(), Some("and 5 faults more."));
}

#[test]
fn pack_tells_the_faults_of_a_sheet() {
    let folder = Folder::described("pack-sheet", "", "", "title pr true");
    let pack = |sheet: &str| {
        folder.write("sheet.txt", sheet);
        folder.run(&["pack", ".", "new"])
    };
    let names = "A name begins with a letter or _, goes on with letters, digits, _ and -, has at most 30 bytes, and is not and, \
                 or or not.";
    let cases = [
        ("word a\n", 1, "word is no kind. The kinds are string, number, date, token, reference, period and bundle."),
        ("string a\n\ndate a\n", 3, "a has the same name as a at place 0. Rename one of them."),
        ("string a\nbundle b\ntoken b.a\n", 3, "b.a has the same name as a at place 0. Rename one of them."),
        ("bundle a\nbundle a.b\n", 2, "a.b is a bundle in a bundle. Put it at the top, under a name without a dot."),
        ("string a\nstring a.b\n", 2, "a.b is a member of a, which is no bundle."),
        ("string a.b\n", 1, "a.b is a member of a, which is not on the sheet."),
        ("string\n", 1, "there is no text behind string. An empty text is written \"\"."),
    ];
    for (sheet, line, fault) in cases {
        pack(sheet).fails(2, &format!("./sheet.txt:{line}: {fault}\n"));
    }
    for name in ["and", "4", "-a", "\u{E4}"] {
        let message = format!("./sheet.txt:1: {name} is not allowed as a name. {names}\n");
        pack(&format!("string {name}\n")).fails(2, &message);
    }
    let many = |count: usize| (0..count).map(|number| format!("date p{number}\n")).collect::<String>();
    assert_eq!(pack(&many(32)).status, 0);
    for count in [33, 330] {
        pack(&many(count)).fails(2, "./sheet.txt:33: a sheet has room for 32 parameters, and this is one more.\n");
    }
    let long: String = (0..20).map(|number| format!("date {}{number:02}\n", "p".repeat(28))).collect();
    pack(&long).fails(2, "./sheet.txt:20: the names take 640 bytes with their heads, and a sheet has room for 506.\n");
}

/// Signs of other systems are dropped and told; other encodings are named.
#[test]
fn pack_reads_what_other_systems_write() {
    let mark = "\u{FEFF}";
    let sheet = format!("{mark}string title\r\n");
    let folder = Folder::described("pack-signs", &sheet, "record:\t1\r\ntitle\t x y \t\r\n", "title pr true\r\n");
    folder.run(&["pack", ".", "new"]).says(
        0,
        "1 card and a sheet with 1 parameter, in new\n",
        "note: ./filter.txt: its line ends with CR LF; the CR is left out.\n\
         note: ./sheet.txt: its byte order mark is left out.\n\
         note: ./sheet.txt: its lines end with CR LF; the CR is left out.\n\
         note: ./cards.txt: its lines end with CR LF; the CR is left out.\n",
    );
    assert_eq!(folder.read("new/filter.txt"), b"title pr true\n");
    assert!(folder.read("new/cards.bin").starts_with(b"\x43\x01\0\0\0\x01\0\x03x y\0"));
    folder.write("sheet.txt", "string title\n").write("filter.txt", "title pr true\n");
    folder.write("cards.txt", b"record: 1\ntitle Str\xF6m\n");
    folder.run(&["pack", ".", "new"]).fails(
        2,
        "./cards.txt:2: this line is not UTF-8: it has the byte 0xF6, perhaps of Latin-1. Save the file as UTF-8, or write the \
         text in double quotes with \\xF6.\n",
    );
    folder.write("cards.txt", b"r\0e\0c\0o\0r\0d\0\n\0");
    folder.run(&["pack", ".", "new"]).fails(
        2,
        "./cards.txt:1: this line has zero bytes, as UTF-16 has. Save the file as UTF-8.\n\
         ./cards.txt:2: this line has zero bytes, as UTF-16 has. Save the file as UTF-8.\n",
    );
    folder.write("cards.txt", b"\xFF\xFEr\0e\0");
    folder.run(&["pack", ".", "new"]).fails(2, "./cards.txt:1: this file is UTF-16. Save it as UTF-8.\n");
    // Only a line feed ends a line, and only spaces and tabs separate.
    folder.write("cards.txt", "record: 1\ntitle a\u{2028}b\u{A0}c\u{B}d\n");
    assert_eq!(folder.run(&["pack", ".", "new"]).status, 0);
    let shown = folder.run(&["show", "new/cards.bin"]);
    assert!(shown.output.ends_with("  title  string  \"a\\xE2\\x80\\xA8b\\xC2\\xA0c\\x0Bd\"\n"), "{}", shown.output);
}

/// Any texts go through a description and a block, and are shown as they were.
#[test]
fn packed_texts_are_shown_again() {
    let folder = Folder::described("round", "string a\nbundle b\nstring b.c\nbundle d\nstring d.c\n", "", "a pr true");
    let mut state = 1974_u32;
    let mut below = |limit: usize| {
        state = state.wrapping_mul(1_664_525).wrapping_add(1_013_904_223);
        (state >> 8) as usize % limit
    };
    let letters = ["a", " ", "\"", "\\", "x41", "#", "\t", "\u{E4}", "\u{2028}", "\u{200B}", "\u{7F}"];
    let (mut cards, mut expected) = (String::new(), String::new());
    for index in 0..60 {
        let record = [0, 7, u32::MAX][below(3)];
        writeln!(cards, "record:  {record}").unwrap();
        let mut entries = Vec::new();
        for _ in 0..below(12) {
            let head = ["a", "b.c", "b#1.c", "d#255.c"][below(4)];
            let text: String = (0..below(12)).map(|_| letters[below(letters.len())]).collect();
            let written: String = text.bytes().map(|byte| format!("\\x{byte:02X}")).collect();
            writeln!(cards, "{head} \t \"{written}\" ").unwrap();
            let escaped = text.replace('\\', "\\\\").replace('"', "\\\"").replace('\t', "\\u0009");
            let escaped = escaped.replace('\u{7F}', "\\u007f");
            entries.push(format!("{{\"name\":\"{head}\",\"kind\":\"string\",\"text\":\"{escaped}\"}}"));
        }
        let entries = entries.join(",");
        writeln!(expected, "{{\"card\":{index},\"record\":{record},\"entries\":[{entries}],\"faults\":[]}}").unwrap();
    }
    folder.write("cards.txt", cards);
    folder.run(&["pack", ".", "."]).says(
        0,
        "60 cards and a sheet with 5 parameters, in .\n",
        "warning: ./cards.txt: 3 record numbers are borne by several cards: 0 (28 cards), 7 (18 cards) and 4294967295 (14 cards).\n\
         \x20 A list names them by the number alone, once for each card that matches.\n",
    );
    folder.run(&["show", "--json", "cards.bin"]).says(0, &expected, "");
    // What is shown to people is the text's spelling in a description: packed again, it gives the same blocks.
    let before = folder.read("cards.bin");
    let shown = folder.run(&["show", "cards.bin"]).output;
    let lines = shown.lines().filter(|line| !line.starts_with("  name "));
    let described = lines.map(|line| {
        if let Some(title) = line.strip_prefix("card ") {
            return format!("record: {}\n", title.split(' ').nth(2).unwrap().trim_end_matches(','));
        }
        let (head, rest) = line.trim_start().split_once(' ').unwrap();
        format!("{head} {}\n", rest.trim_start().strip_prefix("string").unwrap())
    });
    folder.write("cards.txt", described.collect::<String>());
    assert_eq!(folder.run(&["pack", ".", "."]).status, 0);
    assert!(folder.read("cards.bin") == before);
}

/// A pack that is ended from outside leaves no half file, and no folder that it made; the archive that was there stays.
#[test]
fn pack_that_is_interrupted() {
    for (signal, number) in [("-INT", 2), ("-TERM", 15), ("-HUP", 1)] {
        let folder = Folder::described(&format!("interrupted{signal}"), "string title\n", "", "title pr true\n");
        fs::remove_file(folder.path.join("cards.txt")).unwrap();
        assert!(Command::new("mkfifo").arg(folder.path.join("cards.txt")).status().unwrap().success());
        fs::create_dir(folder.path.join("old")).unwrap();
        folder.write("old/cards.bin", "as it was");
        for to in ["new", "old"] {
            // whoever runs the tests may ignore a signal, as a shell does for what it runs in the background
            let default = "--default-signal=HUP,INT,TERM";
            let mut pack = Command::new("env");
            let pack = pack.args([default, PROGRAM, "pack", ".", to]).current_dir(&folder.path);
            let mut pack = pack.spawn().unwrap();
            let mut cards = fs::OpenOptions::new().write(true).open(folder.path.join("cards.txt")).unwrap();
            cards.write_all(b"record: 1\nrecord: 2\n").unwrap();
            while !folder.path.join(to).join("cards.bin.new").exists() {
                thread::sleep(Duration::from_millis(5));
            }
            let process = pack.id().to_string();
            assert!(Command::new("kill").args([signal, &process]).status().unwrap().success());
            assert_eq!(pack.wait().unwrap().signal(), Some(number));
        }
        assert_eq!(folder.files(), ["cards.txt", "filter.txt", "old", "sheet.txt"]);
        assert_eq!(folder.read("old/cards.bin"), b"as it was");
        assert_eq!(fs::read_dir(folder.path.join("old")).unwrap().count(), 1);
    }
}

/// An archive without a filter is packed, and verified, without one.
#[test]
fn pack_without_a_filter() {
    let folder = Folder::described("no-filter", "string title\n", "record: 1\ntitle x\n", "");
    fs::remove_file(folder.path.join("filter.txt")).unwrap();
    folder.run(&["pack", ".", "new"]).says(0, "1 card and a sheet with 1 parameter, in new\n", "");
    assert!(!folder.path.join("new/filter.txt").exists());
    folder.run(&["verify", "new"]).says(
        0,
        "the blocks: 1 card, a sheet with 1 parameter, a seal: all go together\n",
        "",
    );
    folder.run(&["verify", "--json", "new"]).says(
        0,
        "{\"verified\":\"blocks\",\"cards\":1,\"parameters\":1,\"tests\":null,\"sealed\":true,\"warnings\":[]}\n",
        "",
    );
}
