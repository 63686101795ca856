//! `sirophan seal`, and archives whose files are not those that were sealed.

use crate::folder::{Folder, sum};
use std::fs;
use std::process::Command;

const HELP: &str = "\x20 There is no answer until the files are put back as they were; or, where the change was meant, packed again or sealed \
                    by `sirophan seal`.\n";

/// The commands that are given a sheet and cards, each of which answers where the archive is as it was sealed.
const ASKING: [&[&str]; 7] = [
    &["pick", "sheet.bin", "filter.txt", "cards.bin"],
    &["pick", "--stream", "sheet.bin", "filter.txt", "cards.bin"],
    &["search", "-e", "title=ward", "sheet.bin", "cards.bin"],
    &["explain", "--all", "sheet.bin", "filter.txt", "cards.bin"],
    &["check", "sheet.bin", "filter.txt", "cards.bin"],
    &["report", "sheet.bin", "filter.txt", "cards.bin"],
    &["fields", "sheet.bin", "cards.bin"],
];

#[track_caller]
fn all_answer(folder: &Folder) {
    for line in ASKING {
        assert_eq!(folder.run(line).status, 0, "{line:?}");
    }
}

#[track_caller]
fn all_refuse(folder: &Folder, message: &str) {
    for line in ASKING {
        folder.run(line).fails(4, &format!("{message}\n{HELP}"));
    }
}

/// The seal says in words how many cards there are; the system's own program reads the hashes.
#[test]
fn the_seal_of_pack() {
    let folder = Folder::ward("seal-pack");
    let seal = String::from_utf8(folder.read("archive.txt")).unwrap();
    assert!(seal.starts_with("# 3 cards. The files have these SHA-256, "), "{seal}");
    let checked =
        Command::new("sha256sum").args(["--check", "--strict", "archive.txt"]).current_dir(&folder.path).output();
    let checked = checked.unwrap();
    assert_eq!((checked.status.code(), &checked.stdout[..]), (Some(0), &b"sheet.bin: OK\ncards.bin: OK\n"[..]));
    all_answer(&folder);
    let told = "the blocks: 3 cards, a sheet with 5 parameters, a filter with 3 tests";
    folder.run(&["verify", "."]).says(0, &format!("{told}, a seal: all go together\n"), "");
    // Without a seal all is as it was before there were any.
    all_answer(folder.unsealed());
    folder.run(&["verify", "."]).says(0, &format!("{told}: all go together\n"), "");
    folder.run(&["seal", "."]).says(0, "3 cards and a sheet with 5 parameters, sealed by ./archive.txt\n", "");
    assert_eq!(String::from_utf8(folder.read("archive.txt")).unwrap(), seal);
    let hashes: Vec<&str> = seal.lines().skip(1).map(|line| line.split(' ').next().unwrap()).collect();
    let json = format!(
        "{{\"cards\":3,\"parameters\":5,\"sheet_sha256\":\"{}\",\"cards_sha256\":\"{}\",\"warnings\":[]}}\n",
        hashes[0], hashes[1]
    );
    folder.run(&["seal", "--json", "."]).says(0, &json, "");
}

/// A sheet whose two dates are swapped is sound, and its cards fit it.
#[test]
fn another_sheet() {
    let sheet = "date birthdate\ndate discharge\nstring title\n";
    let cards = "record: 1\nbirthdate 1974\ndischarge 1980\ntitle ward\n";
    let folder = Folder::packed("seal-sheet", sheet, cards, "birthdate eq 1974\n");
    let swapped =
        Folder::packed("seal-swapped", "date discharge\ndate birthdate\nstring title\n", cards, "birthdate eq 1974\n");
    all_answer(&folder);
    let sealed = folder.read("sheet.bin");
    folder.write("sheet.bin", swapped.read("sheet.bin"));
    let message = "sheet.bin is another sheet than the one that archive.txt names.";
    all_refuse(&folder, message);
    folder.run(&["check", "sheet.bin", "filter.txt"]).fails(4, &format!("{message}\n{HELP}"));
    let cards = folder.read("cards.bin");
    let piped = folder.run_with(&["pick", "sheet.bin", "filter.txt", "-"], &cards);
    piped.fails(4, &format!("{message}\n{HELP}"));
    // A seal beside the cards names their sheet, wherever that is.
    folder.write("sheet.bin", sealed);
    let elsewhere = swapped.path.join("sheet.bin");
    let elsewhere = elsewhere.to_str().unwrap();
    let message = format!("{elsewhere} is another sheet than the one that archive.txt names.\n{HELP}");
    folder.run(&["pick", elsewhere, "filter.txt", "cards.bin"]).fails(4, &message);
    swapped.unsealed();
    folder.run(&["pick", elsewhere, "filter.txt", "cards.bin"]).fails(4, &message);
    // A sheet that is no sheet is refused as ever, with the archive's status.
    folder.change("sheet.bin", |sheet| sheet[2] = 9);
    let said = folder.run(&["pick", "sheet.bin", "filter.txt", "cards.bin"]);
    assert!(said.status == 4 && said.errors.starts_with("sheet.bin: refused 2 at 0: "), "{said:?}");
}

/// Cards that are cut at a block's border, and cards that came to them.
#[test]
fn fewer_and_more_cards() {
    let folder = Folder::ward("seal-number");
    let cards = folder.read("cards.bin");
    folder.write("cards.bin", &cards[..1024]);
    all_refuse(&folder, "cards.bin has 2 cards, 1 card fewer than archive.txt says.");
    folder
        .run(&["verify", "."])
        .fails(4, &format!("./cards.bin has 2 cards, 1 card fewer than ./archive.txt says.\n{HELP}"));
    folder.write("cards.bin", "");
    all_refuse(&folder, "cards.bin has 0 cards, 3 cards fewer than archive.txt says.");
    folder.write("cards.bin", cards.repeat(2));
    all_refuse(&folder, "cards.bin has 6 cards, 3 cards more than archive.txt says.");
    let said = folder.run(&["pick", "--json", "sheet.bin", "filter.txt", "cards.bin"]);
    assert_eq!((said.status, said.output.as_str()), (4, ""));
    assert!(
        said.errors.contains("\"code\":\"seal\"") && said.errors.contains("{\"cards\":6,\"sealed\":3}"),
        "{}",
        said.errors
    );
    // A part of a card is refused as ever.
    folder.write("cards.bin", &cards[..1000]);
    let said = folder.run(ASKING[0]);
    assert!(said.status == 4 && said.errors.starts_with("cards.bin: refused 20 at 0: "), "{said:?}");
    // What comes through a pipe has no seal.
    let piped = folder.run_with(&["pick", "sheet.bin", "filter.txt", "-"], &cards[..1024]);
    piped.says(0, "7\n1 of 2\n", "");
}

/// As many cards, and not the same: `verify` tells it, and the others do not look.
#[test]
fn changed_cards() {
    let folder = Folder::ward("seal-cards");
    folder.change("cards.bin", |cards| {
        cards[1] = 8;
        sum(cards, 0);
    });
    all_answer(&folder);
    let message = "./cards.bin has 3 cards as ./archive.txt says, and not the same: something was changed.";
    folder.run(&["verify", "."]).fails(4, &format!("{message}\n{HELP}"));
    folder.run(&["seal", "."]).says(
        0,
        "3 cards and a sheet with 5 parameters, sealed by ./archive.txt\n",
        "warning: ./archive.txt said something else before: the sheet or the cards are not those that were sealed then.\n\
         \x20 It says now what they are.\n",
    );
    assert_eq!(folder.run(&["verify", "."]).status, 0);
    // What does not go together is not sealed.
    let seal = folder.read("archive.txt");
    folder.change("cards.bin", |cards| cards[9] = 1);
    let said = folder.run(&["seal", "."]);
    assert!(
        said.status == 4 && said.errors.starts_with("./cards.bin: card 0, record 8: The card's check sum"),
        "{said:?}"
    );
    assert!(folder.read("archive.txt") == seal);
    assert_eq!(folder.files(), ["archive.txt", "cards.bin", "filter.txt", "sheet.bin"]);
}

/// A pack that fails when some of its files have their places leaves an archive that gives no answer.
#[test]
fn pack_that_ends_in_between() {
    let folder = Folder::ward("seal-between");
    let cards = folder.read("cards.bin");
    fs::remove_file(folder.path.join("cards.bin")).unwrap();
    fs::create_dir(folder.path.join("cards.bin")).unwrap();
    folder
        .write("sheet.txt", "string title\n")
        .write("cards.txt", "record: 1\nrecord: 2\nrecord: 3\n")
        .write("filter.txt", "title pr true\n");
    let said = folder.run(&["pack", ".", "."]);
    assert!(said.status == 3 && said.errors.starts_with("sirophan: ./cards.bin cannot be replaced: "), "{said:?}");
    fs::remove_dir(folder.path.join("cards.bin")).unwrap();
    folder.write("cards.bin", cards);
    let unfinished = |name: &str| {
        format!(
            "{name}: the archive was being packed, and that did not come to its end.\n\
             \x20 Its files may be of two archives. There is no answer until it is packed again.\n"
        )
    };
    for line in ASKING {
        folder.run(line).fails(4, &unfinished("archive.txt"));
    }
    folder.run(&["verify", "."]).fails(4, &unfinished("./archive.txt"));
    folder.run(&["seal", "."]).fails(4, &unfinished("./archive.txt"));
    folder.run(&["pack", ".", "."]);
    folder.run(&["pick", "-e", "title pr false", "sheet.bin", "cards.bin"]).says(0, "1\n2\n3\n3 of 3\n", "");
    folder.write("archive.txt", "3 cards\n");
    let message = format!("archive.txt is no seal as `sirophan pack` and `sirophan seal` write it.\n{HELP}");
    folder.run(&["fields", "sheet.bin", "cards.bin"]).fails(4, &message);
}

/// Blocks that are pipes are read once, and are not sealed; nothing waits for what they might give.
#[test]
fn pipes_are_not_sealed() {
    for name in ["sheet.bin", "cards.bin", "archive.txt"] {
        let folder = Folder::ward(&format!("seal-pipe-{name}"));
        fs::remove_file(folder.path.join(name)).unwrap();
        assert!(Command::new("mkfifo").arg(folder.path.join(name)).status().unwrap().success());
        folder.run(&["seal", "."]).fails(3, &format!("sirophan: ./{name} cannot be sealed: it is no file.\n"));
    }
    let folder = Folder::ward("seal-pipe");
    assert!(Command::new("mkfifo").arg(folder.unsealed().path.join("archive.txt")).status().unwrap().success());
    all_refuse(&folder, "archive.txt is no seal as `sirophan pack` and `sirophan seal` write it.");
}
