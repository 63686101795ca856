//! Files that cannot be read, and outputs that cannot be written.

use crate::folder::{Folder, PROGRAM, REPOSITORY};
use std::fs;
use std::process::Command;

#[test]
fn files_that_are_missing() {
    let folder = Folder::ward("missing");
    let commands: [&[&str]; 6] = [
        &["pick", "none", "filter.txt", "cards.bin"],
        &["pick", "sheet.bin", "filter.txt", "none"],
        &["check", "sheet.bin", "none"],
        &["fields", "sheet.bin", "none"],
        &["show", "none"],
        &["fields", "none", "cards.bin"],
    ];
    for command in commands {
        folder.run(command).fails(3, "sirophan: none cannot be opened: No such file or directory\n");
    }
    folder
        .run(&["pack", "none", "new"])
        .fails(3, "sirophan: none/sheet.txt cannot be opened: No such file or directory\n");
    folder.run(&["verify", "none"]).fails(3, "sirophan: none/sheet.bin cannot be opened: No such file or directory\n");
    folder.run(&["check", "sheet.bin", "title eq x"]).fails(
        3,
        "sirophan: title eq x cannot be opened: No such file or directory\n\
         \x20 This is to be a file. The text itself is given by -e in its place.\n",
    );
    folder.run(&["pick", "sheet.bin", "filter.txt", "."]).fails(3, "sirophan: . cannot be read: Is a directory\n");
    assert_eq!(folder.files(), ["archive.txt", "cards.bin", "filter.txt", "sheet.bin"]);
}

#[test]
fn folders_that_cannot_be_written() {
    let folder = Folder::ward("unwritable");
    let ward = format!("{REPOSITORY}/examples/ward");
    folder.run(&["pack", &ward, "sheet.bin"]).fails(3, "sirophan: sheet.bin cannot be made: File exists\n");
    fs::create_dir_all(folder.path.join("out/cards.bin")).unwrap();
    folder.run(&["pack", &ward, "out"]).fails(3, "sirophan: out/cards.bin cannot be replaced: Is a directory\n");
    assert!(!folder.path.join("out/cards.bin.new").exists());
    // On a full disk the archive that was there stays, and nothing else.
    folder.change("cards.bin", |cards| cards.truncate(512));
    std::os::unix::fs::symlink("/dev/full", folder.path.join("cards.bin.new")).unwrap();
    folder.run(&["pack", &ward, "."]).fails(3, "sirophan: ./cards.bin cannot be written: No space left on device\n");
    assert_eq!(folder.files(), ["archive.txt", "cards.bin", "filter.txt", "out", "sheet.bin"]);
    assert_eq!(folder.read("cards.bin").len(), 512);
}

#[test]
fn outputs_that_are_full() {
    let folder = Folder::ward("full");
    let commands: [&[&str]; 8] = [
        &["pick", "sheet.bin", "filter.txt", "cards.bin"],
        &["pick", "--stream", "sheet.bin", "filter.txt", "cards.bin"],
        &["check", "sheet.bin", "filter.txt"],
        &["fields", "sheet.bin", "cards.bin"],
        &["show", "cards.bin"],
        &["verify", "."],
        &["pack", "--help"],
        &["--version"],
    ];
    for command in commands {
        let full = fs::OpenOptions::new().write(true).open("/dev/full").unwrap();
        let output = Command::new(PROGRAM).args(command).current_dir(&folder.path).stdout(full).output().unwrap();
        let errors = String::from_utf8(output.stderr).unwrap();
        assert_eq!(errors, "sirophan: standard output cannot be written: No space left on device\n", "{command:?}");
        assert_eq!(output.status.code(), Some(3), "{command:?}");
    }
}

/// Where the reader of standard output has gone the command ends, and says nothing.
#[test]
fn pipes_that_are_closed() {
    let cards: String = (0..3000).map(|record| format!("record: {record}\n")).collect();
    let folder = Folder::packed("closed", "string title\n", &cards, "title pr false\n");
    let commands: [&[&str]; 3] = [
        &["pick", "sheet.bin", "filter.txt", "cards.bin"],
        &["pick", "--stream", "sheet.bin", "filter.txt", "cards.bin"],
        &["show", "cards.bin"],
    ];
    for command in commands {
        let (reader, writer) = std::io::pipe().unwrap();
        drop(reader);
        let output = Command::new(PROGRAM).args(command).current_dir(&folder.path).stdout(writer).output().unwrap();
        assert_eq!(String::from_utf8(output.stderr).unwrap(), "", "{command:?}");
        assert_eq!(output.status.code(), Some(3), "{command:?}");
    }
}

/// Runs a line of a shell in a folder, where `$S` is the command.
fn shell(folder: &Folder, line: &str) -> (Option<i32>, String, String) {
    let mut shell = Command::new("sh");
    let output = shell.args(["-c", line]).env("S", PROGRAM).current_dir(&folder.path).output().unwrap();
    let text = |bytes| String::from_utf8(bytes).unwrap();
    (output.status.code(), text(output.stdout), text(output.stderr))
}

/// A standard output that is closed, or open for reading alone, takes no answer: that is no success.
#[test]
fn outputs_that_are_closed() {
    let folder = Folder::ward("output-closed");
    let unwritten = "sirophan: standard output cannot be written: Bad file descriptor\n".to_string();
    for command in [
        "pick sheet.bin filter.txt cards.bin",
        "pick --stream sheet.bin filter.txt cards.bin",
        "search -e title=ward sheet.bin cards.bin",
        "explain --record 7 sheet.bin filter.txt cards.bin",
        "check sheet.bin filter.txt",
        "plain filter.txt",
        "report sheet.bin filter.txt cards.bin",
        "fields sheet.bin cards.bin",
        "show cards.bin",
        "verify .",
        "pick --json sheet.bin filter.txt cards.bin",
        "--help",
    ] {
        for closed in [">&-", "1< sheet.bin"] {
            let unwritten = if command.contains("--json") {
                "{\"level\":\"error\",\"message\":\"sirophan: standard output cannot be written: Bad file descriptor\"}\n".into()
            } else {
                unwritten.clone()
            };
            let said = shell(&folder, &format!("\"$S\" {command} {closed}"));
            assert_eq!(said, (Some(3), String::new(), unwritten), "{command} {closed}");
        }
    }
}

/// A standard input that is closed, or open for writing alone, has no cards: an empty archive is another thing.
#[test]
fn inputs_that_are_closed() {
    let folder = Folder::ward("input-closed");
    let unread = "sirophan: standard input cannot be read: Bad file descriptor\n".to_string();
    for command in [
        "pick sheet.bin filter.txt -",
        "pick sheet.bin - cards.bin",
        "search -e title=ward sheet.bin -",
        "fields sheet.bin -",
        "plain -",
        "show -",
    ] {
        for closed in ["<&-", "0> nothing"] {
            let said = shell(&folder, &format!("\"$S\" {command} {closed}"));
            assert_eq!(said, (Some(3), String::new(), unread.clone()), "{command} {closed}");
        }
    }
    // Where it is not read it need not be open; and the null device is an empty archive.
    let said = shell(&folder, "\"$S\" pick sheet.bin filter.txt cards.bin <&-");
    assert_eq!(said, (Some(0), "7\n300\n2 of 3\n".into(), String::new()));
    let (status, output, errors) = shell(&folder, "\"$S\" pick sheet.bin filter.txt - < /dev/null");
    assert_eq!((status, output.as_str()), (Some(0), "0 of 0\n"));
    assert_eq!(errors, "warning: standard input has no cards.\n  It is empty. Is it the file that was meant?\n");
}
