//! `sirophan --help`, and command lines that are not understood.

use crate::folder::{Folder, PROGRAM, REPOSITORY};
use std::path::Path;
use std::process::Command;

/// Every command.
const COMMANDS: [&str; 14] = [
    "pick", "search", "query", "explain", "check", "report", "plain", "fields", "pack", "show", "verify", "seal",
    "sign", "recheck",
];

/// The examples that the help gives are true. A line of three dots stands for the rest of an output.
#[test]
fn examples_of_the_help() {
    let folder = Folder::new("examples");
    folder.run(&["pack", &format!("{REPOSITORY}/examples/ward"), "ward"]);
    std::os::unix::fs::symlink(Path::new(REPOSITORY).join("examples"), folder.path.join("examples")).unwrap();
    let programs = Path::new(PROGRAM).parent().unwrap().to_str().unwrap();
    for name in COMMANDS {
        let help = folder.run(&[name, "--help"]);
        assert_eq!((help.status, help.errors.as_str()), (0, ""), "{name}");
        let example = help.output.split("Example:\n\n    $ ").nth(1).expect(name);
        let (line, shown) = example.split_once('\n').unwrap();
        let shown: String =
            shown.split("\n\n").next().unwrap().lines().map(|line| format!("{}\n", &line[4..])).collect();
        let path = format!("{programs}:{}", std::env::var("PATH").unwrap());
        let mut shell = Command::new("sh");
        shell.args(["-c", &format!("({line}) 2>&1")]).current_dir(&folder.path).env("PATH", path).env("COLUMNS", "72");
        let output = shell.output().unwrap();
        let printed = String::from_utf8(output.stdout).unwrap();
        match shown.strip_suffix("  ...\n") {
            Some(start) => assert!(printed.starts_with(start), "{name}: {printed}"),
            None => assert_eq!(printed, shown, "{name}"),
        }
    }
}

#[test]
fn help_and_version() {
    let folder = Folder::new("help");
    let help = folder.run(&["--help"]);
    assert_eq!((help.status, help.errors.as_str()), (0, ""));
    for part in [
        "sirophan pick [--stream] [--columns NAMES] [--csv] SHEET FILTER CARDS",
        "sirophan verify DIR",
        "  0  answered",
    ] {
        assert!(help.output.contains(part), "{part}");
    }
    for option in ["--version", "-V", "version"] {
        folder.run(&[option]).says(0, concat!("sirophan ", env!("CARGO_PKG_VERSION"), " (unreleased)\n"), "");
    }
    let pick = folder.run(&["pick", "--help"]).output;
    for line in [["help", "pick"], ["--help", "pick"], ["pick", "-h"]] {
        folder.run(&line).says(0, &pick, "");
    }
}

#[test]
fn command_lines_that_are_not_understood() {
    let folder = Folder::new("usage");
    folder.run(&[]).fails(1, "sirophan: No command was given. `sirophan --help` lists the commands.\n");
    folder
        .run(&["pik"])
        .fails(1, "sirophan: pik is no command. Is it pick or pack? `sirophan --help` lists the commands.\n");
    folder.run(&["inquire"]).fails(1, "sirophan: inquire is no command. `sirophan --help` lists the commands.\n");
    folder
        .run(&["help", "inquire"])
        .fails(1, "sirophan: inquire is no command. `sirophan --help` lists the commands.\n");
    folder.run(&["search", "a"]).fails(
        1,
        "sirophan: 1 path given. Usage: sirophan search [--stream] [--columns NAMES] [--csv] SHEET STRING CARDS\n",
    );
    folder.run(&["--json", "pick"]).fails(
        1,
        "sirophan: --json stands before the command. Options stand behind it. `sirophan --help` lists the commands.\n",
    );
    folder.run(&["pick", "a"]).fails(
        1,
        "sirophan: 1 path given. Usage: sirophan pick [--stream] [--columns NAMES] [--csv] SHEET FILTER CARDS\n",
    );
    folder
        .run(&["check", "--stream", "a", "b"])
        .fails(1, "sirophan: --stream is no option here. Usage: sirophan check [--search] SHEET FILTER [CARDS]\n");
    folder.run(&["check", "-", "-"]).fails(
        1,
        "sirophan: Standard input (-) can be read only once. Usage: sirophan check [--search] SHEET FILTER [CARDS]\n",
    );
    folder.run(&["show", "--record", "x", "a"]).fails(
        1,
        "sirophan: x is no record number: it is a number up to 4,294,967,295. Usage: sirophan show [--record N] [--description | --csv] FILE..\n",
    );
    folder
        .run(&["verify", "--json"])
        .fails(1, "{\"level\":\"error\",\"message\":\"sirophan: 0 paths given. Usage: sirophan verify DIR\"}\n");
}

/// A text in the place of its file, as grep has it.
#[test]
fn texts_on_the_command_line() {
    let folder = Folder::ward("text");
    let listed = "7\n19\n2 of 3\n";
    folder.run(&["pick", "-e", "title co ward", "sheet.bin", "cards.bin"]).says(0, listed, "");
    folder.run(&["pick", "sheet.bin", "cards.bin", "-etitle co ward"]).says(0, listed, "");
    folder.run(&["search", "sheet.bin", "-e", "title=ward", "cards.bin"]).says(0, listed, "");
    folder.run(&["plain", "-e", " title  co ward"]).says(0, "title co ward\n", "");
    let report = folder.run(&["report", "-e", "title co ward", "sheet.bin", "cards.bin"]);
    assert!(report.output.starts_with("3 cards: yes 2, no 1\n"), "{}", report.output);
    folder.run(&["check", "-e", "title", "sheet.bin"]).fails(
        2,
        "title\n     ^\n-e: refused 11 at 5: The text is no filter by the grammar: no filter goes on like this.\n\
         \x20 Here could stand an operator. Words have a space before them.\n\
         \x20 title is a string, which has the operators eq, ne, co, sw, ew and pr.\n",
    );
    folder.run(&["pick", "-e"]).fails(
        1,
        "sirophan: Behind -e stands the text that asks. Usage: sirophan pick [--stream] [--columns NAMES] [--csv] SHEET FILTER CARDS\n",
    );
    folder
        .run(&["plain", "-e", "a eq b", "-e", "a eq c"])
        .fails(1, "sirophan: -e stands once: a text is one filter or string. Usage: sirophan plain FILTER\n");
    folder.run(&["pick", "-e", "title co ward", "sheet.bin", "filter.txt", "cards.bin"]).fails(
        1,
        "sirophan: 4 paths given. Usage: sirophan pick [--stream] [--columns NAMES] [--csv] SHEET FILTER CARDS\n",
    );
    folder
        .run(&["fields", "-e", "x", "sheet.bin", "cards.bin"])
        .fails(1, "sirophan: -e is no option here. Usage: sirophan fields SHEET CARDS\n");
}

/// No line of a help is wider than eighty columns, or than COLUMNS says, but for examples.
#[test]
fn help_in_eighty_columns() {
    let folder = Folder::new("columns");
    for name in COMMANDS {
        for line in folder.run(&[name, "--help"]).output.lines().chain(folder.run(&["--help"]).output.lines()) {
            assert!(line.chars().count() <= 80, "{name}: {line}");
        }
        let narrow = Command::new(PROGRAM).args([name, "--help"]).env("COLUMNS", "60").output().unwrap();
        for line in String::from_utf8(narrow.stdout).unwrap().lines().filter(|line| !line.starts_with(' ')) {
            assert!(line.chars().count() <= 60 || line.starts_with("sirophan "), "{name}: {line}");
        }
    }
}
