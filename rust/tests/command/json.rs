//! docs/JSON.md: its examples are what the command writes, and it has one for each command.

use crate::folder::{Folder, PROGRAM, REPOSITORY};
use std::path::Path;
use std::process::Command;

/// The examples of the page: a command line, and what it writes. A line that stands further in goes on with the one above it.
fn examples(page: &str) -> Vec<(String, String)> {
    let mut found: Vec<(String, String)> = Vec::new();
    for line in page.lines().filter_map(|line| line.strip_prefix("    ")) {
        match (line.strip_prefix("$ "), found.last_mut()) {
            (Some(command), _) => found.push((command.into(), String::new())),
            (None, None) => panic!("before the first command stands {line}"),
            (None, Some((_, output))) => match line.strip_prefix("  ") {
                Some(more) => output.insert_str(output.len() - 1, more),
                None => output.extend([line, "\n"]),
            },
        }
    }
    found
}

#[test]
fn examples_of_the_page() {
    let folder = Folder::new("json-page");
    folder.run(&["pack", &format!("{REPOSITORY}/examples/ward"), "ward"]);
    std::os::unix::fs::symlink(Path::new(REPOSITORY).join("examples"), folder.path.join("examples")).unwrap();
    let page = std::fs::read_to_string(Path::new(REPOSITORY).join("docs/JSON.md")).unwrap();
    let examples = examples(&page);
    let path = format!("{}:{}", Path::new(PROGRAM).parent().unwrap().to_str().unwrap(), std::env::var("PATH").unwrap());
    for (line, shown) in &examples {
        let mut shell = Command::new("sh");
        shell.args(["-c", &format!("({line}) 2>&1")]).current_dir(&folder.path).env("PATH", &path);
        let printed = String::from_utf8(shell.output().unwrap().stdout).unwrap();
        assert_eq!(&printed, shown, "{line}");
    }
    let overview = folder.run(&["--help"]).output;
    let commands = overview.lines().filter_map(|line| line.strip_prefix("  sirophan ")?.split(' ').next());
    for command in commands {
        let has = |form: &str| examples.iter().any(|(line, _)| line.starts_with(&format!("sirophan {command} {form}")));
        assert!(has("--json"), "docs/JSON.md has no example of {command} --json");
        assert!(!overview.contains(&format!("sirophan {command} [--fhir]")) || has("--fhir"), "{command} --fhir");
    }
}
