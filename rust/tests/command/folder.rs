//! Folders of tests, runs of the command in them, and what a run said.

use std::fs;
use std::io::Write;
use std::path::PathBuf;
use std::process::{Command, Stdio};

pub const PROGRAM: &str = env!("CARGO_BIN_EXE_sirophan");
pub const REPOSITORY: &str = concat!(env!("CARGO_MANIFEST_DIR"), "/..");

/// A folder of a test's own, which goes when the test ends.
pub struct Folder {
    pub path: PathBuf,
}

impl Folder {
    pub fn new(test: &str) -> Folder {
        let path = std::env::temp_dir().join(format!("sirophan-command-{}-{test}", std::process::id()));
        fs::create_dir(&path).unwrap();
        Folder { path }
    }

    /// A folder with the packed example archive: sheet.bin, filter.txt and cards.bin.
    pub fn ward(test: &str) -> Folder {
        let folder = Folder::new(test);
        folder.run(&["pack", &format!("{REPOSITORY}/examples/ward"), "."]).says(
            0,
            "3 cards and a sheet with 5 parameters, in .\n",
            "",
        );
        folder
    }

    /// A folder with a description, packed.
    pub fn packed(test: &str, sheet: &str, cards: &str, filter: &str) -> Folder {
        let folder = Folder::described(test, sheet, cards, filter);
        assert_eq!(folder.run(&["pack", ".", "."]).status, 0);
        folder
    }

    /// A folder with a description.
    pub fn described(test: &str, sheet: &str, cards: &str, filter: &str) -> Folder {
        let folder = Folder::new(test);
        folder.write("sheet.txt", sheet).write("cards.txt", cards).write("filter.txt", filter);
        folder
    }

    pub fn write(&self, name: &str, bytes: impl AsRef<[u8]>) -> &Folder {
        fs::write(self.path.join(name), bytes).unwrap();
        self
    }

    pub fn read(&self, name: &str) -> Vec<u8> {
        fs::read(self.path.join(name)).unwrap()
    }

    /// Takes the seal away, so that blocks can be changed that no seal names.
    pub fn unsealed(&self) -> &Folder {
        fs::remove_file(self.path.join("archive.txt")).unwrap();
        self
    }

    /// The names of the files, in order.
    pub fn files(&self) -> Vec<String> {
        let entries = fs::read_dir(&self.path).unwrap();
        let mut names: Vec<String> = entries.map(|entry| entry.unwrap().file_name().into_string().unwrap()).collect();
        names.sort();
        names
    }

    /// Changes the bytes of a file.
    pub fn change(&self, name: &str, change: impl FnOnce(&mut Vec<u8>)) -> &Folder {
        let mut bytes = self.read(name);
        change(&mut bytes);
        self.write(name, bytes)
    }

    /// Runs the command in the folder, without standard input.
    pub fn run(&self, arguments: &[&str]) -> Said {
        self.run_with(arguments, b"")
    }

    /// Runs the command in the folder, with this standard input.
    pub fn run_with(&self, arguments: &[&str], input: &[u8]) -> Said {
        let mut command = Command::new(PROGRAM);
        command.args(arguments).current_dir(&self.path);
        let mut child = command.stdin(Stdio::piped()).stdout(Stdio::piped()).stderr(Stdio::piped()).spawn().unwrap();
        let mut stdin = child.stdin.take().unwrap();
        // The command may end before it has read its input.
        let _ = stdin.write_all(input);
        drop(stdin);
        let output = child.wait_with_output().unwrap();
        Said {
            status: output.status.code().unwrap(),
            output: String::from_utf8(output.stdout).unwrap(),
            errors: String::from_utf8(output.stderr).unwrap(),
        }
    }

    /// Checks a filter against sheet.bin.
    pub fn check(&self, filter: &str) -> Said {
        self.run_with(&["check", "sheet.bin", "-"], filter.as_bytes())
    }

    /// Searches by a string.
    pub fn search(&self, string: &str) -> Said {
        self.run_with(&["search", "sheet.bin", "-", "cards.bin"], string.as_bytes())
    }

    /// Picks by a filter.
    pub fn pick(&self, filter: &str) -> Said {
        self.run_with(&["pick", "sheet.bin", "-", "cards.bin"], filter.as_bytes())
    }
}

impl Drop for Folder {
    fn drop(&mut self) {
        let _ = fs::remove_dir_all(&self.path);
    }
}

/// What a run said.
#[derive(Debug)]
pub struct Said {
    pub status: i32,
    pub output: String,
    pub errors: String,
}

impl Said {
    #[track_caller]
    pub fn says(&self, status: i32, output: &str, errors: &str) {
        assert_eq!((self.output.as_str(), self.errors.as_str(), self.status), (output, errors, status));
    }

    /// Nothing on standard output, and this on standard error.
    #[track_caller]
    pub fn fails(&self, status: i32, errors: &str) {
        self.says(status, "", errors);
    }
}

/// Sets the check sum of the block that begins at a place.
pub fn sum(bytes: &mut [u8], block: usize) {
    let block = &mut bytes[block..block + 512];
    let sum: u32 = block[..508].iter().zip(1..).map(|(&byte, place)| u32::from(byte) * place).sum();
    block[508..].copy_from_slice(&sum.to_le_bytes());
}
