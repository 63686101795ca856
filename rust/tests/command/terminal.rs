//! What is shown on a terminal: how far a command is that takes over a second, and warnings.

use crate::folder::{Folder, PROGRAM};
use std::ffi::{CStr, c_char, c_int, c_ulong};
use std::fs::{self, File};
use std::io::{Read, Write};
use std::os::fd::{AsRawFd, FromRawFd};
use std::process::{Command, Stdio};
use std::thread;
use std::time::Duration;

unsafe extern "C" {
    fn posix_openpt(flags: c_int) -> c_int;
    fn grantpt(terminal: c_int) -> c_int;
    fn unlockpt(terminal: c_int) -> c_int;
    fn ptsname(terminal: c_int) -> *const c_char;
    fn ioctl(descriptor: c_int, request: c_ulong, ...) -> c_int;
}

/// A terminal: the side that a program writes to, and the side that reads what it wrote.
fn terminal() -> (File, File) {
    const READ_AND_WRITE: c_int = 2;
    // Safe: the descriptor is the call's own, and the name is copied before another call could change it.
    let (reader, name) = unsafe {
        let reader = posix_openpt(READ_AND_WRITE);
        assert!(reader >= 0 && grantpt(reader) == 0 && unlockpt(reader) == 0);
        (File::from_raw_fd(reader), CStr::from_ptr(ptsname(reader)).to_str().unwrap().to_string())
    };
    (fs::OpenOptions::new().read(true).write(true).open(name).unwrap(), reader)
}

/// All that was written to a terminal, once its writers have gone; the end of it is an error.
fn shown(mut reader: File) -> String {
    let mut bytes = vec![0; 1 << 16];
    let mut shown = Vec::new();
    while let Ok(count @ 1..) = reader.read(&mut bytes) {
        shown.extend(&bytes[..count]);
    }
    String::from_utf8(shown).unwrap()
}

/// Runs a command while `feed` gives it its input, and answers what it shows on a terminal and what on standard output.
fn on_a_terminal(folder: &Folder, arguments: &[&str], feed: impl FnOnce(std::process::ChildStdin)) -> (String, String) {
    let (writer, reader) = terminal();
    let mut command = Command::new(PROGRAM);
    command.args(arguments).current_dir(&folder.path).stdin(Stdio::piped()).stdout(Stdio::piped()).stderr(writer);
    let mut child = command.spawn().unwrap();
    drop(command);
    feed(child.stdin.take().unwrap());
    let output = child.wait_with_output().unwrap();
    (shown(reader), String::from_utf8(output.stdout).unwrap())
}

const LONG: Duration = Duration::from_millis(1300);

/// A line shows how far it is, on a terminal alone, and is gone at the end.
#[test]
fn pick_shows_how_far_it_is() {
    let cards: String = (0..512).map(|record| format!("record: {record}\n")).collect();
    let folder = Folder::packed("progress", "string title\n", &cards, "title pr false\n");
    let bytes = folder.read("cards.bin");
    let slowly = |mut input: std::process::ChildStdin| {
        let (first, second) = bytes.split_at(256 * 512);
        input.write_all(first).unwrap();
        thread::sleep(LONG);
        input.write_all(second).unwrap();
    };
    let arguments = ["pick", "sheet.bin", "filter.txt", "-"];
    let (shown, output) = on_a_terminal(&folder, &arguments, slowly);
    assert!(shown.starts_with("\r512 cards\x1B[K") && shown.ends_with("\r\x1B[K"), "{shown:?}");
    assert!(output.ends_with("\n512 of 512\n"), "{output}");
    let (shown, output) = on_a_terminal(&folder, &arguments, |mut input| input.write_all(&bytes).unwrap());
    assert_eq!(shown, "");
    assert!(output.ends_with("\n512 of 512\n"), "{output}");
}

/// The same of packing. A description need not be a file, and then has no size.
#[test]
fn pack_shows_how_far_it_is() {
    let folder = Folder::described("pack-progress", "string title\n", "", "title pr true\n");
    let cards = folder.path.join("cards.txt");
    fs::remove_file(&cards).unwrap();
    assert!(Command::new("mkfifo").arg(&cards).status().unwrap().success());
    // By a thread of its own: where the command ends without opening the file, nobody waits for it.
    let slowly = || {
        let cards = cards.clone();
        thread::spawn(move || {
            let mut file = fs::OpenOptions::new().write(true).open(cards).unwrap();
            file.write_all(b"record: 1\n").unwrap();
            thread::sleep(LONG);
            file.write_all(b"record: 2\nrecord: 3\n").unwrap();
        })
    };
    let packed = "3 cards and a sheet with 1 parameter, in new\n";
    let (shown, output) = on_a_terminal(&folder, &["pack", ".", "new"], |_| drop(slowly()));
    assert!(shown.starts_with("\r1 card\x1B[K") && shown.ends_with("\r\x1B[K"), "{shown:?}");
    assert_eq!(output, packed);
    slowly();
    folder.run(&["pack", ".", "new"]).says(0, packed, "");
}

/// On a terminal warnings stand between the list and the count, wrapped at words for its width.
#[test]
fn warnings_on_a_terminal() {
    let cards = "record: 1\nbirthdate 1974-06\nrecord: 2\nbirthdate 1980-07\n";
    let folder = Folder::packed("terminal", "token birthdate\n", cards, "birthdate eq 1974-06\n");
    let (writer, reader) = terminal();
    set_columns(&writer, 60);
    let mut command = Command::new(PROGRAM);
    command.args(["pick", "sheet.bin", "filter.txt", "cards.bin"]).current_dir(&folder.path).env_remove("COLUMNS");
    command.stdout(writer.try_clone().unwrap()).stderr(writer);
    let mut child = command.spawn().unwrap();
    drop(command);
    assert!(child.wait().unwrap().success());
    assert_eq!(
        shown(reader).replace('\r', ""),
        "1\n\
         warning: birthdate is a token, and 2 of 2 values look like\n\
         \x20 dates.\n\
         \x20 If it holds dates, the sheet gives it the wrong kind, and\n\
         \x20   a filter asks something else than it seems to.\n\
         1 of 2\n"
    );
}

/// Sets how many columns a terminal has.
fn set_columns(terminal: &File, columns: u16) {
    const SET_WINDOW_SIZE: c_ulong = 0x5414;
    let size: [u16; 4] = [24, columns, 0, 0];
    // Safe: the size is read, and the descriptor is open.
    assert_eq!(unsafe { ioctl(terminal.as_raw_fd(), SET_WINDOW_SIZE, size.as_ptr()) }, 0);
}
