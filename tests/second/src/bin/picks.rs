//! Runs the program `pick` beside the second implementation on generated archives.
//!
//! `picks PROGRAM [SEED [ARCHIVES]]` writes the three files into a directory of its own, runs the program there and
//! compares what it prints, byte by byte. The last line counts the archives that agree, and those that do not.
//! `picks --command PROGRAM ..` runs `PROGRAM pick --stream` on the three files instead, which tells a refusal on standard
//! error and by its status.

use second::generate::{self, Files};
use second::pick;
use std::collections::BTreeMap;
use std::path::Path;
use std::process::{Command, ExitCode};
use std::{env, fs, io, process};

const SEED: u64 = 1974;
const ARCHIVES: u64 = 300;

fn main() -> ExitCode {
    let mut arguments: Vec<String> = env::args().skip(1).collect();
    let is_command = arguments.first().is_some_and(|first| first == "--command");
    if is_command {
        arguments.remove(0);
    }
    let number = |index: usize, otherwise| arguments.get(index).map_or(Ok(otherwise), |text| text.parse());
    let (Some(program), Ok(seed), Ok(archives)) = (arguments.first(), number(1, SEED), number(2, ARCHIVES)) else {
        eprintln!("usage: picks [--command] PROGRAM [SEED [ARCHIVES]]");
        return ExitCode::FAILURE;
    };
    let directory = env::temp_dir().join(format!("sirophan-picks-{}", process::id()));
    let run = if is_command { run_command } else { run_pick };
    let outcome = compare(program, run, &directory, seed, archives);
    // A directory that stays behind does no harm to the outcome.
    let _ = fs::remove_dir_all(&directory);
    match outcome {
        Ok(0) => ExitCode::SUCCESS,
        Ok(_) => ExitCode::FAILURE,
        Err(reason) => {
            eprintln!("{program} cannot be run: {reason}");
            ExitCode::FAILURE
        }
    }
}

/// How a program is run in a directory; the answer is what `pick` would print.
type Run = fn(&Path, &Path) -> io::Result<Vec<u8>>;

/// What `pick` prints.
fn run_pick(program: &Path, directory: &Path) -> io::Result<Vec<u8>> {
    Ok(Command::new(program).current_dir(directory).output()?.stdout)
}

/// What the command `sirophan pick` says, a refusal as `pick` prints it; or its status, where that does not go with it.
fn run_command(program: &Path, directory: &Path) -> io::Result<Vec<u8>> {
    let files = ["sheet.bin", "filter.txt", "cards.bin"];
    let output = Command::new(program).args(["pick", "--stream"]).args(files).current_dir(directory).output()?;
    let errors = String::from_utf8_lossy(&output.stderr);
    let refusals = errors.lines().filter_map(|line| {
        let (file, told) = line.split_once(": refused ")?;
        files.contains(&file).then(|| format!("refused {}\n", told.split(':').next().unwrap_or_default()))
    });
    let refusals: Vec<String> = refusals.collect();
    match (output.status.code(), &refusals[..]) {
        (Some(0), []) => Ok(output.stdout),
        (Some(status), [refusal]) if status == status_of(refusal) => Ok([&output.stdout, refusal.as_bytes()].concat()),
        (status, refusals) => Ok(format!("status {status:?}, {} refusals\n", refusals.len()).into_bytes()),
    }
}

/// The command's status for a refusal: 4 for those of the sheet and of cards, 2 for those of the filter.
fn status_of(refusal: &str) -> i32 {
    let number = refusal.split(' ').nth(1).and_then(|number| number.parse().ok());
    if matches!(number, Some(1..=3 | 20..=23)) { 4 } else { 2 }
}

/// Prints the counts and answers how many archives do not agree.
fn compare(program: &str, run: Run, directory: &Path, seed: u64, archives: u64) -> io::Result<u64> {
    let program = fs::canonicalize(program)?;
    fs::create_dir(directory)?;
    let mut endings: BTreeMap<String, u64> = BTreeMap::new();
    let mut failed = 0;
    for number in 0..archives {
        let Files { sheet, filter, cards } = generate::files(seed, number);
        fs::write(directory.join("sheet.bin"), &sheet)?;
        fs::write(directory.join("filter.txt"), &filter)?;
        fs::write(directory.join("cards.bin"), &cards)?;
        let printed = run(&program, directory)?;
        let expected = pick::output(&sheet, &filter, &cards);
        *endings.entry(ending(&expected)).or_default() += 1;
        if printed != expected.as_bytes() {
            failed += 1;
            let last = |text: &str| text.lines().last().unwrap_or_default().to_string();
            println!("seed {seed}, archive {number}, filter {:?}", String::from_utf8_lossy(&filter));
            println!("  it ends with {:?}", last(&String::from_utf8_lossy(&printed)));
            println!("  the second implementation with {:?}", last(&expected));
        }
    }
    for (ending, count) in endings {
        println!("{count:>8} {ending}");
    }
    println!("{} passed, {failed} failed", archives - failed);
    Ok(failed)
}

/// How an output ends: with a count, or with which refusal.
fn ending(output: &str) -> String {
    let words: Vec<&str> = output.lines().last().unwrap_or_default().split(' ').collect();
    match words[..] {
        ["refused", number, ..] => format!("refused {number:>2}"),
        _ => "count".into(),
    }
}
