//! The command `sirophan`: what the proved library answers, for people. `sirophan --help` says how it is used.
//!
//! Its parts, from the top down:
//!
//! - the commands: `pick` and `search` (in `pick`), `query` with `fhir`, `explain` with `verdicts`, `check`, `report` (in `counts`), `plain`,
//!   `fields`, `pack`, `show` with `describe`, `verify`, `seal`, to which all others hold an archive, `sign` and `recheck`;
//! - pages: `signing` asks and puts a `page` together, `html` and `leaf` write it in its two forms, `visible` shows texts, `in_words` tests,
//!   `might_be` counts what is not on the list, `day` has the date;
//! - what they say beside their answers: `advice` and `search_advice` on refusals; `survey` has all doubts of a question, from `doubt` about
//!   what is asked and `field_doubt` about what cards hold; `zero` walks for tests that no card meets, with `clues`, and `reason`
//!   tells why;
//! - what that goes by: `tally` counts the cards, `looks` and `spoken` say what a value looks like, `letters` and `system` in what texts
//!   differ, `asked` what is asked one by one, `values` what a test goes by;
//! - what they go through: `cards` in blocks, with `matching` and `columns`, `description` in words, `csv` in tables;
//! - what these are made of: `search`, and `sheet`, `filter`, `kind` and `block` of the library's interface;
//! - in and out: `arguments`, `input`, `stream`, `interrupt`, `report`, `width`, `progress`, `table`, `json`, `text`, `sha256`.

// `text` and `test`, `held` and `help`: a word that is used for one thing everywhere is not changed for another that is near it.
#![allow(clippy::similar_names)]

mod advice;
mod arguments;
mod asked;
mod cards;
mod check;
mod clues;
mod columns;
mod counts;
mod csv;
mod day;
mod describe;
mod description;
mod doubt;
mod explain;
mod fhir;
mod field_doubt;
mod fields;
mod html;
mod in_words;
mod input;
mod interrupt;
mod json;
mod leaf;
mod letters;
mod looks;
mod matching;
mod might_be;
mod pack;
mod page;
mod pick;
mod plain;
mod progress;
mod query;
mod reason;
mod recheck;
mod report;
mod seal;
mod search;
mod search_advice;
mod sha256;
mod show;
mod sign;
mod signing;
mod spoken;
mod stream;
mod survey;
mod system;
mod table;
mod tally;
mod text;
mod values;
mod verdicts;
mod verify;
mod version;
mod visible;
mod width;
mod zero;

use arguments::Arguments;
use report::{Failure, Form, Output};
use sirophan::{block, filter, kind, sheet};
use std::env;
use std::ops::RangeInclusive;
use std::process::ExitCode;

/// A command.
struct Command {
    name: &'static str,
    /// What stands behind its name.
    usage: &'static str,
    /// How many paths it takes, and which of them is the text that asks and can be given by -e.
    paths: RangeInclusive<usize>,
    text: Option<usize>,
    /// The options that not every command has.
    options: &'static [&'static str],
    summary: &'static str,
    /// Its help. Lines that stand in from the left are kept as they are.
    help: &'static str,
    run: fn(&Arguments) -> Result<(), Failure>,
}

/// The commands. A later one is another row.
const COMMANDS: [Command; 14] = [
    Command {
        name: "pick",
        usage: "[--stream] [--columns NAMES] [--csv] SHEET FILTER CARDS",
        paths: 3..=3,
        text: Some(1),
        options: &["--stream", "--columns", "--csv", "-e"],
        summary: "lists the record numbers of the cards that match a filter",
        help: "The last line is the count, as in `2 of 3`. The list is held back until the last card has passed: a card that \
               does not fit the sheet refuses it all. With --stream the numbers come as they are found, and only an output \
               that ends with the count is a list.\n\n\
               With --columns title,birthdate the list has these fields of each card. With --csv it is a table for spreadsheets, \
               of these fields or else of all, and the count goes to standard error.\n\n\
               Between the list and the count it warns where the filter may not ask what was meant, such as where most \
               values of a field look like another kind's. Where fewer than 20 cards match, and CARDS is a file, it goes \
               through the cards once more and says of each test that no card meets what can be found out about it.\n\n\
               Example:\n\n\
               \x20   $ sirophan pick ward/sheet.bin ward/filter.txt ward/cards.bin\n\
               \x20   7\n\
               \x20   300\n\
               \x20   2 of 3\n",
        run: pick::run,
    },
    Command {
        name: "search",
        usage: "[--stream] [--columns NAMES] [--csv] SHEET STRING CARDS",
        paths: 3..=3,
        text: Some(1),
        options: &["--stream", "--columns", "--csv", "-e"],
        summary: "lists the record numbers of the cards that match a search string",
        help: "STRING is a file with a string such as `birthdate=ge1974&title=ward,book` on one line. The answer, and what is \
               warned of, is as for `sirophan pick`.\n\n\
               Example:\n\n\
               \x20   $ sirophan search -e 'title=admissions' ward/sheet.bin ward/cards.bin\n\
               \x20   300\n\
               \x20   1 of 3\n",
        run: pick::search,
    },
    Command {
        name: "query",
        usage: "[--fhir] SHEET QUERY CARDS",
        paths: 3..=3,
        text: Some(1),
        options: &["--fhir", "-e"],
        summary: "lists the record numbers of the cards that match a query of FHIR",
        help: "QUERY is a file with what stands behind the ? of an address, such as `_filter=title%20co%20book&ward=A`: filters \
               behind _filter, and the pairs of a search string beside them, all to be met. _summary=count asks for the count \
               alone, _total=accurate and _format=json are understood too, and nothing else that is not on the sheet: no \
               parameter is left out of an answer, and _count shortens none. A name that is on the sheet is the sheet's, \
               _filter too.\n\n\
               Of several faults the first in the query is told, with the part that it is in: the place counts in the filter, \
               or in the pairs. The answer, and what is warned of, is as for `sirophan pick`. With --fhir, or with _format=json, it \
               is a Bundle of FHIR, and a refusal an OperationOutcome.\n\n\
               Example:\n\n\
               \x20   $ cd ward; sirophan query -e '_filter=code+ne+x&title=a' sheet.bin cards.bin\n\
               \x20   300\n\
               \x20   1 of 3\n",
        run: query::run,
    },
    Command {
        name: "explain",
        usage: "[--search] (--record N | --all) SHEET FILTER CARDS",
        paths: 3..=3,
        text: Some(1),
        options: &["--search", "--record", "--all", "-e"],
        summary: "says why a filter says yes or no of a card, or of each that matches",
        help: "It underlines the tests that decide, with what each says: with these alone the answer stands, no matter what the \
               others say, and none of them can be spared. Of several such sets it shows the one that is left when the tests are \
               tried from the last to the first and each that can be spared is. A test with a condition in square brackets is \
               one. Below stands each of them with the card's values that it went by. With --all every card of the list is \
               explained.\n\n\
               With --search FILTER is a search string. Of its pairs and alternatives each is asked by itself, and the verdict \
               shown: which of them decide is not known.\n\n\
               Example:\n\n\
               \x20   $ sirophan explain --record 19 ward/sheet.bin ward/filter.txt ward/cards.bin\n\
               \x20   card 1, record 19: no\n\
               \x20   birthdate le 1974-06 and (code eq loinc|1234-5 or title co \"admissions\")\n\
               \x20   ^^^^^^^^^^^^^^^^^^^^\n\
               \x20   no\n\
               \x20     birthdate le 1974-06   no: 1975-01-31\n",
        run: explain::run,
    },
    Command {
        name: "check",
        usage: "[--search] SHEET FILTER [CARDS]",
        paths: 2..=3,
        text: Some(1),
        options: &["--search", "-e"],
        summary: "says whether a filter has a meaning on every card that fits a sheet",
        help: "It answers the number of tests and, for each, the field, its kind, the operator and the value; or it refuses the \
               filter and says what to do. With --search FILTER is a search string, and its alternatives are told. Where CARDS \
               are given, it warns of what they hold as `sirophan pick` does; else of values and names that speak of another \
               kind than the sheet gives their field.\n\n\
               Example:\n\n\
               \x20   $ sirophan check -e 'code lt 1974' ward/sheet.bin\n\
               \x20   code lt 1974\n\
               \x20   ^^^^^^^^^^^^\n\
               \x20   -e: refused 16 at 0: The operator has no meaning for a parameter of this\n\
               \x20     kind.\n\
               \x20     code is a token, which has the operators eq, ne and pr.\n\
               \x20     lt is for numbers, dates and periods. If that is what code holds, the\n\
               \x20       sheet gives it the wrong kind.\n",
        run: check::run,
    },
    Command {
        name: "report",
        usage: "SHEET FILTER CARDS",
        paths: 3..=3,
        text: Some(1),
        options: &["-e"],
        summary: "counts the cards that match, and what all have under each field",
        help: "For each field of the sheet: how many of the cards have it, and how many values there are under it, whatever the \
               filter says of the card. A bundle has no values; its members have. A card that does not fit the sheet refuses it \
               all. It warns as `sirophan pick` does, and of all fields.\n\n\
               Example:\n\n\
               \x20   $ sirophan report ward/sheet.bin ward/filter.txt ward/cards.bin\n\
               \x20   3 cards: yes 2, no 1\n\
               \x20     field      kind       cards  values\n\
               \x20     title      string     3      3\n\
               \x20     birthdate  date       3      4\n\
               \x20     ...\n",
        run: counts::run,
    },
    Command {
        name: "plain",
        usage: "FILTER",
        paths: 1..=1,
        text: Some(0),
        options: &["-e"],
        summary: "writes a filter in its plain spelling, by which it can be filed",
        help: "It has one space where one is needed and none elsewhere, no bracket that the reading from left to right makes \
               idle, and each value as a bare word where it can be one. Two filters have the same plain spelling exactly when \
               they ask the same tests, joined, negated and grouped the same. No sheet is needed.\n\n\
               Example:\n\n\
               \x20   $ sirophan plain -e '((title co \"book\")  or pages gt 12)  and (code eq x)'\n\
               \x20   title co book or pages gt 12 and code eq x\n",
        run: plain::run,
    },
    Command {
        name: "fields",
        usage: "SHEET CARDS",
        paths: 2..=2,
        text: None,
        options: &[],
        summary: "shows what the cards have under each field of a sheet",
        help: "For each field: its kind, how many cards have it, how many values there are, and the first of them. Below the \
               table it warns of fields more than half of whose values look like another kind's: they may have the wrong kind.\n\n\
               Example:\n\n\
               \x20   $ sirophan fields ward/sheet.bin ward/cards.bin\n\
               \x20   3 cards\n\
               \x20     field      kind       cards  values  example\n\
               \x20     title      string     3      3       Ward book 4\n\
               \x20     birthdate  date       3      4       1974-06\n\
               \x20     ...\n",
        run: fields::run,
    },
    Command {
        name: "pack",
        usage: "DIR OUT",
        paths: 2..=2,
        text: None,
        options: &[],
        summary: "makes the blocks of an archive from its description",
        help: "It reads sheet.txt, cards.txt or cards.csv, and, if it is there, filter.txt in DIR and writes sheet.bin, cards.bin, filter.txt \
               and the seal archive.txt in OUT. Where anything is wrong it says where, and OUT stays as it was. It warns of fields whose values look like \
               another kind's, and of record numbers that several cards bear.\n\n\
               A line has a head and a text; a line that begins with # is left out. A text that begins or ends with a space, is \
               empty, or holds bytes that do not print stands in double quotes, with \\\" \\\\ and \\xHH inside. In sheet.txt the \
               head is a kind (string, number, date, token, reference, period, bundle) and the text a name. In cards.txt the head \
               is `record:` before a record number, or else a name. A bundle's members are named behind it, and on a card those \
               with the same number, 0 to 255, belong together; without a number it is 0:\n\n\
               \x20   sheet.txt                    cards.txt\n\
               \x20   bundle     related           record:           7\n\
               \x20   token      related.type      related#1.type    has-component\n\
               \x20   reference  related.target    related#1.target  Observation/4\n\n\
               cards.csv is a table as spreadsheets write it, in UTF-8, with commas or semicolons: the first row has the names of the \
               fields, `record` first, and each further row is a card. A field with several values has several columns of its name, \
               members of bundles are named as above, and an empty cell is no value.\n\n\
               Example:\n\n\
               \x20   $ sirophan pack examples/ward ward\n\
               \x20   3 cards and a sheet with 5 parameters, in ward\n",
        run: pack::run,
    },
    Command {
        name: "show",
        usage: "[--record N] [--description | --csv] FILE..",
        paths: 1..=usize::MAX,
        text: None,
        options: &["--record", "--description", "--csv"],
        summary: "shows the blocks of files as tables",
        help: "Cards are shown by the names and kinds of the sheet that came before them, or else of sheet.bin beside them. What \
               is wrong with a block stands below it, behind a !. With --record only the cards of that number are shown.\n\n\
               With --description a sheet or cards are written as `sirophan pack` reads them in sheet.txt and cards.txt: packed \
               again they are the same blocks, byte for byte. With --csv cards are written as cards.csv, with the same texts under the \
               same fields; where that cannot be, it says so and writes nothing.\n\n\
               Example:\n\n\
               \x20   $ sirophan show --record 300 ward/cards.bin\n\
               \x20   card 2, record 300, 4 entries\n\
               \x20     name       kind    text\n\
               \x20     title      string  Admissions, men\n\
               \x20     birthdate  date    1974-06-30T23:00:00Z\n\
               \x20     code       token   http://snomed.info/sct|32485007\n\
               \x20     pages      number  96\n",
        run: show::run,
    },
    Command {
        name: "verify",
        usage: "DIR",
        paths: 1..=1,
        text: None,
        options: &[],
        summary: "says whether all that is in a folder goes together",
        help: "It takes the blocks (sheet.bin, cards.bin), the description (sheet.txt, cards.txt or cards.csv), or both, whichever are in DIR, \
               with filter.txt if it is there. It goes through all cards and names each that does not fit, with the field and \
               the reason. Where both are there, it says whether the blocks hold what the description says. Where \
               archive.txt is there, the sheet and the cards must be those that it names, byte for byte. It warns as \
               `sirophan pack` does.\n\n\
               Example:\n\n\
               \x20   $ sirophan verify ward | fold -s -w 70\n\
               \x20   the blocks: 3 cards, a sheet with 5 parameters, a filter with 3 \n\
               \x20   tests, a seal: all go together\n",
        run: verify::run,
    },
    Command {
        name: "seal",
        usage: "DIR",
        paths: 1..=1,
        text: None,
        options: &[],
        summary: "seals the blocks of a folder, so that a change of them is told",
        help: "It writes archive.txt, as `sirophan pack` does, for sheet.bin and cards.bin in DIR that another program has made: how \
               many cards there are, and the SHA-256 of both files. It goes through all cards before, and seals none that do not \
               fit. It warns where a seal was there and said something else.\n\n\
               All commands but show that are given a sheet or cards with archive.txt beside them give no answer where the sheet is another, \
               or the cards are fewer or more. Whether each card is as it was say verify, sign and recheck alone.\n\n\
               Example:\n\n\
               \x20   $ sirophan seal ward\n\
               \x20   3 cards and a sheet with 5 parameters, sealed by ward/archive.txt\n",
        run: seal::run,
    },
    Command {
        name: "sign",
        usage: "[--text] [--out FILE] [--columns NAMES] SHEET FILTER CARDS",
        paths: 3..=3,
        text: Some(1),
        options: &["--text", "--out", "--columns", "--date", "-e"],
        summary: "makes the page that is signed: question, answer, doubts and archive",
        help: "It asks as `sirophan pick` does, and makes one page of it, in HTML that prints on A4 or with --text in plain text: the \
               question and how it is read, each test in words, the list, what the archive holds under the fields asked and what is \
               doubted, what is not on the list and might be, the archive's fingerprints, the version, and a line to sign. With \
               --columns title,birthdate the list has these fields of each card. What is refused has a page too, without a \
               list, and the status of the refusal. The page goes to standard output, or with --out to a file.\n\n\
               The same files give the same page, but for the date: today in UTC, or the day that --date or \
               SOURCE_DATE_EPOCH says. The page has a fingerprint, the SHA-256 of all its lines but those of the date and of \
               the fingerprint itself. It goes through the whole cards file and holds it to archive.txt byte for byte.\n\n\
               Example:\n\n\
               \x20   $ cd ward; sirophan sign --out page.html sheet.bin filter.txt cards.bin\n\
               \x20   2 of 3 cards, in page.html\n",
        run: sign::run,
    },
    Command {
        name: "recheck",
        usage: "PAGE SHEET CARDS",
        paths: 3..=3,
        text: None,
        options: &[],
        summary: "says whether a page that was signed still holds",
        help: "It reads a page that `sirophan sign` has made, asks its question again, and says whether archive, question and answer \
               are the same; or what differs, with status 2: the fingerprints and the number of cards, the record numbers that \
               came and went, and whether the page itself was changed. A page of another version may still hold, and the \
               version is told beside it.\n\n\
               Example:\n\n\
               \x20   $ sirophan recheck ward/page.html ward/sheet.bin ward/cards.bin\n\
               \x20   same archive, same question, same answer\n",
        run: recheck::run,
    },
];

/// What all commands have in common.
const COMMON: &str = "\
A path of - is standard input. In the place of the file of a filter, a search string or a query -e TEXT gives the text itself. The answer \
goes to standard output, all else to standard error. With --json both are JSON, and warnings stand in the answer.

Status:
  0  answered
  1  the command line is not understood
  2  the question is refused, a description has faults, or a page does not hold
  3  a file could not be read, or an output not be written
  4  the archive is at fault: its blocks, or a seal that does not hold
";

fn main() -> ExitCode {
    match run() {
        Ok(()) => ExitCode::SUCCESS,
        Err((failure, form)) => {
            failure.say(form);
            ExitCode::from(failure.status())
        }
    }
}

/// Runs the command that was given; a failure comes with the form that it is to be told in.
fn run() -> Result<(), (Failure, Form)> {
    let given: Result<Vec<String>, _> = env::args_os().skip(1).map(std::ffi::OsString::into_string).collect();
    let given = given.map_err(|_| usage_failure("An argument is not UTF-8."))?;
    let Some((name, given)) = given.split_first() else {
        return Err(usage_failure("No command was given."));
    };
    let answered = |text: String| print(&text).map_err(|failure| (failure, Form::Words));
    match (name.as_str(), given) {
        ("--help" | "-h" | "help", []) => return answered(laid_out(&overview())),
        ("--help" | "-h" | "help", [name, ..]) => return answered(laid_out(&command_help(command_by(name)?))),
        ("--version" | "-V" | "version", _) => return answered(version::told()),
        _ => {}
    }
    let command = command_by(name)?;
    let has = |option: &str| given.iter().any(|argument| argument == option);
    let form = match (has("--json"), has("--fhir")) {
        (true, _) => Form::Json,
        (false, true) => Form::Fhir,
        (false, false) => Form::Words,
    };
    run_command(command, given).map_err(|failure| (failure, form))
}

/// The command with a name.
fn command_by(name: &str) -> Result<&'static Command, (Failure, Form)> {
    if let Some(command) = COMMANDS.iter().find(|command| command.name == name) {
        return Ok(command);
    }
    if name.starts_with('-') {
        return Err(usage_failure(&format!("{name} stands before the command. Options stand behind it.")));
    }
    let near = text::nearest(name, &COMMANDS.map(|command| command.name.to_string()));
    let near = if near.is_empty() { String::new() } else { format!(" Is it {}?", text::row(&near, "or")) };
    Err(usage_failure(&format!("{name} is no command.{near}")))
}

/// Runs a command on its arguments.
fn run_command(command: &Command, given: &[String]) -> Result<(), Failure> {
    let usage = |what: String| Failure::Usage(format!("{what} Usage: sirophan {} {}", command.name, command.usage));
    let mut arguments = Arguments::read(given.iter().cloned(), command.options).map_err(usage)?;
    if arguments.help {
        return print(&laid_out(&command_help(command)));
    }
    arguments.place_text(command.text);
    if !command.paths.contains(&arguments.paths.len()) {
        return Err(usage(format!("{} given.", text::counted(arguments.paths.len() as u64, "path"))));
    }
    (command.run)(&arguments)
}

/// A command line that is not understood.
fn usage_failure(what: &str) -> (Failure, Form) {
    (Failure::Usage(format!("{what} `sirophan --help` lists the commands.")), Form::Words)
}

/// Writes a text to standard output.
fn print(text: &str) -> Result<(), Failure> {
    let mut output = Output::new();
    output.line(text)?;
    output.flush()
}

/// A help text for the width of standard output.
fn laid_out(text: &str) -> String {
    let columns = width::of_stream(width::OUTPUT).unwrap_or(width::USUAL);
    width::paragraphs(text.trim_end(), columns)
}

/// What `sirophan --help` prints.
fn overview() -> String {
    let commands: Vec<String> = COMMANDS
        .iter()
        .map(|command| format!("  sirophan {} {}\n      {}", command.name, command.usage, command.summary))
        .collect();
    format!(
        "Which catalogue cards of an archive match a FHIR R4 _filter?\n\n{}\n\n\
         SHEET is a block of 512 bytes, CARDS a file of such blocks, FILTER a file with the filter on one line, STRING \
         one with a search string, QUERY one with both. `sirophan COMMAND --help` says more, with an example; `sirophan --version` the version.\n\n\
         {COMMON}",
        commands.join("\n")
    )
}

/// What `sirophan COMMAND --help` prints. The examples ask the archive that its own example makes of examples/ward.
fn command_help(command: &Command) -> String {
    format!("sirophan {} {}\n\nIt {}.\n\n{}\n{COMMON}", command.name, command.usage, command.summary, command.help)
}
