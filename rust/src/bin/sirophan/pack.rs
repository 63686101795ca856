//! `sirophan pack`: makes blocks of the description of an archive.

use crate::arguments::Arguments;
use crate::description::{self, Cards, Description};
use crate::field_doubt;
use crate::input;
use crate::interrupt;
use crate::json;
use crate::report::{self, Failure, Message, Output};
use crate::seal::{self, Seal};
use crate::sha256::{Hash, Hasher};
use crate::sheet::Sheet;
use crate::tally::{Counter, Held, Tally};
use crate::text::counted;
use std::fs::{self, File};
use std::io::{BufWriter, Write};
use std::path::{Path, PathBuf};

/// Packs a folder. The archive that was there before stays as it was until all of the new one is written.
pub fn run(arguments: &Arguments) -> Result<(), Failure> {
    let (from, to) = (&arguments.paths[0], &arguments.paths[1]);
    let filter = read_filter(&path_in(from, FILTER))?;
    let made_here = !Path::new(to).exists();
    let packed = into_folder(arguments, from, to, filter.as_ref());
    if packed.is_err() && made_here {
        // A folder that stays behind does no harm.
        let _ = fs::remove_dir(to);
    }
    let (sheet, held) = packed?;
    let mut warnings: Vec<Message> =
        filter.and_then(|filter| filter_doubt(&path_in(from, FILTER), &sheet, &filter)).into_iter().collect();
    warnings.extend(field_doubt::of_cards(&cards_path(from)?, &held, |_| true));
    warnings.extend(field_doubt::of_fields(&sheet, &held, 0..held.fields.len()));
    let mut output = Output::new();
    let fields = sheet.parameters.len() as u64;
    if arguments.json {
        let pairs =
            [("cards", held.cards.to_string()), ("parameters", fields.to_string()), report::warnings(&warnings)];
        output.line(json::object(&pairs))?;
    } else {
        output.line(format_args!(
            "{} and a sheet with {}, in {to}",
            counted(held.cards, "card"),
            counted(fields, "parameter")
        ))?;
    }
    output.flush()?;
    arguments.warn(&warnings);
    Ok(())
}

/// The name of a filter's file in a folder.
pub const FILTER: &str = "filter.txt";

/// Reads the description and writes the files; answers the sheet and what the cards hold.
fn into_folder(arguments: &Arguments, from: &str, to: &str, filter: Option<&Filter>) -> Result<(Sheet, Held), Failure> {
    arguments.say(filter.iter().flat_map(|filter| &filter.notes));
    let sheet = read_sheet(arguments, from)?;
    let mut cards = Cards::open(&cards_path(from)?, &sheet)?;
    if !Path::new(to).exists() {
        interrupt::removes(Path::new(to));
    }
    fs::create_dir_all(to).map_err(|reason| Failure::file(to, "made", reason))?;
    let mut files = NewFiles::new(to);
    files.write("sheet.bin", |put| put(&sheet.block))?;
    if let Some(filter) = filter {
        files.write(FILTER, |put| put(&filter.bytes))?;
    }
    let counter = Counter::of_all(&sheet);
    let mut tally = Tally::default();
    let mut hasher = Hasher::new();
    files.write("cards.bin", |put| {
        while let Some(card) = cards.next()? {
            counter.count(&mut tally, cards.count - 1, &card);
            hasher.add(&card);
            put(&card)?;
        }
        Ok(())
    })?;
    arguments.say(&cards.description.notes());
    let seal = Seal::new(cards.count, Hash::of(&sheet.block), hasher.end());
    cards.description.faults.none()?;
    files.write(seal::NAME, |put| put(seal.text().as_bytes()))?;
    files.take_their_places()?;
    let held = counter.sum(vec![tally]);
    Ok((sheet, held))
}

/// The sheet of a folder's description.
pub fn read_sheet(arguments: &Arguments, from: &str) -> Result<Sheet, Failure> {
    let mut description = Description::open(&path_in(from, "sheet.txt"))?;
    let sheet = description::read_sheet(&mut description)?;
    arguments.say(&description.notes());
    description.faults.none()?;
    sheet.ok_or_else(|| Failure::refused(Message::error(format!("{} is no sheet.", path_in(from, "sheet.txt")))))
}

/// The file that describes the cards of a folder: cards.txt, or else cards.csv, and not both.
pub fn cards_path(folder: &str) -> Result<String, Failure> {
    let [text, table] = ["cards.txt", "cards.csv"].map(|name| path_in(folder, name));
    match [&text, &table].map(|path| Path::new(path).exists()) {
        [true, true] => {
            let told = format!("{text} and {table} are both there, and one of them is packed: take the other away.");
            Err(Failure::refused(Message::error(told)))
        }
        [false, true] => Ok(table),
        _ => Ok(text),
    }
}

/// A filter's file as it is packed, and what was dropped from it.
pub struct Filter {
    pub bytes: Vec<u8>,
    pub notes: Vec<Message>,
}

impl Filter {
    /// The filter itself, without one last line feed.
    pub fn text(&self) -> &[u8] {
        self.bytes.strip_suffix(b"\n").unwrap_or(&self.bytes)
    }
}

/// Reads filter.txt, if there is one, without a byte order mark and without the carriage return of a Windows line end.
pub fn read_filter(path: &str) -> Result<Option<Filter>, Failure> {
    if !Path::new(path).exists() {
        return Ok(None);
    }
    let mut filter = Filter { bytes: input::read(path)?, notes: Vec::new() };
    let mut note = |text: &str| filter.notes.push(Message::note(format!("{path}: {text}")));
    if filter.bytes.starts_with(b"\xEF\xBB\xBF") {
        filter.bytes.drain(..3);
        note("its byte order mark is left out.");
    }
    if filter.bytes.ends_with(b"\r\n") {
        filter.bytes.truncate(filter.bytes.len() - 2);
        filter.bytes.push(b'\n');
        note("its line ends with CR LF; the CR is left out.");
    }
    Ok(Some(filter))
}

/// A warning where the filter is refused: the blocks are good without it.
fn filter_doubt(path: &str, sheet: &Sheet, filter: &Filter) -> Option<Message> {
    let refusal = sirophan::check(&sheet.block, filter.text()).err()?;
    let warning = Message::warning(format!("{path}: {refusal}"), "`sirophan check` says what to do.");
    Some(Message { refusal: Some(refusal), ..warning.code("filter_refused") })
}

/// A file of a folder.
pub fn path_in(folder: &str, name: &str) -> String {
    Path::new(folder).join(name).to_string_lossy().into_owned()
}

/// What puts bytes into a file.
type Put<'a> = &'a mut dyn FnMut(&[u8]) -> Result<(), Failure>;

/// Files that are written beside the old ones, under names of their own, until they take their places. The last is the seal.
pub struct NewFiles<'a> {
    folder: &'a str,
    names: Vec<&'static str>,
}

impl NewFiles<'_> {
    pub fn new(folder: &str) -> NewFiles<'_> {
        NewFiles { folder, names: Vec::new() }
    }

    /// The name of a file until it takes its place.
    fn new_path(&self, name: &str) -> PathBuf {
        Path::new(self.folder).join(format!("{name}.new"))
    }

    /// Writes a file; `fill` is given what puts bytes into it.
    pub fn write(&mut self, name: &'static str, fill: impl FnOnce(Put) -> Result<(), Failure>) -> Result<(), Failure> {
        let path = path_in(self.folder, name);
        let unwritten = |reason| Failure::file(&path, "written", reason);
        interrupt::removes(&self.new_path(name));
        let file = File::create(self.new_path(name)).map_err(unwritten)?;
        self.names.push(name);
        let mut file = BufWriter::with_capacity(1 << 16, file);
        fill(&mut |bytes| file.write_all(bytes).map_err(unwritten))?;
        let file = file.into_inner().map_err(|error| unwritten(error.into_error()))?;
        file.sync_all().map_err(unwritten)
    }

    /// Puts the files in the places of the old ones. Until the last of several, the seal, has its own, the one that is there says
    /// that they are not in theirs.
    pub fn take_their_places(mut self) -> Result<(), Failure> {
        if self.names.len() > 1 {
            let seal = path_in(self.folder, seal::NAME);
            let marked = fs::write(&seal, seal::UNFINISHED).and_then(|()| File::open(&seal)?.sync_all());
            marked.map_err(|reason| Failure::file(&seal, "written", reason))?;
            self.settle();
        }
        for name in self.names.clone() {
            let path = path_in(self.folder, name);
            if name == seal::NAME {
                self.settle();
            }
            fs::rename(self.new_path(name), &path).map_err(|reason| Failure::file(&path, "replaced", reason))?;
            self.names.retain(|other| *other != name);
        }
        interrupt::keeps_all();
        Ok(())
    }

    /// Has the folder written out, so that the order of what was done outlives the machine's end. Not every system can.
    fn settle(&self) {
        let _ = File::open(self.folder).and_then(|folder| folder.sync_all());
    }
}

impl Drop for NewFiles<'_> {
    /// What has not taken its place goes.
    fn drop(&mut self) {
        for name in &self.names {
            let _ = fs::remove_file(self.new_path(name));
        }
    }
}
