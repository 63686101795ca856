//! Descriptions: sheet.txt and cards.txt, read line by line, and cards.csv, row by row. Only a line feed ends a line, and only spaces
//! and tabs separate its head from its text.

use crate::advice;
use crate::block::{self, CARD_HEAD, Item, LONGEST_TEXT, MOST_ENTRIES, MOST_PARAMETERS, SHEET_HEAD, SUMMED};
use crate::cards::{Fit, RUN};
use crate::input::Input;
use crate::kind;
use crate::progress::Progress;
use crate::report::{Failure, Message};
use crate::sheet::{self, Parameter, Sheet};
use crate::text::{self, counted, grouped, printable, row, spell};
use sirophan::Prepared;
use std::io::{self, BufRead, BufReader, Read};
use table::TableHead;

mod table;

/// The most faults that are told one by one.
const MOST_TOLD: usize = 20;
/// The most bytes of a line that are kept; no entry comes near it. So no description is held in memory, whatever it is.
const LONGEST_LINE: usize = 1 << 16;

/// Faults that were found, each with the line or the card by which they are put in order.
#[derive(Default)]
pub struct Faults {
    told: Vec<(u64, Message)>,
    more: u64,
}

impl Faults {
    /// Adds a fault.
    pub fn add(&mut self, place: u64, fault: String) {
        if self.told.len() < MOST_TOLD {
            self.told.push((place, Message::error(fault)));
        } else {
            self.more += 1;
        }
    }

    /// Nothing, where there are no faults.
    pub fn none(mut self) -> Result<(), Failure> {
        if self.told.is_empty() {
            return Ok(());
        }
        self.told.sort_by_key(|(place, _)| *place);
        let more = (self.more > 0).then(|| Message::error(format!("and {} more.", counted(self.more, "fault"))));
        Err(Failure::Refused(self.told.into_iter().map(|(_, message)| message).chain(more).collect()))
    }
}

/// A line: its number from 1, its head, and its text.
struct Line {
    number: usize,
    head: String,
    text: Vec<u8>,
}

/// A description as it is read.
pub struct Description {
    name: String,
    from: Box<dyn BufRead>,
    /// Its size, where it has one, and how much of it is read.
    size: Option<u64>,
    read: u64,
    number: usize,
    /// What was dropped while reading.
    byte_order_mark: bool,
    carriage_returns: bool,
    pub faults: Faults,
}

impl Description {
    /// Opens a description.
    pub fn open(path: &str) -> Result<Description, Failure> {
        let input = Input::open(path)?;
        Ok(Description {
            name: path.into(),
            size: input.size,
            from: Box::new(BufReader::with_capacity(1 << 16, input.into_reader())),
            read: 0,
            number: 0,
            byte_order_mark: false,
            carriage_returns: false,
            faults: Faults::default(),
        })
    }

    /// How far it is read: `41 % of cards.txt`.
    fn part_read(&self) -> Option<String> {
        let size = self.size.filter(|size| *size > 0)?;
        Some(format!("{} % of {}", self.read.min(size) * 100 / size, self.name))
    }

    /// A fault at a line.
    fn fault(&mut self, line: usize, fault: &str) {
        self.faults.add(line as u64, format!("{}:{line}: {fault}", self.name));
    }

    /// The next line that has a head and a text. Lines that have not are faults, and are passed over.
    fn next(&mut self) -> Result<Option<Line>, Failure> {
        loop {
            let (mut bytes, left_out) = self.read_line().map_err(|reason| Failure::file(&self.name, "read", reason))?;
            if bytes.is_empty() {
                return Ok(None);
            }
            self.number += 1;
            self.drop_signs(&mut bytes)?;
            if left_out && !bytes.trim_ascii_start().starts_with(b"#") {
                let size = grouped(LONGEST_LINE as u64);
                self.fault(self.number, &format!("this line has over {size} bytes. Is this a description?"));
                continue;
            }
            match split(&bytes) {
                Ok(None) => {}
                Ok(Some((head, text))) => return Ok(Some(Line { number: self.number, head, text })),
                Err(fault) => self.fault(self.number, &fault),
            }
        }
    }

    /// The bytes of the next line, none at the end, and whether the line has more than are kept.
    fn read_line(&mut self) -> io::Result<(Vec<u8>, bool)> {
        let mut bytes = Vec::new();
        self.read += (&mut self.from).take(LONGEST_LINE as u64).read_until(b'\n', &mut bytes)? as u64;
        let left_out = match bytes.len() {
            LONGEST_LINE if bytes.last() != Some(&b'\n') => self.from.skip_until(b'\n')? as u64,
            _ => 0,
        };
        self.read += left_out;
        Ok((bytes, left_out > 0))
    }

    /// Takes off the line's end, and signs of other systems: a byte order mark, a carriage return.
    fn drop_signs(&mut self, bytes: &mut Vec<u8>) -> Result<(), Failure> {
        self.drop_mark(bytes)?;
        if bytes.last() == Some(&b'\n') {
            bytes.pop();
        }
        if bytes.last() == Some(&b'\r') {
            bytes.pop();
            self.carriage_returns = true;
        }
        Ok(())
    }

    /// Takes a byte order mark off the first line. UTF-16 ends all.
    fn drop_mark(&mut self, bytes: &mut Vec<u8>) -> Result<(), Failure> {
        if self.number == 1 && (bytes.starts_with(b"\xFF\xFE") || bytes.starts_with(b"\xFE\xFF")) {
            let fault = format!("{}:1: this file is UTF-16. Save it as UTF-8.", self.name);
            return Err(Failure::refused(Message::error(fault)));
        }
        if self.number == 1 && bytes.starts_with(b"\xEF\xBB\xBF") {
            bytes.drain(..3);
            self.byte_order_mark = true;
        }
        Ok(())
    }

    /// What was dropped, as notes.
    pub fn notes(&self) -> Vec<Message> {
        let dropped = [
            (self.byte_order_mark, "its byte order mark is left out."),
            (self.carriage_returns, "its lines end with CR LF; the CR is left out."),
        ];
        let notes = dropped.into_iter().filter(|(holds, _)| *holds);
        notes.map(|(_, note)| Message::note(format!("{}: {note}", self.name))).collect()
    }
}

/// The head and the text of a line; none of a line that is empty or begins with #.
fn split(line: &[u8]) -> Result<Option<(String, Vec<u8>)>, String> {
    let is_blank = |byte: &u8| matches!(byte, b' ' | b'\t');
    let start = line.iter().position(|byte| !is_blank(byte)).unwrap_or(line.len());
    let end = line.iter().rposition(|byte| !is_blank(byte)).map_or(start, |last| last + 1);
    let line = &line[start..end];
    if line.is_empty() || line[0] == b'#' {
        return Ok(None);
    }
    if line.contains(&0) {
        return Err("this line has zero bytes, as UTF-16 has. Save the file as UTF-8.".into());
    }
    if let Err(at) = str::from_utf8(line) {
        let byte = line[at.valid_up_to()];
        return Err(format!(
            "this line is not UTF-8: it has the byte 0x{byte:02X}, perhaps of Latin-1. Save the file as UTF-8, or write the \
             text in double quotes with \\x{byte:02X}."
        ));
    }
    let head_end = line.iter().position(is_blank).unwrap_or(line.len());
    let head = printable(&line[..head_end]);
    let Some(text_at) = line[head_end..].iter().position(|byte| !is_blank(byte)) else {
        return Err(format!("there is no text behind {head}. An empty text is written \"\"."));
    };
    let written = &line[head_end + text_at..];
    match text::read(written) {
        Some(text) => Ok(Some((head, text))),
        None => Err(format!(
            "the text {} cannot be read. A text that begins with a double quote ends with one; inside stand \\\" \\\\ and \
             \\xHH for these signs.",
            printable(written)
        )),
    }
}

/// A line of sheet.txt by which a sheet has the form for bundles though it has none; and the heads of a card, of which the second gives
/// it the form with occurrences though it needs none. Other programs write such blocks.
pub const SHEET: &str = "sheet:";
pub const WITH_BUNDLES: &str = "with-bundles";
pub const CARD: &str = "record:";
pub const MARKED_CARD: &str = "record#:";

/// Reads sheet.txt. A sheet with faults is none.
pub fn read_sheet(description: &mut Description) -> Result<Option<Sheet>, Failure> {
    let mut lines = Vec::new();
    let mut marked = false;
    while let Some(line) = description.next()? {
        match kind::by_word(&line.head) {
            _ if line.head == SHEET && line.text == WITH_BUNDLES.as_bytes() => marked = true,
            // One too many is enough to tell.
            Some(_) if lines.len() > MOST_PARAMETERS => {}
            Some(kind) => lines.push((line.number, kind.number, line.text)),
            None => {
                let words = row(&kind::words(), "and");
                description.fault(line.number, &format!("{} is no kind. The kinds are {words}.", line.head));
            }
        }
    }
    if let Some((number, ..)) = lines.get(MOST_PARAMETERS) {
        description
            .fault(*number, &format!("a sheet has room for {MOST_PARAMETERS} parameters, and this is one more."));
        return Ok(None);
    }
    let paths: Vec<&[u8]> = lines.iter().map(|(_, _, path)| &path[..]).collect();
    let parameters = lines.iter().filter_map(|(number, kind, path)| match parameter(*kind, path, &paths) {
        Ok(parameter) => Some((*number, parameter)),
        Err(fault) => {
            description.fault(*number, &fault);
            None
        }
    });
    let (numbers, parameters): (Vec<usize>, Vec<Parameter>) = parameters.unzip();
    if parameters.len() < lines.len() {
        return Ok(None);
    }
    Ok(sound_sheet(description, &numbers, parameters, marked))
}

/// A parameter by its path: a member has its bundle's name and a dot before its own.
fn parameter(kind: u8, path: &[u8], paths: &[&[u8]]) -> Result<Parameter, String> {
    let Some(dot) = path.iter().rposition(|&byte| byte == b'.') else {
        return Ok(Parameter { kind, bundle: 0, name: path.to_vec() });
    };
    let bundle = &path[..dot];
    let Some(place) = (1..).zip(paths).find_map(|(place, path)| (*path == bundle).then_some(place)) else {
        return Err(format!("{} is a member of {}, which is not on the sheet.", spell(path), spell(bundle)));
    };
    Ok(Parameter { kind, bundle: place, name: path[dot + 1..].to_vec() })
}

/// The sheet of these parameters, if the library finds it sound; else what is wrong is said at the parameter's line.
fn sound_sheet(
    description: &mut Description,
    numbers: &[usize],
    parameters: Vec<Parameter>,
    marked: bool,
) -> Option<Sheet> {
    let size = sheet::size(&parameters);
    let marked = marked || sheet::has_bundles(&parameters);
    let Some(sheet) = Sheet::write_as(parameters, marked) else {
        let last = numbers.last().copied().unwrap_or(1);
        let fault =
            format!("the names take {size} bytes with their heads, and a sheet has room for {}.", SUMMED - SHEET_HEAD);
        description.fault(last, &fault);
        return None;
    };
    if sheet.refusal().is_none() {
        return Some(sheet);
    }
    for (place, number) in numbers.iter().enumerate() {
        if let Some(fault) = sheet.fault(place) {
            description.fault(*number, &fault);
        }
    }
    None
}

/// An entry of a card, with its line.
struct Entry {
    line: usize,
    head: String,
    place: u8,
    occurrence: u8,
    text: Vec<u8>,
}

/// The head of a card: its line, its record number, and whether it has the form with occurrences in any case.
#[derive(Clone, Copy)]
struct CardHead {
    line: usize,
    record: u32,
    marked: bool,
}

/// The cards of cards.txt or cards.csv, as they are read.
pub struct Cards<'a> {
    pub description: Description,
    /// The head, where it is a table.
    table: Option<TableHead>,
    fit: Fit<'a>,
    /// What is asked of each card, read once.
    prepared: Option<Prepared>,
    paths: Vec<String>,
    /// The head of the next card.
    next: Option<CardHead>,
    pub count: u64,
    progress: Progress,
}

impl<'a> Cards<'a> {
    /// The cards of a description, by a sheet's names.
    pub fn open(path: &str, sheet: &'a Sheet) -> Result<Cards<'a>, Failure> {
        let mut cards = Cards::new(Description::open(path)?, sheet);
        if table::is_one(path) {
            cards.read_table_head()?;
        }
        Ok(cards)
    }

    fn new(description: Description, sheet: &'a Sheet) -> Cards<'a> {
        let paths = (0..sheet.parameters.len()).map(|place| sheet.path(place, 0)).collect();
        let fit = Fit::new(sheet);
        let prepared = sheet.some_filter().and_then(|filter| sirophan::prepare(&sheet.block, filter.as_bytes()).ok());
        Cards { description, table: None, fit, prepared, paths, next: None, count: 0, progress: Progress::new() }
    }

    /// The next card. Where it has faults, they are kept, and the card is empty.
    pub fn next(&mut self) -> Result<Option<Vec<u8>>, Failure> {
        self.show_progress();
        if self.table.is_some() {
            return self.next_of_table();
        }
        let mut entries = Vec::new();
        let mut current = self.next.take();
        while let Some(line) = self.description.next()? {
            if [CARD, MARKED_CARD].contains(&line.head.as_str()) {
                let marked = line.head == MARKED_CARD;
                let head = CardHead { line: line.number, record: self.record(&line), marked };
                if let Some(current) = current.replace(head) {
                    self.next = Some(head);
                    return Ok(Some(self.card(current, &entries)));
                }
                continue;
            }
            match current {
                // One too many is enough to tell.
                Some(_) if entries.len() > MOST_ENTRIES => {}
                Some(head) => entries.extend(self.entry(head, line)),
                None => self.description.fault(
                    line.number,
                    &format!(
                        "{} stands before the first record number. A card begins with `record:` and a number.",
                        line.head
                    ),
                ),
            }
        }
        self.progress.clear();
        Ok(current.map(|current| self.card(current, &entries)))
    }

    /// Shows how many cards are read.
    fn show_progress(&mut self) {
        let (count, description) = (self.count, &self.description);
        self.progress.show(|| {
            let cards = counted(count, "card");
            description.part_read().map_or(cards.clone(), |part| format!("{cards}, {part}"))
        });
    }

    /// The number behind `record:`; 0 where it is a fault.
    fn record(&mut self, line: &Line) -> u32 {
        let digits = str::from_utf8(&line.text).ok().filter(|text| text.bytes().all(|byte| byte.is_ascii_digit()));
        digits.and_then(|digits| digits.parse().ok()).unwrap_or_else(|| {
            let fault = format!(
                "{} is no record number: it is a number up to {}.",
                spell(&line.text),
                grouped(u32::MAX.into())
            );
            self.description.fault(line.number, &fault);
            0
        })
    }

    /// An entry, if its head is on the sheet and its text has room.
    fn entry(&mut self, CardHead { record, marked, .. }: CardHead, line: Line) -> Option<Entry> {
        let Line { number, head, text } = line;
        let found = self.place(&head, marked).and_then(|found| match text.len() {
            0..=LONGEST_TEXT => Ok(found),
            size => Err(format!("the text has {size} bytes, and an entry has room for {LONGEST_TEXT}. Shorten it.")),
        });
        match found {
            Ok((place, occurrence)) => Some(Entry { line: number, head, place, occurrence, text }),
            Err(fault) => {
                self.description.fault(number, &format!("record {record}, {head}: {fault}"));
                None
            }
        }
    }

    /// The place and the occurrence that a head names: `title`, `related.type` or `related#1.type`. On a card of the form with occurrences
    /// any field may have one.
    fn place(&self, head: &str, marked: bool) -> Result<(u8, u8), String> {
        let (path, number) = match head.split_once('#') {
            None => (head.to_string(), "0"),
            Some((bundle, rest)) => {
                let (number, name) = rest.split_once('.').unwrap_or((rest, ""));
                (if name.is_empty() { bundle.into() } else { format!("{bundle}.{name}") }, number)
            }
        };
        let place = (0..).zip(&self.paths).find_map(|(place, other)| (*other == path).then_some(place));
        let place: u8 = place.ok_or_else(|| self.unknown(&path))?;
        if head.contains('#') && !marked && self.fit.sheet.parameters[usize::from(place)].bundle == 0 {
            return Err(format!("{path} is no member of a bundle, and takes no number. Leave out #{number}."));
        }
        let is_number = !number.is_empty() && number.bytes().all(|byte| byte.is_ascii_digit());
        let occurrence = number.parse().ok().filter(|_| is_number);
        Ok((
            place,
            occurrence
                .ok_or(format!("behind # stands a number from 0 to 255, and not {}.", spell(number.as_bytes())))?,
        ))
    }

    /// What to say of a name that is not on the sheet.
    fn unknown(&self, path: &str) -> String {
        let fields = self.fit.sheet.paths();
        let near = text::nearest(path, &fields);
        match (&near[..], &fields[..]) {
            ([], []) => "it is not on the sheet, which has no fields.".into(),
            ([], fields) => format!("it is not on the sheet. There are {}.", row(fields, "and")),
            (near, _) => format!("it is not on the sheet. Is it {}?", row(near, "or")),
        }
    }

    /// Whether a card fits the sheet.
    fn fits(&self, card: &[u8]) -> bool {
        match &self.prepared {
            Some(prepared) => prepared.matches(card).is_ok(),
            None => self.fit.select(card, &mut [0; RUN]).is_ok(),
        }
    }

    /// The card of these entries; its faults are kept. The library is asked of each text only where the card does not fit.
    fn card(&mut self, CardHead { line, record, marked }: CardHead, entries: &[Entry]) -> Vec<u8> {
        self.count += 1;
        let items = entries.iter().map(|entry| Item { byte: entry.place, mark: entry.occurrence, text: &entry.text });
        let items: Vec<Item> = items.collect();
        let marked = marked || block::has_marks(&items);
        let card = block::write_card_as(record, &items, marked).unwrap_or_else(|| {
            let (line, fault) = overfull(line, entries, &items, marked);
            self.description.fault(line, &format!("record {record}: {fault}"));
            Vec::new()
        });
        if card.is_empty() || !self.fits(&card) {
            for Entry { line, head, place, text, .. } in entries {
                if let Some(fault) = advice::entry_fault(self.fit.sheet, usize::from(*place), text) {
                    self.description.fault(*line, &format!("record {record}, {head}: {fault}"));
                }
            }
        }
        card
    }
}

/// Which line of a card has no room any more, and why.
fn overfull(line: usize, entries: &[Entry], items: &[Item], marked: bool) -> (usize, String) {
    if let Some(entry) = entries.get(MOST_ENTRIES) {
        return (entry.line, format!("a card has room for {MOST_ENTRIES} entries, and this is one more."));
    }
    let mut taken = CARD_HEAD;
    for (entry, item) in entries.iter().zip(items) {
        taken += item.size(marked);
        if taken > SUMMED {
            let head = item.size(marked) - item.text.len();
            let fault = format!(
                "the card is full: this entry takes {} bytes with its head of {head}, {} more than are left. Shorten a text.",
                item.size(marked),
                taken - SUMMED
            );
            return (entry.line, fault);
        }
    }
    (line, "the card cannot be written.".into())
}
