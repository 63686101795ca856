//! The seal of an archive, a file beside its blocks: how many cards there are, and the SHA-256 of the sheet and of the cards. And
//! `sirophan seal`, which makes one for blocks that another program has made.

use crate::arguments::Arguments;
use crate::block::SIZE;
use crate::input::{self, Input};
use crate::json;
use crate::pack::{NewFiles, path_in};
use crate::report::{self, Failure, Message, Output};
use crate::sha256::{Hash, Hasher};
use crate::text::counted;
use crate::verify;
use std::path::Path;

/// The name of the file.
pub const NAME: &str = "archive.txt";

/// What stands in it while an archive is packed, until all files are in their places.
pub const UNFINISHED: &str =
    "# This archive is being packed. If that has ended, it did not come to its end: pack it again.\n";

/// What a seal says.
#[derive(Debug, PartialEq, Eq)]
pub struct Seal {
    pub cards: u64,
    /// The hashes, in hexadecimal.
    sheet_hash: String,
    cards_hash: String,
}

impl Seal {
    pub fn new(cards: u64, sheet_hash: Hash, cards_hash: Hash) -> Seal {
        Seal { cards, sheet_hash: sheet_hash.to_string(), cards_hash: cards_hash.to_string() }
    }

    /// The seal that the blocks of a folder would have.
    fn of_folder(folder: &str) -> Result<Seal, Failure> {
        let (sheet_hash, _) = hash_file(&path_in(folder, "sheet.bin"))?;
        let (cards_hash, bytes) = hash_file(&path_in(folder, "cards.bin"))?;
        Ok(Seal::new(bytes / SIZE as u64, sheet_hash, cards_hash))
    }

    /// The file's text, which `sha256sum --check` reads too.
    pub fn text(&self) -> String {
        format!(
            "# {}. The files have these SHA-256, as `sha256sum --check {NAME}` reads them:\n{}  sheet.bin\n{}  cards.bin\n",
            counted(self.cards, "card"),
            self.sheet_hash,
            self.cards_hash
        )
    }

    /// The seal of a text, if it is the text of one.
    fn read(text: &str) -> Option<Seal> {
        let words: Vec<&str> = text.split_whitespace().collect();
        let [.., sheet_hash, "sheet.bin", cards_hash, "cards.bin"] = words[..] else { return None };
        let cards = words.get(1)?.replace(',', "").parse().ok()?;
        let seal = Seal { cards, sheet_hash: sheet_hash.into(), cards_hash: cards_hash.into() };
        let is_hash =
            |hash: &str| hash.len() == 64 && hash.bytes().all(|byte| matches!(byte, b'0'..=b'9' | b'a'..=b'f'));
        (seal.text() == text && is_hash(sheet_hash) && is_hash(cards_hash)).then_some(seal)
    }

    /// The seal beside a file, and its name, if there is one.
    fn beside(path: &str) -> Result<Option<(String, Seal)>, Failure> {
        let name = Path::new(path).with_file_name(NAME);
        if path == "-" || !name.exists() {
            return Ok(None);
        }
        let is_file = name.is_file();
        let name = name.to_string_lossy().into_owned();
        let text = if is_file { input::read(&name)? } else { Vec::new() };
        if text == UNFINISHED.as_bytes() {
            return Err(unfinished(&name));
        }
        match str::from_utf8(&text).ok().and_then(Seal::read) {
            Some(seal) => Ok(Some((name, seal))),
            None => Err(broken(format!("{name} is no seal as `sirophan pack` and `sirophan seal` write it."), [])),
        }
    }

    /// Nothing, where a sheet is the sealed one.
    fn hold_sheet(&self, seal_name: &str, name: &str, sheet: &[u8]) -> Result<(), Failure> {
        if Hash::of(sheet).to_string() == self.sheet_hash {
            return Ok(());
        }
        Err(broken(format!("{name} is another sheet than the one that {seal_name} names."), []))
    }

    /// Nothing, where cards are as many as the sealed ones. A part of a card is the library's to refuse.
    fn hold_number(&self, seal_name: &str, name: &str, size: u64) -> Result<(), Failure> {
        let found = size / SIZE as u64;
        if found == self.cards || !size.is_multiple_of(SIZE as u64) {
            return Ok(());
        }
        let differs = counted(found.abs_diff(self.cards), "card");
        let word = if found < self.cards { "fewer" } else { "more" };
        let told = format!("{name} has {}, {differs} {word} than {seal_name} says.", counted(found, "card"));
        Err(broken(told, [("cards", found), ("sealed", self.cards)]))
    }
}

/// A pack that did not come to its end.
fn unfinished(name: &str) -> Failure {
    let told = format!("{name}: the archive was being packed, and that did not come to its end.");
    let help = "Its files may be of two archives. There is no answer until it is packed again.";
    Failure::at_fault(Message { help: vec![help.into()], ..Message::error(told).code("seal") })
}

/// A seal that does not hold.
fn broken(what: String, figures: impl IntoIterator<Item = (&'static str, u64)>) -> Failure {
    let help = "There is no answer until the files are put back as they were; or, where the change was meant, packed again or sealed \
                by `sirophan seal`.";
    Failure::at_fault(Message { help: vec![help.into()], ..Message::error(what).code("seal").figures(figures) })
}

/// Nothing, where what is given is what the seals beside it say, if there are any: the sheet, and of cards in a file how many
/// there are. A seal beside the cards names their sheet, wherever that is.
pub fn hold(sheet_path: &str, sheet: &[u8], cards: Option<&Input>) -> Result<(), Failure> {
    let sheet_name = input::shown(sheet_path);
    if let Some((seal_name, seal)) = Seal::beside(sheet_path)? {
        seal.hold_sheet(&seal_name, &sheet_name, sheet)?;
    }
    if let Some((cards, size)) = cards.and_then(|cards| Some((cards, cards.size?)))
        && let Some((seal_name, seal)) = Seal::beside(&cards.name)?
    {
        seal.hold_sheet(&seal_name, &sheet_name, sheet)?;
        seal.hold_number(&seal_name, &cards.name, size)?;
    }
    Ok(())
}

/// Whether there is a seal beside cards; where there is, they are the sealed ones, byte for byte.
pub fn hold_cards(path: &str) -> Result<bool, Failure> {
    if Seal::beside(path)?.is_none() {
        return Ok(false);
    }
    hold_hash(path, hash_file(path)?.0)
}

/// The same of cards whose hash is known.
pub fn hold_hash(path: &str, hash: Hash) -> Result<bool, Failure> {
    let Some((seal_name, seal)) = Seal::beside(path)? else { return Ok(false) };
    if hash.to_string() == seal.cards_hash {
        return Ok(true);
    }
    let cards = counted(seal.cards, "card");
    Err(broken(format!("{path} has {cards} as {seal_name} says, and not the same: something was changed."), []))
}

/// The hash of a file, and how many bytes it has.
fn hash_file(path: &str) -> Result<(Hash, u64), Failure> {
    let mut input = Input::open(path)?;
    let mut hasher = Hasher::new();
    let mut piece = vec![0; 1 << 16];
    let mut bytes = 0;
    loop {
        let filled = input.fill(&mut piece)?;
        if filled == 0 {
            return Ok((hasher.end(), bytes));
        }
        hasher.add(&piece[..filled]);
        bytes += filled as u64;
    }
}

/// Nothing, where a path is a file or nothing: the blocks are read twice, and a pipe that is opened a second time may never end.
fn require_file(path: &str) -> Result<(), Failure> {
    match Path::new(path).metadata() {
        Ok(data) if !data.is_file() => Err(Failure::Unusable(Box::new(Message::error(format!(
            "sirophan: {path} cannot be sealed: it is no file."
        ))))),
        _ => Ok(()),
    }
}

/// Seals the blocks of a folder, where they go together. A seal that was there and does not hold is told.
pub fn run(arguments: &Arguments) -> Result<(), Failure> {
    let folder = &arguments.paths[0];
    let path = path_in(folder, NAME);
    for path in ["sheet.bin", "cards.bin", NAME].map(|name| path_in(folder, name)) {
        require_file(&path)?;
    }
    let before = input::read(&path).unwrap_or_default();
    if before == UNFINISHED.as_bytes() {
        return Err(unfinished(&path));
    }
    let parameters = verify::sound_blocks(folder)?;
    let seal = Seal::of_folder(folder)?;
    let mut warnings = Vec::new();
    if !before.is_empty() && before != seal.text().as_bytes() {
        let text =
            format!("{path} said something else before: the sheet or the cards are not those that were sealed then.");
        warnings.push(Message::warning(text, "It says now what they are.").code("sealed_anew"));
    }
    let mut files = NewFiles::new(folder);
    files.write(NAME, |put| put(seal.text().as_bytes()))?;
    files.take_their_places()?;
    let mut output = Output::new();
    if arguments.json {
        let counts = [("cards", seal.cards.to_string()), ("parameters", parameters.to_string())];
        let hashes =
            [("sheet_sha256", json::string(&seal.sheet_hash)), ("cards_sha256", json::string(&seal.cards_hash))];
        let pairs: Vec<(&str, String)> =
            counts.into_iter().chain(hashes).chain([report::warnings(&warnings)]).collect();
        output.line(json::object(&pairs))?;
    } else {
        let (cards, parameters) = (counted(seal.cards, "card"), counted(parameters, "parameter"));
        output.line(format_args!("{cards} and a sheet with {parameters}, sealed by {path}"))?;
    }
    output.flush()?;
    arguments.warn(&warnings);
    Ok(())
}

#[cfg(test)]
mod tests {
    use super::*;

    /// A seal is read as it was written, and nothing else is a seal.
    #[test]
    fn written_and_read() {
        for cards in [0, 1, 3, 2_000_000] {
            let seal = Seal::new(cards, Hash::of(b"sheet"), Hash::of(b"cards"));
            let text = seal.text();
            assert_eq!(Seal::read(&text), Some(seal));
            for changed in
                [text.replace("sheet.bin", "sheet"), text.to_uppercase(), text.clone() + " ", text.replacen(' ', "", 1)]
            {
                assert_eq!(Seal::read(&changed), None, "{changed}");
            }
            assert_eq!(Seal::read(&text[..text.len() - 1]), None);
        }
        assert_eq!(Seal::read(UNFINISHED), None);
        assert_eq!(Seal::read(""), None);
    }
}
