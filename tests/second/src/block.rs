//! The two blocks of 512 bytes, sheet and card: their check sum, how they are read and how they are written.
//!
//! Each has two forms, told apart by its first byte. In the marked form the head of an entry has one byte more, its mark:
//! on a sheet the parameter's bundle, on a card the occurrence.

/// The size of a block.
pub const SIZE: usize = 512;
/// The check sum is over the bytes before this place and is stored in the four bytes from it on.
pub const SUMMED: usize = 508;
/// The first byte of a sheet.
pub const SHEET: u8 = 0x50;
/// The first byte of a sheet whose parameters may have bundles.
pub const MARKED_SHEET: u8 = 0x51;
/// The first byte of a card.
pub const CARD: u8 = 0x43;
/// The first byte of a card whose entries have occurrences.
pub const MARKED_CARD: u8 = 0x44;
/// What stands on a marked sheet in the place of a kind's number where the parameter is a bundle.
pub const BUNDLE: u8 = 7;
/// The most parameters that a sheet may have.
pub const MOST_PARAMETERS: usize = 32;
/// The longest name that a sheet may give a parameter.
pub const LONGEST_NAME: usize = 30;
/// The most entries that a card may have.
pub const MOST_ENTRIES: usize = 64;

/// The kind of a parameter.
#[derive(Clone, Copy, Debug, PartialEq, Eq)]
pub enum Kind {
    String,
    Number,
    Date,
    Token,
    Reference,
    Period,
}

impl Kind {
    /// The kinds in the order of their numbers, from 1.
    pub const ALL: [Kind; 6] = [Kind::String, Kind::Number, Kind::Date, Kind::Token, Kind::Reference, Kind::Period];

    /// The kind with this number on a sheet.
    pub fn from_number(number: u8) -> Option<Kind> {
        let index = usize::from(number).checked_sub(1)?;
        Kind::ALL.get(index).copied()
    }

    /// The number of this kind on a sheet.
    pub fn number(self) -> u8 {
        self as u8 + 1
    }
}

/// One parameter of a sheet.
#[derive(Clone, Debug, PartialEq, Eq)]
pub struct Parameter {
    /// The kind of its texts; none for a bundle, which has no texts.
    pub kind: Option<Kind>,
    /// The place of the bundle that it is a member of; none at the top.
    pub bundle: Option<usize>,
    pub name: Vec<u8>,
}

/// A sheet as it was read: its parameters in order.
#[derive(Clone, Debug, PartialEq, Eq)]
pub struct Sheet {
    pub parameters: Vec<Parameter>,
}

/// A card as it was read.
#[derive(Clone, Debug, PartialEq, Eq)]
pub struct Card<'a> {
    pub record: u32,
    pub entries: Vec<Entry<'a>>,
}

/// One entry of a block: on a sheet a kind's number, a bundle's place plus 1 and a name; on a card a parameter's place,
/// an occurrence and a text. Where the block is not marked the mark is 0.
#[derive(Clone, Copy, Debug, PartialEq, Eq)]
pub struct Entry<'a> {
    pub head: u8,
    pub mark: u8,
    pub text: &'a [u8],
}

/// What is wrong with a block. The first that holds, in this order, is the one that is told.
#[derive(Clone, Copy, Debug, PartialEq, Eq)]
pub enum Flaw {
    Size,
    Sum,
    Layout,
}

/// The sum of the bytes, each times its place counted from 1.
pub fn check_sum(bytes: &[u8]) -> u32 {
    let mut sum = 0;
    for (byte, place) in bytes.iter().zip(1..) {
        sum += u32::from(*byte) * place;
    }
    sum
}

/// Reads a sheet.
pub fn read_sheet(bytes: &[u8]) -> Result<Sheet, Flaw> {
    let summed = summed_part(bytes)?;
    let (first, count, rest) = (summed[0], summed[1], &summed[2..]);
    if ![SHEET, MARKED_SHEET].contains(&first) || usize::from(count) > MOST_PARAMETERS {
        return Err(Flaw::Layout);
    }
    let entries = read_entries(rest, count, is_marked(first)).ok_or(Flaw::Layout)?;
    let parameters = entries.into_iter().map(|entry| read_parameter(entry, is_marked(first)));
    let parameters: Vec<Parameter> = parameters.collect::<Option<_>>().ok_or(Flaw::Layout)?;
    if !have_bundles(&parameters) || !are_told_apart(&parameters) {
        return Err(Flaw::Layout);
    }
    Ok(Sheet { parameters })
}

/// Reads a card.
pub fn read_card(bytes: &[u8]) -> Result<Card<'_>, Flaw> {
    let summed = summed_part(bytes)?;
    let (first, count, rest) = (summed[0], summed[5], &summed[6..]);
    if ![CARD, MARKED_CARD].contains(&first) || usize::from(count) > MOST_ENTRIES {
        return Err(Flaw::Layout);
    }
    let record = u32::from_le_bytes([summed[1], summed[2], summed[3], summed[4]]);
    let entries = read_entries(rest, count, is_marked(first)).ok_or(Flaw::Layout)?;
    Ok(Card { record, entries })
}

/// Whether the entries of a block with this first byte have marks.
pub fn is_marked(first: u8) -> bool {
    [MARKED_SHEET, MARKED_CARD].contains(&first)
}

/// Reads one parameter by itself: its kind, which is a bundle only on a marked sheet, and its name.
fn read_parameter(entry: Entry, marked: bool) -> Option<Parameter> {
    let kind = match entry.head {
        BUNDLE if marked => None,
        number => Some(Kind::from_number(number)?),
    };
    let bundle = usize::from(entry.mark).checked_sub(1);
    let name = entry.text.to_vec();
    (name.len() <= LONGEST_NAME && is_name(&name)).then_some(Parameter { kind, bundle, name })
}

/// Whether each parameter stands at the top or in a bundle; a bundle stands at the top.
fn have_bundles(parameters: &[Parameter]) -> bool {
    let is_bundle = |place: usize| parameters.get(place).is_some_and(|parameter| parameter.kind.is_none());
    let mut members = parameters.iter().filter_map(|parameter| Some((parameter.kind, parameter.bundle?)));
    members.all(|(kind, bundle)| kind.is_some() && is_bundle(bundle))
}

/// Whether no two parameters share a name, save members of different bundles.
fn are_told_apart(parameters: &[Parameter]) -> bool {
    let may_share = |one: &Parameter, other: &Parameter| {
        let bundles = one.bundle.zip(other.bundle);
        bundles.is_some_and(|(one, other)| one != other)
    };
    let is_new = |(place, parameter): (usize, &Parameter)| {
        let mut before = parameters[..place].iter();
        before.all(|other| other.name != parameter.name || may_share(other, parameter))
    };
    parameters.iter().enumerate().all(is_new)
}

/// Whether the text is a name: "_" or a letter, then those, "-" or digits, and none of the words and, or, not.
pub fn is_name(text: &[u8]) -> bool {
    let begins = |byte: u8| byte == b'_' || byte.is_ascii_alphabetic();
    let goes_on = |byte: u8| begins(byte) || byte == b'-' || byte.is_ascii_digit();
    let is_word = [&b"and"[..], b"or", b"not"].contains(&text);
    !is_word && text.split_first().is_some_and(|(&first, rest)| begins(first) && rest.iter().all(|&byte| goes_on(byte)))
}

/// The bytes that the check sum is over, when size and check sum are right.
fn summed_part(bytes: &[u8]) -> Result<&[u8], Flaw> {
    if bytes.len() != SIZE {
        return Err(Flaw::Size);
    }
    let (summed, stored) = bytes.split_at(SUMMED);
    if check_sum(summed).to_le_bytes() != stored {
        return Err(Flaw::Sum);
    }
    Ok(summed)
}

/// Reads this many entries, each a head byte, perhaps a mark, a length and a text; what follows the last one must be
/// zeros.
fn read_entries(mut rest: &[u8], count: u8, marked: bool) -> Option<Vec<Entry<'_>>> {
    let mut next = |length: usize| {
        let (taken, behind) = rest.split_at_checked(length)?;
        rest = behind;
        Some(taken)
    };
    let mut entries = Vec::with_capacity(count.into());
    for _ in 0..count {
        let head = next(1)?[0];
        let mark = if marked { next(1)?[0] } else { 0 };
        let length = next(1)?[0];
        let text = next(length.into())?;
        entries.push(Entry { head, mark, text });
    }
    rest.iter().all(|&byte| byte == 0).then_some(entries)
}

/// Writes a sheet of these kind numbers and names, whether they are right or not, if there is room.
pub fn write_sheet(parameters: &[(u8, &[u8])]) -> Option<Vec<u8>> {
    write_sheet_as(SHEET, &unmarked(parameters))
}

/// Writes a sheet of the form that its first byte tells.
pub fn write_sheet_as(first: u8, parameters: &[Entry]) -> Option<Vec<u8>> {
    write_block(&sheet_head(first, parameters.len())?, parameters)
}

/// Writes a card of this record number, places and texts, whether they are right or not, if there is room.
pub fn write_card(record: u32, entries: &[(u8, &[u8])]) -> Option<Vec<u8>> {
    write_card_as(CARD, record, &unmarked(entries))
}

/// Writes a card of the form that its first byte tells.
pub fn write_card_as(first: u8, record: u32, entries: &[Entry]) -> Option<Vec<u8>> {
    write_block(&card_head(first, record, entries.len())?, entries)
}

/// What stands on a sheet before its parameters.
pub fn sheet_head(first: u8, parameters: usize) -> Option<[u8; 2]> {
    Some([first, u8::try_from(parameters).ok()?])
}

/// What stands on a card before its entries.
pub fn card_head(first: u8, record: u32, entries: usize) -> Option<[u8; 6]> {
    let [a, b, c, d] = record.to_le_bytes();
    Some([first, a, b, c, d, u8::try_from(entries).ok()?])
}

fn unmarked<'a>(entries: &[(u8, &'a [u8])]) -> Vec<Entry<'a>> {
    let entries = entries.iter();
    entries.map(|&(head, text)| Entry { head, mark: 0, text }).collect()
}

/// A block of this head and these entries, if there is room.
fn write_block(head: &[u8], entries: &[Entry]) -> Option<Vec<u8>> {
    let written = spell_entries(head, entries)?;
    (written.len() <= SUMMED).then(|| sealed(written))
}

/// The head and the entries of a block, which may be longer than a block; none where a text is too long for its length.
pub fn spell_entries(head: &[u8], entries: &[Entry]) -> Option<Vec<u8>> {
    let marked = is_marked(head[0]);
    let mut written = head.to_vec();
    for entry in entries {
        written.push(entry.head);
        written.extend(marked.then_some(entry.mark));
        written.push(u8::try_from(entry.text.len()).ok()?);
        written.extend_from_slice(entry.text);
    }
    Some(written)
}

/// A block of what was written of it, as far as it has room for that, with zeros and the check sum behind it.
pub fn sealed(mut written: Vec<u8>) -> Vec<u8> {
    written.truncate(SUMMED);
    written.resize(SIZE, 0);
    store_sum(&mut written);
    written
}

/// Stores the check sum that a block of 512 bytes ought to have.
pub fn store_sum(block: &mut [u8]) {
    let (summed, stored) = block.split_at_mut(SUMMED);
    stored.copy_from_slice(&check_sum(summed).to_le_bytes());
}

#[cfg(test)]
mod tests {
    use super::*;

    #[test]
    fn largest_sum() {
        assert_eq!(check_sum(&[255; SUMMED]), 32_967_930);
        assert_eq!(check_sum(&[]), 0);
        assert_eq!(check_sum(&[1, 2, 3]), 1 + 4 + 9);
    }

    #[test]
    fn sheets() {
        let good = write_sheet(&[(1, b"title"), (5, b"_id-2")]).unwrap();
        let sheet = read_sheet(&good).unwrap();
        assert_eq!(sheet.parameters[1].kind, Some(Kind::Reference));
        assert_eq!(sheet.parameters[1].name, b"_id-2");
        assert_eq!(read_sheet(&good[..511]), Err(Flaw::Size));

        let mut bad = good.clone();
        bad[3] ^= 1;
        assert_eq!(read_sheet(&bad), Err(Flaw::Sum));

        for parameters in [
            &[(0, &b"a"[..])][..],
            &[(7, b"a")],
            &[(8, b"a")],
            &[(1, b"")],
            &[(1, b"0")],
            &[(1, b"-a")],
            &[(1, b"a.b")],
            &[(1, b"not")],
            &[(1, b"a"), (2, b"a")],
            &[(1, b"a234567890123456789012345678901")],
        ] {
            let sheet = write_sheet(parameters).unwrap();
            assert_eq!(read_sheet(&sheet), Err(Flaw::Layout));
        }
        for parameters in [&[][..], &[(1, &b"a"[..]), (1, b"A")], &[(3, b"not-x"), (6, b"stay")]] {
            assert!(read_sheet(&write_sheet(parameters).unwrap()).is_ok());
        }
    }

    #[test]
    fn cards() {
        let long = [b'x'; 255];
        let full: [(u8, &[u8]); 2] = [(0, &long), (0, &long[..508 - 6 - 2 - 255 - 2])];
        let mut card = write_card(0x0403_0201, &full).unwrap();
        assert_eq!(card[1..6], [1, 2, 3, 4, 2]);
        assert_eq!(card[507], b'x');
        assert_eq!(read_card(&card).unwrap().record, 0x0403_0201);

        // The last text would go on one byte past the place 507.
        card[6 + 1 + 255 + 2] += 1;
        store_sum(&mut card);
        assert_eq!(read_card(&card), Err(Flaw::Layout));

        let mut card = write_card(1, &[(9, b"")]).unwrap();
        assert_eq!(read_card(&card).unwrap().entries, [Entry { head: 9, mark: 0, text: b"" }]);
        card[507] = 1;
        store_sum(&mut card);
        assert_eq!(read_card(&card), Err(Flaw::Layout));

        let empty: (u8, &[u8]) = (0, b"");
        assert!(read_card(&write_card(1, &[empty; 64]).unwrap()).is_ok());
        assert!(read_card(&write_card(1, &[empty; 65]).unwrap()).is_err());
    }

    /// A marked sheet of kind numbers, marks and names.
    fn marked_sheet(parameters: &[(u8, u8, &str)]) -> Result<Sheet, Flaw> {
        let entries = parameters.iter();
        let entries: Vec<_> = entries.map(|&(head, mark, name)| Entry { head, mark, text: name.as_bytes() }).collect();
        read_sheet(&write_sheet_as(MARKED_SHEET, &entries).unwrap())
    }

    #[test]
    fn bundles() {
        let sheet = marked_sheet(&[(4, 2, "type"), (7, 0, "related"), (5, 2, "target"), (1, 0, "title")]).unwrap();
        let read = sheet.parameters.iter().map(|parameter| (parameter.kind, parameter.bundle));
        let token = (Some(Kind::Token), Some(1));
        let reference = (Some(Kind::Reference), Some(1));
        assert_eq!(read.collect::<Vec<_>>(), [token, (None, None), reference, (Some(Kind::String), None)]);

        for parameters in [
            &[(7, 0, "a"), (1, 0, "b"), (1, 2, "c")][..],
            &[(7, 0, "a"), (1, 2, "b")],
            &[(7, 0, "a"), (1, 3, "b")],
            &[(7, 0, "a"), (1, 255, "b")],
            &[(7, 0, "a"), (7, 1, "b")],
            &[(7, 1, "a")],
            &[(7, 0, "a"), (8, 1, "b")],
            &[(7, 0, "a"), (1, 1, "a")],
            &[(7, 0, "a"), (1, 1, "b"), (2, 1, "b")],
            &[(7, 0, "a"), (1, 1, "b"), (2, 0, "b")],
            &[(2, 0, "b"), (7, 0, "a"), (1, 2, "b")],
            &[(7, 0, "a"), (7, 0, "a")],
            &[(7, 0, "not")],
        ] {
            assert_eq!(marked_sheet(parameters), Err(Flaw::Layout), "{parameters:?}");
        }
        for parameters in [
            &[][..],
            &[(1, 0, "a"), (6, 0, "b")],
            &[(7, 0, "a"), (6, 1, "b")],
            &[(7, 0, "a"), (7, 0, "b")],
            &[(7, 0, "a"), (7, 0, "b"), (1, 1, "c"), (2, 2, "c")],
        ] {
            assert!(marked_sheet(parameters).is_ok(), "{parameters:?}");
        }
    }

    #[test]
    fn occurrences() {
        let entries = [Entry { head: 3, mark: 255, text: b"a" }, Entry { head: 0, mark: 0, text: b"" }];
        let mut card = write_card_as(MARKED_CARD, 1, &entries).unwrap();
        assert_eq!(card[..13], [0x44, 1, 0, 0, 0, 2, 3, 255, 1, b'a', 0, 0, 0]);
        assert_eq!(read_card(&card).unwrap().entries, entries);

        // In the other form the occurrence is read as the length.
        card[0] = CARD;
        store_sum(&mut card);
        assert_eq!(read_card(&card).unwrap().entries[0].text.len(), 255);

        // The last text would go on one byte past the place 507.
        let long = [b'x'; 255];
        let full = [Entry { head: 0, mark: 0, text: &long }, Entry { head: 0, mark: 0, text: &long[..508 - 267] }];
        let mut card = write_card_as(MARKED_CARD, 1, &full).unwrap();
        assert!(read_card(&card).is_ok());
        card[6 + 3 + 255 + 2] += 1;
        store_sum(&mut card);
        assert_eq!(read_card(&card), Err(Flaw::Layout));
    }
}
