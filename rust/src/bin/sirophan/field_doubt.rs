//! Doubts about what cards hold, which every command tells alike: fields whose values look like another kind's or are in
//! another encoding, archives without cards, record numbers that several cards bear.

use crate::kind;
use crate::report::Message;
use crate::sheet::Sheet;
use crate::tally::{Alike, Found, Held, Likeness};
use crate::text::{counted, grouped, quoted, row};

/// How many repeated record numbers are named.
const NAMED: usize = 3;

/// The doubts about the fields at these places, each as a warning.
pub fn of_fields(sheet: &Sheet, held: &Held, places: impl IntoIterator<Item = usize>) -> Vec<Message> {
    places.into_iter().flat_map(|place| of_field(sheet, held, place)).collect()
}

/// The doubts about one field.
pub fn of_field(sheet: &Sheet, held: &Held, place: usize) -> Vec<Message> {
    let (path, field) = (sheet.path(place, 0), &held.fields[place]);
    let of = if field.is_sample { " looked at" } else { "" };
    let own = kind::by_number(sheet.parameters[place].kind);
    let kind = field.looks_like().zip(own);
    let kind = kind.map(|((likeness, alike), own)| {
        let filled = if field.blank > 0 { " that are not empty" } else { "" };
        let values = format!("{}{filled}{of}", counted(field.values - field.blank, "value"));
        let told = format!("{path} is {}, and {} of {values}", own.one, grouped(alike.count));
        kind_doubt(&told, own, likeness, alike, &field.others(alike)).about("looks_like", &path).figures([
            ("values", field.values - field.blank),
            ("alike", alike.count),
            ("unreadable", alike.unreadable),
        ])
    });
    let encoding = field.first_strange.map(|(_, record, why)| {
        let some = format!("{} of {}{of}", grouped(field.strange), counted(field.values, "value"));
        let seem = if field.strange == 1 { "seems" } else { "seem" };
        Message::warning(
            format!("{path}: {some} {seem} to be in another encoding, first on record {record}: {why}."),
            "Letters beyond ASCII have other bytes there, and a filter in UTF-8 does not find them.",
        )
        .about("encoding", &path)
        .figures([("strange", field.strange)])
    });
    kind.into_iter().chain(encoding).collect()
}

/// So many of the values look like those of another kind.
fn kind_doubt(told: &str, own: &'static kind::Kind, likeness: &Likeness, alike: &Alike, others: &[Found]) -> Message {
    let Likeness { one, many, .. } = likeness;
    let look = if alike.count == 1 { format!("looks like {one}") } else { format!("look like {many}") };
    let others: Vec<String> = others.iter().map(|(_, text)| quoted(text)).collect();
    let others = if others.is_empty() { String::new() } else { format!("; others: {}", others.join(", ")) };
    let help = format!(
        "If it holds {many}, the sheet gives it the wrong kind, and a filter asks something else than it seems to."
    );
    let mut message = Message::warning(format!("{told} {look}{others}."), help);
    if let Some((_, first)) = alike.first_unreadable.as_ref().filter(|_| alike.unreadable > 0) {
        let kind = kind::by_word(likeness.kind).unwrap_or(own);
        let these = match (alike.unreadable, alike.count) {
            (1, 1) => "It is".into(),
            (some, all) if some == all => "All of these are".into(),
            (1, _) => "1 of these is".into(),
            (some, _) => format!("{} of these are", grouped(some)),
        };
        let spelled = format!("{these} in a spelling that cannot be read, such as {}", quoted(first));
        message.help.push(format!("{spelled}: {} are written {}.", kind.many, kind.written));
    }
    message
}

/// The doubts about the cards as a whole: that there are none, and the record numbers that several bear, of those that
/// matter.
pub fn of_cards(name: &str, held: &Held, matters: impl Fn(u32) -> bool) -> Vec<Message> {
    let none = (held.cards == 0).then(|| {
        Message::warning(format!("{name} has no cards."), "It is empty. Is it the file that was meant?")
            .code("no_cards")
    });
    let repeated: Vec<(u32, u64)> = held.repeated.iter().copied().filter(|(record, _)| matters(*record)).collect();
    let repeated = (!repeated.is_empty()).then(|| repeated_doubt(name, &repeated));
    none.into_iter().chain(repeated).collect()
}

/// Several cards bear the same record number.
fn repeated_doubt(name: &str, repeated: &[(u32, u64)]) -> Message {
    let named: Vec<String> =
        repeated.iter().take(NAMED).map(|(record, cards)| format!("{record} ({} cards)", grouped(*cards))).collect();
    let more = repeated.len().saturating_sub(NAMED) as u64;
    let named = if more > 0 { format!("{} and {} more", named.join(", "), grouped(more)) } else { row(&named, "and") };
    let borne = match repeated.len() {
        1 => "a record number is borne by several cards".to_string(),
        count => format!("{} record numbers are borne by several cards", grouped(count as u64)),
    };
    Message::warning(
        format!("{name}: {borne}: {named}."),
        "A list names them by the number alone, once for each card that matches.",
    )
    .code("record_repeated")
    .figures([("records", repeated.len() as u64), ("cards", repeated.iter().map(|(_, cards)| cards).sum())])
}
