//! The plain spelling of a filter: one space where one is needed and none elsewhere, no bracket that the left-to-right
//! reading makes idle, a bare word wherever the value can be one, else a string in its shortest form.

use crate::filter::{Filter, Item, Join, OPERATIONS, Operation, Test};

/// The plain spelling.
pub fn plain(filter: &Filter<Test>) -> Vec<u8> {
    let mut text = Vec::new();
    write_filter(filter, &mut text);
    text
}

/// Items from left to right. At the beginning a bracket is idle: what is in it would be joined first anyway.
fn write_filter(filter: &Filter<Test>, text: &mut Vec<u8>) {
    match &filter.first {
        Item::Bracket(inner) => write_filter(inner, text),
        item => write_item(item, text),
    }
    for (join, item) in &filter.rest {
        text.extend_from_slice(match join {
            Join::And => b" and ",
            Join::Or => b" or ",
        });
        write_item(item, text);
    }
}

/// An item behind a joining word. Of brackets around a join one pair is kept, and around anything else none.
fn write_item(item: &Item<Test>, text: &mut Vec<u8>) {
    match item {
        Item::Test(test, None) => write_test(test, text),
        Item::Test(test, Some(condition)) => {
            let bundle = test.path.iter().nth_back(1);
            text.extend_from_slice(bundle.expect("the bundle stands before the member"));
            text.push(b'[');
            write_filter(condition, text);
            text.extend_from_slice(b"].");
            write_test(test, text);
        }
        Item::Bracket(inner) => match lone_item(inner) {
            Some(item) => write_item(item, text),
            None => write_bracket(inner, text),
        },
        Item::Not(inner) => {
            text.extend_from_slice(b"not");
            write_bracket(inner, text);
        }
    }
}

/// The one item of a filter that joins nothing.
fn lone_item(filter: &Filter<Test>) -> Option<&Item<Test>> {
    filter.rest.is_empty().then_some(&filter.first)
}

fn write_bracket(filter: &Filter<Test>, text: &mut Vec<u8>) {
    text.push(b'(');
    write_filter(filter, text);
    text.push(b')');
}

/// The name, the word and the value of a test, without what stands before a member's name.
fn write_test(test: &Test, text: &mut Vec<u8>) {
    text.extend_from_slice(test.path.last().expect("a test has a name"));
    text.push(b' ');
    text.extend_from_slice(word(test.operation));
    text.push(b' ');
    write_value(&test.value, text);
}

fn word(operation: Operation) -> &'static [u8] {
    let known = OPERATIONS.iter().find(|(_, known)| *known == operation);
    known.expect("every operation has a word").0
}

/// One or more bytes 0x21 to 0x7E, without ")" and "]", of which the first is no double quote, are a bare word. In a
/// string an escape stands only where the byte itself may not.
fn write_value(value: &[u8], text: &mut Vec<u8>) {
    let may_be_bare = |byte: &u8| matches!(byte, 0x21..=0x7E) && !matches!(byte, b')' | b']');
    if value.first().is_some_and(|first| *first != b'"') && value.iter().all(may_be_bare) {
        text.extend_from_slice(value);
        return;
    }
    text.push(b'"');
    for &byte in value {
        match byte {
            b'"' => text.extend_from_slice(b"\\\""),
            b'\\' => text.extend_from_slice(b"\\\\"),
            0x08 => text.extend_from_slice(b"\\b"),
            0x0C => text.extend_from_slice(b"\\f"),
            0x0A => text.extend_from_slice(b"\\n"),
            0x0D => text.extend_from_slice(b"\\r"),
            0x09 => text.extend_from_slice(b"\\t"),
            byte => text.push(byte),
        }
    }
    text.push(b'"');
}
