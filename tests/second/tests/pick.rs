//! What the program `pick` prints, to the byte.

use second::block::write_card;
use second::cases::Cases;
use second::pick::output;

/// The bytes of a block of `cases.txt`.
fn block(name: &str) -> Vec<u8> {
    let cases = Cases::read(include_str!("../../cases.txt")).unwrap();
    let mut blocks = cases.blocks.into_iter();
    blocks.find(|block| block.name == name).unwrap().bytes
}

/// This many cards with record numbers from 0, all without entries.
fn blank_cards(count: u32) -> Vec<u8> {
    (0..count).flat_map(|record| write_card(record, &[]).unwrap()).collect()
}

#[test]
fn trial_archive() {
    let cards = [block("7"), block("19"), block("300")].concat();
    let filter = b"title sw \"ward book 4\"\n";
    assert_eq!(output(&block("ward"), filter, &cards), "7\n300\n2 of 3\n");
}

#[test]
fn one_line_feed_is_dropped() {
    let sheet = block("ward");
    let says = |filter: &[u8]| output(&sheet, filter, &[]);
    assert_eq!(says(b"title pr true"), "0 of 0\n");
    assert_eq!(says(b"title pr true\n"), "0 of 0\n");
    assert_eq!(says(b"title pr true\n\n"), "refused 11 at 13\n");
    assert_eq!(says(b"title pr true\r\n"), "refused 11 at 13\n");
    assert_eq!(says(b"\n"), "refused 10 at 0\n");
    let longest = [b"title pr true".to_vec(), vec![b' '; 1011]].concat();
    assert_eq!(says(&[&longest[..], b"\n"].concat()), "0 of 0\n");
    assert_eq!(says(&[&longest[..], b" "].concat()), "refused 10 at 0\n");
}

#[test]
fn runs_of_128_cards() {
    let sheet = block("ward");
    let numbers = |count: u32| (0..count).map(|record| format!("{record}\n")).collect::<String>();
    let says = |cards: &[u8]| output(&sheet, b"title pr false", cards);
    for count in [0, 1, 127, 128, 129, 256, 300] {
        let expected = format!("{}{count} of {count}\n", numbers(count));
        assert_eq!(says(&blank_cards(count)), expected);
    }

    // The run that is refused prints none of its numbers.
    let mut cards = blank_cards(300);
    cards[260 * 512] = 0;
    assert_eq!(says(&cards), format!("{}refused 21 at 260\n", numbers(256)));
    let mut cards = blank_cards(130);
    cards.pop();
    assert_eq!(says(&cards), format!("{}refused 20 at 0\n", numbers(128)));
    let cards = [blank_cards(128), block("7-first")].concat();
    assert_eq!(says(&cards), format!("{}refused 22 at 128\n", numbers(128)));
}

#[test]
fn refused_before_any_card() {
    let cards = blank_cards(1);
    assert_eq!(output(&block("ward-short"), b"title pr false", &cards), "refused 1 at 0\n");
    assert_eq!(output(&block("ward"), b"title pr false and code gt 5", &[]), "refused 16 at 19\n");
}
