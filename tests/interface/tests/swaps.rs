//! The swaps that no statement can see, in each text that has them: each is found.

use interface::{differences, header, source};
use std::fs;

fn read(file: &str) -> String {
    fs::read_to_string(format!("../../{file}")).expect("the file is there")
}

/// The text with two words exchanged in the declaration that begins with the mark and ends with the mark's closing bracket.
fn swapped(text: &str, mark: &str, one: &str, other: &str) -> String {
    let start = text.find(mark).expect("the mark is there");
    let close = if mark.ends_with('(') { ')' } else { '}' };
    let end = start + text[start..].find(close).expect("the declaration ends");
    let part = text[start..end].replace(one, "\u{1}").replace(other, one).replace('\u{1}', other);
    assert_ne!(part, text[start..end], "{mark}");
    format!("{}{part}{}", &text[..start], &text[end..])
}

/// What is told by the source, by the header and by Rust: the column of its names, the file, the mark and the two words.
type Place = (usize, &'static str, &'static str, &'static str, &'static str);

const SOURCE: &str = "crates/sirophan_c/src/lib.rt";
const HEADER: &str = "include/sirophan.h";
const RUST: &str = "rust/src/ffi.rs";

const SWAPS: [[Place; 3]; 5] = [
    [
        (2, SOURCE, "fn sirophan_check(", "sheet", "filter"),
        (0, HEADER, "sirophan_answer sirophan_check(", "sheet", "filter"),
        (1, RUST, "fn sirophan_check(", "sheet", "filter"),
    ],
    [
        (2, SOURCE, "fn sirophan_match_search(", "text", "card"),
        (0, HEADER, "sirophan_answer sirophan_match_search(", "text", "card"),
        (1, RUST, "fn sirophan_match_search(", "text", "card"),
    ],
    [
        (2, "crates/answers_c/src/lib.rt", "pub struct Answer {", "pub refusal: u32", "pub value: usize"),
        (0, HEADER, "typedef struct sirophan_answer {", "uint32_t refusal;", "size_t value;"),
        (1, RUST, "pub struct Answer {", "refusal: u32", "value: usize"),
    ],
    [
        (2, SOURCE, "pub struct Counts {", "yes:", "no:"),
        (0, HEADER, "typedef struct sirophan_counts {", "size_t yes;", "size_t no;"),
        (1, RUST, "pub struct Reported {", "yes:", "no:"),
    ],
    [
        (2, "crates/report/src/lib.rt", "pub struct Tally {", "cards:", "values:"),
        (0, HEADER, "typedef struct sirophan_tally {", "uint32_t cards;", "uint32_t values;"),
        (1, "rust/src/lib.rs", "pub struct Tally {", "cards:", "values:"),
    ],
];

#[test]
fn each_swap_is_found_in_each_text() {
    for (column, file, mark, one, other) in SWAPS.into_iter().flatten() {
        let text = read(file);
        let told = |text: &str| if column == 0 { header(text) } else { source(text, column) };
        let changed = swapped(&text, mark, one, other);
        assert!(!differences(&told(&text), &told(&changed)).is_empty(), "{file}: {mark}");
    }
}

#[test]
fn a_function_that_one_text_lacks_is_found() {
    let text = read(HEADER);
    assert!(!differences(&header(&text), &header(&text.replace("sirophan_judge(", "sirophan_judges("))).is_empty());
}
