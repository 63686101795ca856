//! The second implementation gives the plain spellings that were found by hand.

use second::filter;
use second::operations::spell;
use second::spelling::plain;
use second::spellings;

#[test]
fn spellings_found_by_hand() {
    for spelling in spellings::read().unwrap() {
        let mut buffer = vec![0; spelling.filter.len()];
        let answer = spell(&spelling.filter, &mut buffer, 0).map(|length| buffer[..length].to_vec());
        assert_eq!(answer, spelling.answer, "`{}`", spelling.written);
    }
}

#[test]
fn spelled_again_they_stay() {
    for spelling in spellings::read().unwrap() {
        let Ok(text) = spelling.answer else { continue };
        assert_eq!(plain(&filter::read(&text).unwrap()), text, "`{}`", spelling.written);
    }
}

#[test]
fn only_the_part_is_written() {
    let mut buffer = *b"........";
    assert_eq!(spell(b" a  eq b", &mut buffer, 1), Ok(6));
    assert_eq!(buffer, *b".a eq b.");
    for from in [3, 8, 9, usize::MAX] {
        let refusal = spell(b"c eq d", &mut buffer, from).unwrap_err();
        assert_eq!((refusal.number, refusal.place), (32, 6));
        assert_eq!(buffer, *b".a eq b.");
    }
}
