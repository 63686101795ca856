//! The second implementation gives the answers that were found by hand.

use second::cases::Cases;

#[test]
fn answers_found_by_hand() {
    let cases = Cases::read(include_str!("../../cases.txt")).unwrap();
    let mut others = Vec::new();
    for (case, number) in cases.cases.iter().zip(1..) {
        let answer = cases.answer(case);
        if answer != case.answer {
            others.push(format!("{number} `{}`: {answer}, by hand {}", case.written, case.answer));
        }
    }
    assert!(others.is_empty(), "{}", others.join("\n"));
}
