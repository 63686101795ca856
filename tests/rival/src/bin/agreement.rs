//! Compares the rival and the sharper rival with the second implementation on generated inputs.
//!
//! `agreement [SEED [CASES]]` prints how often each answer was given; its last line counts the cases in which both
//! agree with it in every answer and every cell of the list, and those in which they do not. For 11 to 13, a text
//! that is no filter, the rivals say 11 at 0.

use second::differential::SEED;
use second::generate;
use second::operations::{self, Refusal};
use std::collections::BTreeMap;
use std::process::ExitCode;

const CASES: u64 = 20_000;

/// How many differences are printed in full.
const PRINTED: u64 = 3;

type Select = fn(&[u8], &[u8], &[u8], &mut [u32]) -> Result<usize, Refusal>;

const RIVALS: [(&str, Select); 2] = [("rival", rival::select), ("sharper rival", rival::select_sharper)];

/// The answer as the rivals tell it.
fn as_rivals(answer: Result<usize, Refusal>) -> Result<usize, Refusal> {
    match answer {
        Err(Refusal { number: 11..=13, .. }) => Err(Refusal { number: 11, place: 0 }),
        answer => answer,
    }
}

/// What an answer counts as.
fn row(answer: Result<usize, Refusal>) -> String {
    match answer {
        Ok(0) => "none".into(),
        Ok(_) => "some".into(),
        Err(refusal) => format!("refused {:>2}", refusal.number),
    }
}

fn main() -> ExitCode {
    let mut arguments = std::env::args().skip(1).map(|argument| argument.parse());
    let (Ok(seed), Ok(cases)) = (arguments.next().unwrap_or(Ok(SEED)), arguments.next().unwrap_or(Ok(CASES))) else {
        eprintln!("usage: agreement [SEED [CASES]]");
        return ExitCode::FAILURE;
    };
    let mut answers: BTreeMap<String, u64> = BTreeMap::new();
    let mut failed = 0;
    for number in 0..cases {
        let (case, mode) = generate::case(seed, number);
        let mut differences = Vec::new();
        for cards in [&case.cards, &case.card] {
            let mut expected = case.list.clone();
            let answer = as_rivals(operations::select(&case.sheet, &case.filter, cards, &mut expected));
            *answers.entry(row(answer)).or_default() += 1;
            for (name, select) in RIVALS {
                let mut list = case.list.clone();
                let told = select(&case.sheet, &case.filter, cards, &mut list);
                if told != answer || list != expected {
                    differences.push(format!("  {name}: {told:?} {list:?}\n  second: {answer:?} {expected:?}"));
                }
            }
        }
        failed += u64::from(!differences.is_empty());
        if !differences.is_empty() && failed <= PRINTED {
            println!("seed {seed}, case {number} ({mode}), filter {:?}", String::from_utf8_lossy(&case.filter));
            println!("{}", differences.join("\n"));
        }
    }
    for (answer, count) in answers {
        println!("{count:>8} {answer}");
    }
    println!("{} passed, {failed} failed", cases - failed);
    if failed == 0 { ExitCode::SUCCESS } else { ExitCode::FAILURE }
}
