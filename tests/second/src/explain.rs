//! Which tests decide a filter's answer. A test in square brackets has no number of its own.

use crate::filter::{Filter, Item, Join};

/// Up to so many tests, what the others could say is tried out case by case.
const FEW: usize = 6;

/// A filter by the numbers of its tests, from 0 in the order of the text.
enum Outline {
    Test(usize),
    Not(Box<Outline>),
    Join(Join, Box<Outline>, Box<Outline>),
}

/// A test, with the condition inside its path if it has one.
type Outer<'a, T> = (&'a T, Option<&'a Filter<T>>);

/// One cell per test: 0 where it is spared, 1 where it decides by its yes, 2 where it decides by its no.
pub fn cells<T>(filter: &Filter<T>, says: impl Fn(&T, Option<&Filter<T>>) -> bool) -> Vec<u8> {
    let mut tests = Vec::new();
    let outline = outline(filter, &mut tests);
    let verdicts: Vec<bool> = tests.iter().map(|(test, condition)| says(test, *condition)).collect();
    let mut kept = vec![true; verdicts.len()];
    for number in (0..kept.len()).rev() {
        kept[number] = false;
        kept[number] = !stands(&outline, &verdicts, &kept);
    }
    let cell = |(kept, yes): (bool, &bool)| {
        if !kept {
            0
        } else if *yes {
            1
        } else {
            2
        }
    };
    kept.into_iter().zip(&verdicts).map(cell).collect()
}

/// Whether the filter's answer stands, whatever the tests say that are not kept.
fn stands(outline: &Outline, verdicts: &[bool], kept: &[bool]) -> bool {
    if verdicts.len() > FEW {
        let known = |number: usize| kept[number].then_some(verdicts[number]);
        let (yes, no) = outline.can_say(&known);
        return yes != no;
    }
    let answer = outline.says(&|number| verdicts[number]);
    (0..1 << verdicts.len()).all(|other: u32| {
        outline.says(&|number| if kept[number] { verdicts[number] } else { other >> number & 1 == 1 }) == answer
    })
}

/// The outline of a filter, and its tests behind those that were met before.
fn outline<'a, T>(filter: &'a Filter<T>, tests: &mut Vec<Outer<'a, T>>) -> Outline {
    let mut whole = item(&filter.first, tests);
    for (join, next) in &filter.rest {
        whole = Outline::Join(*join, Box::new(whole), Box::new(item(next, tests)));
    }
    whole
}

fn item<'a, T>(found: &'a Item<T>, tests: &mut Vec<Outer<'a, T>>) -> Outline {
    match found {
        Item::Test(test, condition) => {
            tests.push((test, condition.as_deref()));
            Outline::Test(tests.len() - 1)
        }
        Item::Bracket(filter) => outline(filter, tests),
        Item::Not(filter) => Outline::Not(Box::new(outline(filter, tests))),
    }
}

impl Outline {
    /// What the filter says where its tests say this.
    fn says(&self, test: &impl Fn(usize) -> bool) -> bool {
        match self {
            Outline::Test(number) => test(*number),
            Outline::Not(filter) => !filter.says(test),
            Outline::Join(Join::And, first, second) => first.says(test) && second.says(test),
            Outline::Join(Join::Or, first, second) => first.says(test) || second.says(test),
        }
    }

    /// Whether it can say yes and whether it can say no, where this is known of its tests. Each test stands once, so that
    /// what the two parts of a join say is free of each other.
    fn can_say(&self, known: &impl Fn(usize) -> Option<bool>) -> (bool, bool) {
        match self {
            Outline::Test(number) => known(*number).map_or((true, true), |yes| (yes, !yes)),
            Outline::Not(filter) => {
                let (yes, no) = filter.can_say(known);
                (no, yes)
            }
            Outline::Join(join, first, second) => {
                let ((yes, no), (also_yes, also_no)) = (first.can_say(known), second.can_say(known));
                match join {
                    Join::And => (yes && also_yes, no || also_no),
                    Join::Or => (yes || also_yes, no && also_no),
                }
            }
        }
    }
}

#[cfg(test)]
mod tests {
    use super::*;

    /// Both ways of telling whether an answer stands agree, on every outline of five tests in a chain with one bracket.
    #[test]
    fn the_two_ways_agree() {
        let joins = [Join::And, Join::Or];
        for shape in 0..64 {
            let pick = |bit: u32| joins[(shape >> bit & 1) as usize];
            let test = |number| Box::new(Outline::Test(number));
            let bracket = Outline::Join(pick(0), test(1), Box::new(Outline::Join(pick(1), test(2), test(3))));
            let bracket = if shape >> 4 & 1 == 1 { Outline::Not(Box::new(bracket)) } else { bracket };
            let front = Outline::Join(pick(2), test(0), Box::new(bracket));
            let outline = Outline::Join(pick(3), Box::new(front), test(4));
            for said in 0..32u32 {
                let verdicts: Vec<bool> = (0..5).map(|number| said >> number & 1 == 1).collect();
                for chosen in 0..32u32 {
                    let kept: Vec<bool> = (0..5).map(|number| chosen >> number & 1 == 1).collect();
                    let known = |number: usize| kept[number].then_some(verdicts[number]);
                    let (yes, no) = outline.can_say(&known);
                    assert_eq!(yes != no, stands(&outline, &verdicts, &kept));
                }
            }
        }
    }
}
