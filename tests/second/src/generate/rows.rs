//! Rows to be judged: those of the case, damaged ones, and those of another text or sheet.

use super::{Case, Random, case};
use crate::block::{self, Sheet};
use crate::filter::{self, OPERATIONS};
use crate::rows::write;

/// Rows for the case with this number.
pub fn rows(seed: u64, number: u64, this: &Case) -> Vec<u32> {
    let random = &mut Random::new(!seed, number);
    let other = || case(seed, number + 1).0;
    match random.below(12) {
        0..=3 => written(&this.sheet, &this.filter),
        4..=7 => damaged(random, written(&this.sheet, &this.filter), this),
        8 => written(&this.sheet, &other().filter),
        9 => written(&other().sheet, &this.filter),
        10 => drawn(random, this),
        _ => limits(random, this),
    }
}

/// The rows of a filter on a sheet, whether it passes there or not; none where either cannot be read.
fn written(sheet: &[u8], text: &[u8]) -> Vec<u32> {
    let none = Sheet { parameters: Vec::new() };
    let sheet = block::read_sheet(sheet).unwrap_or(none);
    filter::read(text).map_or_else(Vec::new, |filter| write(&filter, &sheet))
}

/// A test of any parameter, mostly with a value's place that may be one.
fn test(random: &mut Random, case: &Case) -> u32 {
    let place = random.below(34).min(31);
    let operation = random.below(OPERATIONS.len() + 2);
    let value_place = random.below(case.filter.len() + 2);
    8 * (place + 32 * (operation + 32 * value_place)) as u32
}

/// A row that is no test, mostly with a number of rows that is small.
fn word(random: &mut Random) -> u32 {
    let size = if random.once_in(8) { random.below(400) } else { random.below(5) };
    if random.once_in(3) { 2 } else { 8 * size as u32 + random.one(&[1, 3, 4]) }
}

/// Some rows with one of them changed, left out or put in.
fn damaged(random: &mut Random, mut rows: Vec<u32>, case: &Case) -> Vec<u32> {
    let at = random.below(rows.len() + 1);
    if at == rows.len() || random.once_in(4) {
        let row = match random.below(3) {
            0 => random.one(&[0, 1, 2, 3, 4, 5, 10, u32::MAX]),
            1 => word(random),
            _ => test(random, case),
        };
        rows.insert(at, row);
        return rows;
    }
    match random.below(9) {
        0 => drop(rows.remove(at)),
        1 => rows[at] ^= 1 << random.below(32),
        2 => rows[at] = test(random, case),
        3 => rows[at] = word(random),
        4 => rows[at] = (rows[at] / 256) * 256 + 8 * random.below(32) as u32 + rows[at] % 8,
        5 => rows[at] = rows[at] % 8192 + 8192 * random.below(case.filter.len() + 1) as u32,
        6 => rows.rotate_left(at),
        7 => rows[at] = rows[at].wrapping_add(8),
        _ => rows[at] = rows[at].wrapping_sub(8),
    }
    rows
}

/// Any few rows.
fn drawn(random: &mut Random, case: &Case) -> Vec<u32> {
    let count = random.below(6);
    let draw = |_| if random.once_in(2) { word(random) } else { test(random, case) };
    (0..count).map(draw).collect()
}

/// Rows of the case's first test that go up to the limits, or one further.
fn limits(random: &mut Random, case: &Case) -> Vec<u32> {
    let rows = written(&case.sheet, &case.filter);
    let Some(&test) = rows.iter().find(|&&row| row > 4 && row % 8 == 0) else {
        return rows;
    };
    let more = random.below(2);
    // from the right: each test with all that follow it as its second part
    let nested = |count: usize, tag: u32| {
        let pair = |left: usize| [8 * (2 * left as u32 + 1) + tag, test];
        (0..count).rev().flat_map(pair).skip(1).collect::<Vec<_>>()
    };
    match random.below(5) {
        0 => [vec![test], vec![2; 8 + more]].concat(),
        1 => nested(32 + more, 4),
        2 => [vec![test], [8 + 3, test].repeat(31 + more)].concat(),
        3 => nested(10 + more, 3),
        _ => {
            let last = nested(5 + more, 3);
            let join = vec![8 * last.len() as u32 + 4];
            [nested(9, 4), vec![8 * 17 + 3], nested(9, 4), vec![8 * 17 + 4], nested(9, 3), join, last].concat()
        }
    }
}
