//! Rows come from anybody: whatever the cells, and however many, judge answers on a small stack.

use second::block::{write_card, write_sheet};
use second::operations;
use std::thread;

/// The stack of a thread that judges hostile rows, in bytes.
const STACK: usize = 64 * 1024;

/// The most rows that judge looks into.
const MOST_ROWS: usize = 320;

const MANY: usize = 1_000_000;
const NOT: u32 = 2;
const FILTER: &[u8] = b"title pr true";

/// The row of the filter's test: the value begins at byte 9, and `pr` has the number 12.
const TEST: u32 = 8 * (32 * (12 + 32 * 9));

fn condition(rows: usize) -> u32 {
    8 * rows as u32 + 1
}

fn and(rows: usize) -> u32 {
    8 * rows as u32 + 3
}

/// What judge and the second implementation answer, the first on the small stack.
fn answers(rows: Vec<u32>, both: bool) -> Vec<Result<bool, u32>> {
    let sheet = write_sheet(&[(1, b"title")]).unwrap();
    let card = write_card(7, &[(0, b"Ward book 4")]).unwrap();
    let second = both.then(|| operations::judge(&sheet, FILTER, &rows, &card).map_err(|refusal| refusal.number));
    let judging = move || sirophan::judge(&sheet, FILTER, &rows, &card).map_err(|refusal| refusal.number);
    let judged = thread::Builder::new().stack_size(STACK).spawn(judging).unwrap().join().unwrap();
    [judged].into_iter().chain(second).collect()
}

/// Cells as deep as they are many: `not` on `not`, second parts in second parts, conditions in conditions.
fn nested(count: usize) -> [Vec<u32>; 3] {
    let nots = [TEST].into_iter().chain(std::iter::repeat_n(NOT, count - 1)).collect();
    let joins = (0..count).map(|at| if at % 2 == 0 { TEST } else { and(count - 1 - at) }).collect();
    let conditions =
        (0..count).map(|at| if at % 2 == 0 { condition(count.saturating_sub(at + 2)) } else { TEST }).collect();
    [nots, joins, conditions]
}

#[test]
fn a_test_by_itself_is_judged() {
    assert_eq!(answers(vec![TEST], true), [Ok(true), Ok(true)]);
    assert_eq!(answers(vec![TEST, NOT, NOT, NOT], true), [Ok(false), Ok(false)]);
    assert_eq!(answers(vec![TEST, and(3), TEST, and(1), TEST], true), [Ok(true), Ok(true)]);
}

#[test]
fn many_cells_are_refused() {
    let chain = |count: usize| (0..count).map(|at| if at % 2 == 0 { TEST } else { and(1) }).collect();
    for rows in nested(MANY).into_iter().chain([chain(MANY + 1)]) {
        assert_eq!(answers(rows, false), [Err(40)]);
    }
}

#[test]
fn deep_cells_are_refused_within_the_number_that_is_looked_into() {
    for count in [MOST_ROWS - 1, MOST_ROWS, MOST_ROWS + 1] {
        for rows in nested(count) {
            assert_eq!(answers(rows, true), [Err(40), Err(40)]);
        }
    }
}

#[test]
fn sizes_that_lie_are_refused() {
    let largest = u32::MAX as usize / 8 - 1;
    for size in [0, 2, 3, 319, 320, 321, largest] {
        for cell in [and(size), condition(size)] {
            for rows in [vec![cell], vec![cell, TEST], vec![TEST, cell], vec![TEST, cell, TEST], vec![cell, TEST, TEST]]
            {
                assert_eq!(answers(rows, true), [Err(40), Err(40)]);
            }
        }
    }
    assert_eq!(answers(vec![and(largest); MANY], false), [Err(40)]);
    assert_eq!(answers(vec![condition(largest); MANY], false), [Err(40)]);
}
