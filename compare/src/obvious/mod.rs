//! The obvious program of check and pass, unproved and fast: an array for a vector, one look at each row. It is what
//! the product's speed is measured against. One text serves both widths, with C columns and W words to a row.

mod check;
mod pass;
mod times;

use crate::program::Answer;

/// Judges a table; counts its rows.
pub fn check(table: &[u32]) -> Answer {
    answer(judge(table))
}

/// Passes the subtree that starts at a row from source to target; counts the rows looked at.
pub fn pass(source: &[u32], target: &mut [u32], row: u32, answers: &mut [u32]) -> Answer {
    answer(match (is_wide(source), is_wide(target)) {
        (false, false) => pass::pass::<8, 40>(source, target, row, answers),
        (true, true) => pass::pass::<16, 72>(source, target, row, answers),
        _ => two_widths(source, target),
    })
}

fn is_wide(table: &[u32]) -> bool {
    table.get(3) == Some(&16)
}

/// The rows of a sound table, or the refusal's number.
fn judge(table: &[u32]) -> Result<u32, u32> {
    if is_wide(table) {
        check::read::<16, 72>(table).map(|(_, rows)| rows.len() as u32)
    } else {
        check::read::<8, 40>(table).map(|(_, rows)| rows.len() as u32)
    }
}

/// What a pass between two widths is refused with.
fn two_widths(source: &[u32], target: &[u32]) -> Result<u32, u32> {
    judge(source)?;
    judge(target).map_err(|number| number + 10)?;
    Err(19)
}

fn answer(result: Result<u32, u32>) -> Answer {
    match result {
        Ok(count) => Answer { number: 0, count },
        Err(number) => Answer { number, count: 0 },
    }
}
