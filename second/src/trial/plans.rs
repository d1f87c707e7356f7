//! Plans: trees of all shapes, right and wrong.

use super::Random;
use crate::layout::{MOST_LEVELS, MOST_ROWS};

/// A right plan of so many rows, 1 to 256.
pub fn right(random: &mut Random, rows: usize) -> Vec<u32> {
    let mut plan = vec![0; rows];
    let folder_once_in = random.within(1..6);
    grow(random, &mut plan, 1, folder_once_in);
    plan
}

/// Makes a folder of all these rows, on this level. A folder on the last level stays empty.
fn grow(random: &mut Random, rows: &mut [u32], level: usize, folder_once_in: usize) {
    rows[0] = rows.len() as u32;
    let mut left = &mut rows[1..];
    while !left.is_empty() {
        let room = if level < MOST_LEVELS - 1 {
            left.len()
        } else {
            1
        };
        let size = if random.once_in(folder_once_in) {
            let some = random.within(1..room + 1);
            random.one_of(&[some, some, room])
        } else {
            0
        };
        let (child, siblings) = left.split_at_mut(size.max(1));
        if size > 0 {
            grow(random, child, level + 1, folder_once_in);
        }
        left = siblings;
    }
}

/// So many folders, one within the other, the innermost with so many sheets.
pub fn chain(folders: usize, sheets: usize) -> Vec<u32> {
    let rows = folders + sheets;
    let outer = (0..folders).map(|above| (rows - above) as u32);
    outer.chain((0..sheets).map(|_| 0)).collect()
}

/// A folder of so many sheets.
pub fn flat(sheets: usize) -> Vec<u32> {
    chain(1, sheets)
}

/// A plan that may be wrong: too long, too deep, or with numbers changed.
pub fn any(random: &mut Random, most_rows: usize) -> Vec<u32> {
    match random.within(0..12) {
        0 => chain(random.within(14..19), random.within(0..3)),
        1 if random.once_in(8) => flat(random.within(MOST_ROWS - 3..MOST_ROWS + 3)),
        2 => (0..random.within(0..6))
            .map(|_| random.odd_word())
            .collect(),
        _ => {
            let rows = random.within(1..most_rows + 1);
            let mut plan = right(random, rows);
            for _ in 0..random.within(0..3) {
                let row = random.within(0..rows);
                plan[row] = match random.within(0..3) {
                    0 => random.odd_word(),
                    1 => random.near(plan[row]),
                    _ => random.within(0..rows + 2) as u32,
                };
            }
            plan
        }
    }
}

/// The rows of a plan that are sheets.
pub fn sheets(plan: &[u32]) -> Vec<usize> {
    (0..plan.len()).filter(|&row| plan[row] == 0).collect()
}

/// The plan without a row, and without all beneath it or with that one level higher; every folder that held it is
/// smaller. `None` for the root, and for a row that isn't there.
pub fn without(plan: &[u32], row: usize, all_beneath: bool) -> Option<Vec<u32>> {
    if row == 0 || row >= plan.len() {
        return None;
    }
    let gone = if all_beneath {
        (plan[row].max(1) as usize).min(plan.len() - row)
    } else {
        1
    };
    let mut left = plan.to_vec();
    for (above, size) in left.iter_mut().enumerate().take(row) {
        if *size as usize > row - above {
            *size = size.saturating_sub(gone as u32);
        }
    }
    left.drain(row..row + gone);
    Some(left)
}
