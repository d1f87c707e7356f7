//! Known times and summaries, always worked out from the floors and stamps alone.

use crate::layout::Kind;
use crate::table::{Summary, Table};
use crate::vector::Vector;

/// The known time of a row: the greatest of the floors on its path, with the counter in the own column.
pub fn known(table: &Table, row: usize) -> Vector {
    table
        .path(row)
        .into_iter()
        .map(|above| table.rows[above].floor)
        .fold(Vector::ZERO, Vector::greatest)
        .with(table.device, table.counter)
}

/// The newest of a row: column by column, the greatest of the stamps beneath it.
fn newest(table: &Table, row: usize) -> Vector {
    table
        .beneath(row)
        .map(|sheet| &table.rows[sheet])
        .filter(|sheet| matches!(sheet.kind, Kind::Live | Kind::Removed))
        .map(|sheet| Vector::of_stamp(sheet.stamp))
        .fold(Vector::ZERO, Vector::greatest)
}

/// The greater of a row's floor and what `among` makes of its children; a row without children is its floor.
fn gathered(table: &Table, row: usize, among: fn(Vector, Vector) -> Vector) -> Vector {
    let floor = table.rows[row].floor;
    table
        .children(row)
        .into_iter()
        .map(|child| gathered(table, child, among))
        .reduce(among)
        .map_or(floor, |children| floor.greatest(children))
}

/// Least: the floor, or the smallest among the children where that is greater.
fn least(table: &Table, row: usize) -> Vector {
    gathered(table, row, Vector::smallest)
}

/// Most: the floor, or the greatest among the children where that is greater.
fn most(table: &Table, row: usize) -> Vector {
    gathered(table, row, Vector::greatest)
}

/// A vector of a row with the floors above added, and the counter in the own column.
fn full(table: &Table, row: usize, vector: Vector) -> Vector {
    known(table, row)
        .greatest(vector)
        .with(table.device, table.counter)
}

/// What is known at least everywhere beneath a row.
pub fn full_least(table: &Table, row: usize) -> Vector {
    full(table, row, least(table, row))
}

/// What is known at most anywhere beneath a row.
pub fn full_most(table: &Table, row: usize) -> Vector {
    full(table, row, most(table, row))
}

/// Whether the same is known everywhere beneath a row.
pub fn is_level(table: &Table, row: usize) -> bool {
    full_least(table, row) == full_most(table, row)
}

/// The summary that a row must have.
pub fn summary(table: &Table, row: usize) -> Summary {
    if table.rows[row].is_folder() {
        Summary {
            newest: newest(table, row),
            least: least(table, row),
            most: most(table, row),
        }
    } else {
        Summary::default()
    }
}

/// Makes all summaries of a table right.
pub fn mend(table: &mut Table) {
    for row in 0..table.rows.len() {
        table.rows[row].summary = summary(table, row);
    }
}

/// Raises the floor of a row to a time, the own column staying zero.
pub fn raise(table: &mut Table, row: usize, time: Vector) {
    let own = table.device;
    let floor = &mut table.rows[row].floor;
    *floor = floor.greatest(time).with(own, 0);
}
