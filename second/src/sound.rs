//! Which words are sound tables, and which sound tables go together.

use crate::layout::{head, Kind, Width, LAST_CLASS, MOST_ROWS};
use crate::order::{self, Place};
use crate::refusal::{Fault, Refusal};
use crate::table::{Content, Row, Table};
use crate::times;
use crate::vector::Stamp;

/// The table in these words, if it is sound. The whole is judged by its head, then by its order, then by the rest.
pub fn read(words: &[u32]) -> Result<Table, Fault> {
    let width = width_of(words).ok_or(Fault::Head)?;
    let table = Table::read(words, width).ok_or(Fault::Order)?;
    if !order::is_kept(&places(&table)) {
        return Err(Fault::Order);
    }
    if !(0..table.rows.len()).all(|row| row_is_right(&table, row)) {
        return Err(Fault::Rule);
    }
    Ok(table)
}

/// The two tables in these words, if both are sound and go together.
pub fn read_pair(source: &[u32], target: &[u32]) -> Result<(Table, Table), Refusal> {
    let source = read(source).map_err(Refusal::Source)?;
    let target = read(target).map_err(Refusal::Target)?;
    if source.width != target.width {
        return Err(Refusal::WrongWidth);
    }
    if !same_places(&source, &target) {
        return Err(Refusal::PlacesDiffer);
    }
    if source.device == target.device {
        return Err(Refusal::OneDevice);
    }
    if is_ahead(&source, &target) {
        return Err(Refusal::SourceAhead);
    }
    if is_ahead(&target, &source) {
        return Err(Refusal::TargetAhead);
    }
    Ok((source, target))
}

/// The row of this number, if the table has one.
pub fn find(table: &Table, row: u32) -> Result<usize, Refusal> {
    let row = row as usize;
    if row < table.rows.len() {
        Ok(row)
    } else {
        Err(Refusal::NoSuchRow)
    }
}

/// The width of the table in these words, if the length and the head are right.
fn width_of(words: &[u32]) -> Option<Width> {
    let width = Width::of_head(*words.get(head::WIDTH)?)?;
    let rows = words[head::ROWS] as usize;
    let is_right = width.has(words[head::DEVICE])
        && (1..=MOST_ROWS).contains(&rows)
        && words.len() == width.length(rows)
        && words[head::WIDTH + 1..width.row()]
            .iter()
            .all(|&word| word == 0);
    is_right.then_some(width)
}

fn places(table: &Table) -> Vec<Place> {
    let place = |row: &Row| Place {
        folder: row.is_folder(),
        size: row.size,
    };
    table.rows.iter().map(place).collect()
}

/// Whether a row of an ordered table keeps every other rule of the layout and the times.
fn row_is_right(table: &Table, row: usize) -> bool {
    let words = &table.rows[row];
    words.floor.count(table.device) == 0
        && event_words_are_right(words, table.width)
        && events_are_covered(table, row)
        && words.summary == times::summary(table, row)
}

/// Whether words 2 to 7 are those of the row's kind.
fn event_words_are_right(row: &Row, width: Width) -> bool {
    let is_gone = row.birth == Stamp::EMPTY && row.content == Content::NONE;
    match row.kind {
        Kind::Never | Kind::Folder => row.stamp == Stamp::EMPTY && is_gone,
        Kind::Removed => row.stamp.is_proper(width) && is_gone,
        Kind::Live => {
            row.stamp.is_proper(width)
                && row.birth.is_proper(width)
                && row.content.class <= LAST_CLASS
                && row.content.mark >= 1
        }
    }
}

/// Whether the row's known time covers its stamp and birth; the empty stamp is always covered.
fn events_are_covered(table: &Table, row: usize) -> bool {
    let known = times::known(table, row);
    known.covers(table.rows[row].stamp) && known.covers(table.rows[row].birth)
}

fn same_places(one: &Table, other: &Table) -> bool {
    one.rows.len() == other.rows.len()
        && one
            .rows
            .iter()
            .zip(&other.rows)
            .all(|(one, other)| one.size == other.size && one.is_folder() == other.is_folder())
}

/// Whether a floor of one table names a later count of the other's device than the other's counter.
fn is_ahead(one: &Table, other: &Table) -> bool {
    one.rows
        .iter()
        .any(|row| row.floor.count(other.device) > other.counter)
}
