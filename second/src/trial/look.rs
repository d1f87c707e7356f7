//! A look at the words of a table, of either width, for those who make tables up, damage them and judge them.

use std::ops::Range;

use crate::layout::{head, word, Kind, Time, Width};
use crate::order::{self, Place};
use crate::table::Content;
use crate::vector::Vector;

/// The width that a table's head tells; of words that tell none, narrow.
pub fn width(table: &[u32]) -> Width {
    table
        .get(head::WIDTH)
        .and_then(|&word| Width::of_head(word))
        .unwrap_or(Width::Narrow)
}

/// How many whole rows there are in these words.
pub fn rows(table: &[u32]) -> usize {
    (table.len() / width(table).row()).saturating_sub(1)
}

/// Where a word of a row lies.
pub fn place(table: &[u32], row: usize, word: usize) -> usize {
    width(table).place(row, word)
}

/// Where the counts of a row's vector lie.
pub fn counts(table: &[u32], row: usize, time: Time) -> Range<usize> {
    let in_row = width(table).counts(time);
    place(table, row, in_row.start)..place(table, row, in_row.end)
}

/// A word of a row.
pub fn at(table: &[u32], row: usize, word: usize) -> u32 {
    table[place(table, row, word)]
}

/// The kind of a row.
pub fn kind(table: &[u32], row: usize) -> u32 {
    at(table, row, word::KIND)
}

/// The size of a row.
pub fn size(table: &[u32], row: usize) -> usize {
    at(table, row, word::SIZE) as usize
}

/// The device and count of a row's stamp.
pub fn stamp(table: &[u32], row: usize) -> (u32, u32) {
    (at(table, row, word::STAMP), at(table, row, word::STAMP + 1))
}

/// The device and count of a row's birth.
pub fn birth(table: &[u32], row: usize) -> (u32, u32) {
    (at(table, row, word::BIRTH), at(table, row, word::BIRTH + 1))
}

/// The mark of a row.
pub fn mark(table: &[u32], row: usize) -> u32 {
    at(table, row, word::MARK)
}

/// The class of a row.
pub fn class(table: &[u32], row: usize) -> u32 {
    at(table, row, word::CLASS)
}

/// What a row holds.
pub fn content_of(table: &[u32], row: usize) -> Content {
    Content {
        mark: mark(table, row),
        class: class(table, row),
    }
}

/// A vector of a row.
pub fn vector(table: &[u32], row: usize, time: Time) -> Vector {
    Vector::of(&table[counts(table, row, time)])
}

/// Gives a row another vector.
pub fn set_vector(table: &mut [u32], row: usize, time: Time, vector: Vector) {
    let counts = counts(table, row, time);
    let columns = counts.len();
    table[counts].copy_from_slice(&vector.0[..columns]);
}

/// Whether a row is a folder.
pub fn is_folder(table: &[u32], row: usize) -> bool {
    kind(table, row) == Kind::Folder.number()
}

/// A row and all rows beneath it.
pub fn subtree(table: &[u32], row: usize) -> Range<usize> {
    row..row + size(table, row)
}

/// The rows on a folder's next level, of an ordered table.
pub fn children(table: &[u32], folder: usize) -> Vec<usize> {
    let mut children = Vec::new();
    let mut child = folder + 1;
    while child < subtree(table, folder).end {
        children.push(child);
        child += size(table, child);
    }
    children
}

/// The known time of a row of an ordered table, by every row that has it in its subtree.
pub fn known(table: &[u32], row: usize) -> Vector {
    (0..=row)
        .filter(|&above| subtree(table, above).contains(&row))
        .map(|above| vector(table, above, Time::Floor))
        .fold(Vector::ZERO, Vector::greatest)
        .with(table[head::DEVICE], table[head::COUNTER])
}

/// The words of a table of this plan in which nothing has happened. The plan may be wrong, and then so is the table.
pub fn fresh(width: Width, device: u32, plan: &[u32]) -> Vec<u32> {
    let mut table = vec![0; width.length(plan.len())];
    table[head::DEVICE] = device;
    table[head::ROWS] = plan.len() as u32;
    table[head::WIDTH] = width.told();
    for (row, &number) in plan.iter().enumerate() {
        let kind = if number == 0 {
            Kind::Never
        } else {
            Kind::Folder
        };
        table[width.place(row, word::KIND)] = kind.number();
        table[width.place(row, word::SIZE)] = number.max(1);
    }
    table
}

/// The same rows with eight columns, whatever the table has, beneath a head that tells no more than it must.
pub fn narrowed(table: &[u32]) -> Vec<u32> {
    let columns = Width::Narrow.columns();
    let mut narrow = fresh(Width::Narrow, table[head::DEVICE], &[]);
    narrow[head::COUNTER] = table[head::COUNTER];
    narrow[head::ROWS] = table[head::ROWS];
    for row in 0..rows(table) {
        narrow.extend(&table[place(table, row, 0)..][..word::VECTORS]);
        for time in Time::ALL {
            narrow.extend(&table[counts(table, row, time)][..columns]);
        }
    }
    narrow
}

/// Works out the summaries of all folders, whatever the head. Rows that are out of order stay as they are.
pub fn mend(table: &mut [u32]) {
    let place = |row: usize| Place {
        folder: is_folder(table, row),
        size: size(table, row),
    };
    let places: Vec<Place> = (0..rows(table)).map(place).collect();
    if !order::is_kept(&places) {
        return;
    }
    for row in (0..rows(table)).rev() {
        if is_folder(table, row) {
            mend_folder(table, row);
        }
    }
}

/// Works out the summary of a folder, those beneath being right.
fn mend_folder(table: &mut [u32], folder: usize) {
    let floor = vector(table, folder, Time::Floor);
    let children = children(table, folder);
    let newest = children
        .iter()
        .map(|&child| newest_at(table, child))
        .fold(Vector::ZERO, Vector::greatest);
    let gathered = |time: Time, among: fn(Vector, Vector) -> Vector| {
        let of_child = |&child: &usize| match is_folder(table, child) {
            true => vector(table, child, time),
            false => vector(table, child, Time::Floor),
        };
        let children = children.iter().map(of_child).reduce(among);
        children.map_or(floor, |children| floor.greatest(children))
    };
    let least = gathered(Time::Least, Vector::smallest);
    let most = gathered(Time::Most, Vector::greatest);
    set_vector(table, folder, Time::Newest, newest);
    set_vector(table, folder, Time::Least, least);
    set_vector(table, folder, Time::Most, most);
}

/// The newest stamp at a row: a folder's newest, a sheet's stamp.
fn newest_at(table: &[u32], row: usize) -> Vector {
    if is_folder(table, row) {
        return vector(table, row, Time::Newest);
    }
    let (device, count) = stamp(table, row);
    Vector::ZERO.with(device, count)
}
