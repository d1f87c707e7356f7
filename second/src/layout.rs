//! How a table is laid out: the places of words in its head and in a row, at both widths.

use std::ops::Range;

/// The most rows that a table has.
pub const MOST_ROWS: usize = 256;

/// The most levels that there are, root and sheets included.
pub const MOST_LEVELS: usize = 16;

/// The last class of duty.
pub const LAST_CLASS: u32 = 9;

/// Places of words in the head.
pub mod head {
    /// The device.
    pub const DEVICE: usize = 0;
    /// The counter.
    pub const COUNTER: usize = 1;
    /// How many rows there are.
    pub const ROWS: usize = 2;
    /// What tells the width.
    pub const WIDTH: usize = 3;
}

/// Places of words in a row, up to its vectors.
pub mod word {
    /// The kind.
    pub const KIND: usize = 0;
    /// How many rows there are with all beneath.
    pub const SIZE: usize = 1;
    /// The stamp's device, and then its count.
    pub const STAMP: usize = 2;
    /// The birth's device, and then its count.
    pub const BIRTH: usize = 4;
    /// The mark.
    pub const MARK: usize = 6;
    /// The class of duty.
    pub const CLASS: usize = 7;
    /// The first of the four vectors.
    pub const VECTORS: usize = 8;
}

/// What a row is. Everything but a folder is a sheet.
#[derive(Clone, Copy, Debug, PartialEq, Eq)]
#[repr(u32)]
pub enum Kind {
    /// Nothing has happened to the sheet.
    Never = 0,
    /// The sheet is there.
    Live = 1,
    /// The sheet was there.
    Removed = 2,
    /// A folder.
    Folder = 3,
}

impl Kind {
    /// All kinds.
    pub const ALL: [Kind; 4] = [Kind::Never, Kind::Live, Kind::Removed, Kind::Folder];

    /// The kind that a number stands for, if it stands for one.
    pub fn read(number: u32) -> Option<Kind> {
        Kind::ALL.into_iter().find(|kind| kind.number() == number)
    }

    /// The number of this kind.
    pub const fn number(self) -> u32 {
        self as u32
    }
}

/// The four vectors of a row, in their order.
#[derive(Clone, Copy, Debug, PartialEq, Eq)]
#[repr(usize)]
pub enum Time {
    /// What is known at the row and everywhere beneath it.
    Floor = 0,
    /// The newest of the stamps beneath.
    Newest = 1,
    /// What is known at least.
    Least = 2,
    /// What is known at most.
    Most = 3,
}

impl Time {
    /// All four.
    pub const ALL: [Time; 4] = [Time::Floor, Time::Newest, Time::Least, Time::Most];
}

/// How many columns the vectors of a table have: a device for each, from 0.
#[derive(Clone, Copy, Debug, PartialEq, Eq)]
pub enum Width {
    /// Eight columns, rows of 40 words.
    Narrow,
    /// Sixteen columns, rows of 72 words.
    Wide,
}

impl Width {
    /// Both widths.
    pub const BOTH: [Width; 2] = [Width::Narrow, Width::Wide];

    /// How many columns there are.
    pub const fn columns(self) -> usize {
        match self {
            Width::Narrow => 8,
            Width::Wide => 16,
        }
    }

    /// The word of a head that tells this width.
    pub const fn told(self) -> u32 {
        match self {
            Width::Narrow => 0,
            Width::Wide => 16,
        }
    }

    /// The width of so many columns, if there is one.
    pub fn of_columns(columns: u32) -> Option<Width> {
        Width::BOTH
            .into_iter()
            .find(|width| width.columns() as u32 == columns)
    }

    /// The width that this word of a head tells, if it tells one.
    pub fn of_head(word: u32) -> Option<Width> {
        Width::BOTH.into_iter().find(|width| width.told() == word)
    }

    /// Whether a device has a column.
    pub fn has(self, device: u32) -> bool {
        (device as usize) < self.columns()
    }

    /// The words of a row, and of the head.
    pub const fn row(self) -> usize {
        word::VECTORS + Time::ALL.len() * self.columns()
    }

    /// The words of a table of so many rows.
    pub const fn length(self, rows: usize) -> usize {
        self.row() * (rows + 1)
    }

    /// Where a word of a row lies in the table.
    pub const fn place(self, row: usize, word: usize) -> usize {
        self.length(row) + word
    }

    /// Where the counts of a vector lie in a row.
    pub fn counts(self, time: Time) -> Range<usize> {
        let start = word::VECTORS + time as usize * self.columns();
        start..start + self.columns()
    }
}
