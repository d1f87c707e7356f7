//! How a table is laid out in words: for who keeps words of their own.
//!
//! A table is a head and then its rows, which have as many words as the head. The places of the words are the same in
//! both widths, but for the vectors after the floor.
//!
//! ```
//! use kettleflock::layout::{head, row, Columns};
//! use kettleflock::{Content, Plan, Table};
//!
//! let mut table = Table::new(Columns::Eight, 3, &Plan::folder([Plan::sheet()]))?;
//! table.create(1, Content { mark: 700, class: 3 })?;
//! let words = table.into_words();
//! assert_eq!(words[head::DEVICE], 3);
//! assert_eq!(words[Columns::Eight.row(1) + row::MARK], 700);
//! assert_eq!(words[Columns::Eight.row(1) + row::CLASS], 3);
//! # Ok::<(), kettleflock::Refusal>(())
//! ```

/// The places of the words in the head.
pub mod head {
    /// The device.
    pub const DEVICE: usize = 0;
    /// How many events have happened on the device.
    pub const COUNTER: usize = 1;
    /// The number of rows.
    pub const ROWS: usize = 2;
    /// The sign of the table's width: 0 with eight columns, 16 with sixteen.
    pub const SIGN: usize = 3;
}

/// The places of the words in a row, from its start.
pub mod row {
    /// The kind: see [`kind`](super::kind).
    pub const KIND: usize = 0;
    /// How many rows the subtree has.
    pub const SIZE: usize = 1;
    /// The device of the stamp; its count is next.
    pub const STAMP: usize = 2;
    /// The device of the birth; its count is next.
    pub const BIRTH: usize = 4;
    /// The mark.
    pub const MARK: usize = 6;
    /// The class of duty.
    pub const CLASS: usize = 7;
    /// The first of the four vectors, the floor. The others follow: see [`Columns`](super::Columns).
    pub const FLOOR: usize = 8;
}

/// The kinds of rows, as they stand at [`row::KIND`].
pub mod kind {
    /// A sheet to which nothing has happened.
    pub const NEVER: u32 = 0;
    /// A sheet that is there.
    pub const LIVE: u32 = 1;
    /// A sheet that was there.
    pub const REMOVED: u32 = 2;
    /// A folder.
    pub const FOLDER: u32 = 3;
}

/// How many columns the vectors of a table have: one for each device. They give the table its width.
///
/// ```
/// use kettleflock::Columns;
///
/// assert_eq!(Columns::Eight.width(), 40);
/// assert_eq!(Columns::Sixteen.width(), 72);
/// // Room for any table.
/// assert_eq!(Columns::Sixteen.length(256), 18_504);
/// ```
#[derive(Clone, Copy, Debug, PartialEq, Eq, Hash)]
#[repr(u32)]
pub enum Columns {
    /// A narrow table's, for devices 0 to 7.
    Eight = 8,
    /// A wide table's, for devices 0 to 15.
    Sixteen = 16,
}

impl Columns {
    /// The columns of a sound table.
    pub(crate) fn of(table: &[u32]) -> Columns {
        match table[head::SIGN] {
            0 => Columns::Eight,
            _ => Columns::Sixteen,
        }
    }

    /// How many there are.
    #[must_use]
    pub const fn count(self) -> usize {
        self as usize
    }

    /// The words of a row, and of the head before the rows.
    #[must_use]
    pub const fn width(self) -> usize {
        row::FLOOR + 4 * self.count()
    }

    /// The words of a table of so many rows.
    #[must_use]
    pub const fn length(self, rows: usize) -> usize {
        self.width() * (rows + 1)
    }

    /// The word of a table at which a row starts.
    #[must_use]
    pub const fn row(self, row: usize) -> usize {
        self.width() * (row + 1)
    }

    /// The place of the newest in a row.
    #[must_use]
    pub const fn newest(self) -> usize {
        row::FLOOR + self.count()
    }

    /// The place of the least in a row.
    #[must_use]
    pub const fn least(self) -> usize {
        row::FLOOR + 2 * self.count()
    }

    /// The place of the most in a row.
    #[must_use]
    pub const fn most(self) -> usize {
        row::FLOOR + 3 * self.count()
    }
}
