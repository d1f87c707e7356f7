//! Reading rows.

use crate::layout::{kind, row, Columns};

/// The name of an event: the device it happened on and that device's count of it.
#[derive(Clone, Copy, Debug, PartialEq, Eq, Hash)]
pub struct Stamp {
    /// The device, below the number of the table's columns.
    pub device: u32,
    /// How many-th event of the device it is, from 1.
    pub count: u32,
}

/// What a live sheet holds. It travels with the sheet, and nothing compares it.
#[derive(Clone, Copy, Debug, PartialEq, Eq, Hash)]
pub struct Content {
    /// What stands for the content itself: at least 1.
    pub mark: u32,
    /// The class of duty, 0 to [`Content::LAST_CLASS`].
    pub class: u32,
}

impl Content {
    /// The last class of duty.
    pub const LAST_CLASS: u32 = 9;

    /// For calls that ignore it.
    pub(crate) const IGNORED: Content = Content { mark: 0, class: 0 };
}

/// What a row is.
#[derive(Clone, Copy, Debug, PartialEq, Eq, Hash)]
pub enum Kind {
    /// A sheet to which nothing has happened.
    Never,
    /// A sheet that is there.
    Live {
        /// Its last event.
        stamp: Stamp,
        /// The event that created it.
        birth: Stamp,
        /// What it holds.
        content: Content,
    },
    /// A sheet that was there.
    Removed {
        /// Its last event.
        stamp: Stamp,
    },
    /// A folder.
    Folder,
}

/// A row of a table, read where it lies.
///
/// ```
/// use kettleflock::{Columns, Kind, Plan, Table};
///
/// let table = Table::new(Columns::Eight, 0, &Plan::folder([Plan::sheet()]))?;
/// let sheet = table.row(1).expect("a row");
/// assert_eq!((sheet.number(), sheet.size(), sheet.kind()), (1, 1, Kind::Never));
/// # Ok::<(), kettleflock::Refusal>(())
/// ```
#[derive(Clone, Copy, Debug, PartialEq, Eq)]
pub struct Row<'a> {
    columns: Columns,
    number: usize,
    words: &'a [u32],
}

impl<'a> Row<'a> {
    /// The row's number, from 0, the root.
    #[must_use]
    pub fn number(&self) -> usize {
        self.number
    }

    /// What the row is.
    #[must_use]
    pub fn kind(&self) -> Kind {
        match self.words[row::KIND] {
            kind::NEVER => Kind::Never,
            kind::LIVE => Kind::Live {
                stamp: self.stamp_at(row::STAMP),
                birth: self.stamp_at(row::BIRTH),
                content: Content {
                    mark: self.words[row::MARK],
                    class: self.words[row::CLASS],
                },
            },
            kind::REMOVED => Kind::Removed {
                stamp: self.stamp_at(row::STAMP),
            },
            _ => Kind::Folder,
        }
    }

    /// How many rows its subtree has: itself, and all beneath.
    #[must_use]
    pub fn size(&self) -> usize {
        self.words[row::SIZE] as usize
    }

    /// What the table knows here beyond the rows above: a count for each device.
    ///
    /// ```
    /// use kettleflock::{pass, Columns, Content, Plan, Table};
    ///
    /// let plan = Plan::folder([Plan::sheet()]);
    /// let mut desk = Table::new(Columns::Eight, 0, &plan)?;
    /// let mut tablet = Table::new(Columns::Eight, 1, &plan)?;
    /// desk.create(1, Content { mark: 700, class: 0 })?;
    /// assert_eq!(pass(&desk, &mut tablet, 0)?.looked_at(), 2);
    /// let sheet = tablet.row(1).expect("a row");
    /// assert_eq!(sheet.floor(), [1, 0, 0, 0, 0, 0, 0, 0]);
    /// # Ok::<(), kettleflock::Refusal>(())
    /// ```
    #[must_use]
    pub fn floor(&self) -> &'a [u32] {
        &self.words[row::FLOOR..self.columns.newest()]
    }

    /// The row's words, 40 or 72.
    #[must_use]
    pub fn words(&self) -> &'a [u32] {
        self.words
    }

    fn stamp_at(&self, place: usize) -> Stamp {
        Stamp {
            device: self.words[place],
            count: self.words[place + 1],
        }
    }
}

/// Some rows that follow each other, read where they lie.
///
/// ```
/// use kettleflock::{Columns, Content, Kind, Plan, Table};
///
/// let mut table = Table::new(Columns::Sixteen, 9, &Plan::folder([Plan::sheet(), Plan::sheet()]))?;
/// table.create(2, Content { mark: 700, class: 0 })?;
/// let live = table.rows().filter(|row| matches!(row.kind(), Kind::Live { .. }));
/// assert_eq!(live.map(|row| row.number()).collect::<Vec<_>>(), [2]);
/// # Ok::<(), kettleflock::Refusal>(())
/// ```
#[derive(Clone, Debug)]
pub struct Rows<'a> {
    columns: Columns,
    next: usize,
    words: std::slice::ChunksExact<'a, u32>,
}

impl<'a> Rows<'a> {
    /// The rows in these words of a sound table, the first having this number.
    pub(crate) fn new(columns: Columns, first: usize, words: &'a [u32]) -> Rows<'a> {
        Rows {
            columns,
            next: first,
            words: words.chunks_exact(columns.width()),
        }
    }
}

impl<'a> Iterator for Rows<'a> {
    type Item = Row<'a>;

    fn next(&mut self) -> Option<Row<'a>> {
        self.nth(0)
    }

    fn nth(&mut self, skipped: usize) -> Option<Row<'a>> {
        let words = self.words.nth(skipped)?;
        let number = self.next + skipped;
        self.next = number + 1;
        Some(Row {
            columns: self.columns,
            number,
            words,
        })
    }

    fn size_hint(&self) -> (usize, Option<usize>) {
        self.words.size_hint()
    }
}

impl ExactSizeIterator for Rows<'_> {}
