//! A table as words, and as a head with rows.

use std::ops::Range;

use crate::layout::{head, word, Kind, Time, Width};
use crate::vector::{Stamp, Vector};

/// What a folder says of the rows beneath it. In a sheet it is all zeros.
#[derive(Clone, Copy, Debug, Default, PartialEq, Eq)]
pub struct Summary {
    pub newest: Vector,
    pub least: Vector,
    pub most: Vector,
}

/// What a live sheet holds. It travels whole, and no rule reads it.
#[derive(Clone, Copy, Debug, Default, PartialEq, Eq)]
pub struct Content {
    /// What stands for the content itself: at least 1.
    pub mark: u32,
    /// The class of duty.
    pub class: u32,
}

impl Content {
    /// What stands in a row that isn't live.
    pub const NONE: Content = Content { mark: 0, class: 0 };
}

/// One row of a table.
#[derive(Clone, Debug, PartialEq, Eq)]
pub struct Row {
    pub kind: Kind,
    pub size: usize,
    pub stamp: Stamp,
    pub birth: Stamp,
    pub content: Content,
    pub floor: Vector,
    pub summary: Summary,
}

impl Row {
    /// A row of which nothing is known yet.
    pub fn fresh(kind: Kind, size: usize) -> Row {
        Row {
            kind,
            size,
            stamp: Stamp::EMPTY,
            birth: Stamp::EMPTY,
            content: Content::NONE,
            floor: Vector::ZERO,
            summary: Summary::default(),
        }
    }

    /// Whether the row is a folder.
    pub fn is_folder(&self) -> bool {
        self.kind == Kind::Folder
    }

    /// Takes kind, stamp, birth and content from another row.
    pub fn take(&mut self, other: &Row) {
        self.kind = other.kind;
        self.stamp = other.stamp;
        self.birth = other.birth;
        self.content = other.content;
    }

    /// The row in these words, if its kind is one of the four.
    fn read(words: &[u32], width: Width) -> Option<Row> {
        let stamp = |place: usize| Stamp {
            device: words[place],
            count: words[place + 1],
        };
        let vector = |time: Time| Vector::of(&words[width.counts(time)]);
        Some(Row {
            kind: Kind::read(words[word::KIND])?,
            size: words[word::SIZE] as usize,
            stamp: stamp(word::STAMP),
            birth: stamp(word::BIRTH),
            content: Content {
                mark: words[word::MARK],
                class: words[word::CLASS],
            },
            floor: vector(Time::Floor),
            summary: Summary {
                newest: vector(Time::Newest),
                least: vector(Time::Least),
                most: vector(Time::Most),
            },
        })
    }

    /// The words of the row.
    fn words(&self, width: Width) -> Vec<u32> {
        let mut words = vec![0; width.row()];
        words[word::KIND] = self.kind.number();
        words[word::SIZE] = self.size as u32;
        for (place, stamp) in [(word::STAMP, self.stamp), (word::BIRTH, self.birth)] {
            words[place] = stamp.device;
            words[place + 1] = stamp.count;
        }
        words[word::MARK] = self.content.mark;
        words[word::CLASS] = self.content.class;
        for (time, vector) in [
            (Time::Floor, self.floor),
            (Time::Newest, self.summary.newest),
            (Time::Least, self.summary.least),
            (Time::Most, self.summary.most),
        ] {
            words[width.counts(time)].copy_from_slice(&vector.0[..width.columns()]);
        }
        words
    }
}

/// A table of times: its width, a device, its counter, and its rows.
#[derive(Clone, Debug, PartialEq, Eq)]
pub struct Table {
    pub width: Width,
    pub device: u32,
    pub counter: u32,
    pub rows: Vec<Row>,
}

impl Table {
    /// The table of this width in these words, if each row's kind is one of the four.
    ///
    /// The words are a whole head and whole rows: the caller has judged the length.
    pub fn read(words: &[u32], width: Width) -> Option<Table> {
        let (head, rows) = words.split_at(width.row());
        Some(Table {
            width,
            device: head[head::DEVICE],
            counter: head[head::COUNTER],
            rows: rows
                .chunks_exact(width.row())
                .map(|words| Row::read(words, width))
                .collect::<Option<_>>()?,
        })
    }

    /// All words of the table.
    pub fn words(&self) -> Vec<u32> {
        let mut words = vec![0; self.width.row()];
        words[head::DEVICE] = self.device;
        words[head::COUNTER] = self.counter;
        words[head::ROWS] = self.rows.len() as u32;
        words[head::WIDTH] = self.width.told();
        for row in &self.rows {
            words.extend(row.words(self.width));
        }
        words
    }

    /// A row and all rows beneath it.
    pub fn subtree(&self, row: usize) -> Range<usize> {
        row..row + self.rows[row].size
    }

    /// All rows beneath a row; none beneath a sheet.
    pub fn beneath(&self, row: usize) -> Range<usize> {
        row + 1..row + self.rows[row].size
    }

    /// The words in which some rows lie.
    pub fn words_of(&self, rows: Range<usize>) -> Range<usize> {
        self.width.length(rows.start)..self.width.length(rows.end)
    }

    /// The children of a row, in order: the first is the next row, and each one's size leads to its sibling.
    pub fn children(&self, row: usize) -> Vec<usize> {
        let beneath = self.beneath(row);
        let mut children = Vec::new();
        let mut child = beneath.start;
        while child < beneath.end {
            children.push(child);
            child += self.rows[child].size;
        }
        children
    }

    /// The rows from the root down to a row, the row itself being the last.
    pub fn path(&self, row: usize) -> Vec<usize> {
        let mut path = vec![0];
        let mut folder = 0;
        while let Some(child) = self.child_holding(folder, row) {
            path.push(child);
            folder = child;
        }
        path
    }

    /// The child of a folder that is the row sought, or has it beneath.
    fn child_holding(&self, folder: usize, row: usize) -> Option<usize> {
        self.children(folder)
            .into_iter()
            .find(|&child| self.subtree(child).contains(&row))
    }
}
