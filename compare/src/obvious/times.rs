//! Rows, vectors, and what a folder says of its rows.

/// Kind: nothing has happened to the sheet.
pub const NEVER: u32 = 0;
/// Kind: the sheet is there.
pub const LIVE: u32 = 1;
/// Kind: the sheet was there.
pub const REMOVED: u32 = 2;
/// Kind: a folder.
pub const FOLDER: u32 = 3;

/// The first word of a row's floor.
pub const FLOOR: usize = 8;

/// One count for each device.
pub type Vector<const C: usize> = [u32; C];

/// A row, or the head.
pub type Words<const W: usize> = [u32; W];

#[inline(always)]
pub fn greatest<const C: usize>(one: Vector<C>, other: Vector<C>) -> Vector<C> {
    std::array::from_fn(|column| one[column].max(other[column]))
}

#[inline(always)]
pub fn smallest<const C: usize>(one: Vector<C>, other: Vector<C>) -> Vector<C> {
    std::array::from_fn(|column| one[column].min(other[column]))
}

#[inline(always)]
pub fn covered<const C: usize>(one: Vector<C>, other: Vector<C>) -> bool {
    let past = one
        .iter()
        .zip(&other)
        .fold(false, |past, (one, other)| past | (one > other));
    !past
}

#[inline(always)]
pub fn vector<const C: usize, const W: usize>(row: &Words<W>, word: usize) -> Vector<C> {
    row[word..word + C].try_into().expect("C words")
}

#[inline(always)]
pub fn put<const C: usize, const W: usize>(row: &mut Words<W>, word: usize, vector: Vector<C>) {
    row[word..word + C].copy_from_slice(&vector);
}

/// Whether all words are zero.
#[inline(always)]
pub fn empty(words: &[u32]) -> bool {
    words.iter().fold(0, |all, word| all | word) == 0
}

/// The column of a device; some column of a device that has none.
#[inline(always)]
pub fn column<const C: usize>(device: u32) -> usize {
    device as usize % C
}

/// Whether a vector covers the stamp in two words.
#[inline(always)]
pub fn covers<const C: usize, const W: usize>(
    known: &Vector<C>,
    row: &Words<W>,
    word: usize,
) -> bool {
    known[column::<C>(row[word])] >= row[word + 1]
}

/// What a folder says of its rows, gathered child by child.
#[derive(Clone, Copy, PartialEq)]
pub struct Summary<const C: usize> {
    pub newest: Vector<C>,
    pub least: Vector<C>,
    pub most: Vector<C>,
}

impl<const C: usize> Summary<C> {
    /// Of no child yet.
    pub const EMPTY: Summary<C> = Summary {
        newest: [0; C],
        least: [u32::MAX; C],
        most: [0; C],
    };

    const NEWEST: usize = FLOOR + C;
    const LEAST: usize = FLOOR + 2 * C;
    const MOST: usize = FLOOR + 3 * C;

    /// That which stands in a folder's row.
    #[inline(always)]
    pub fn of<const W: usize>(row: &Words<W>) -> Summary<C> {
        Summary {
            newest: vector(row, Self::NEWEST),
            least: vector(row, Self::LEAST),
            most: vector(row, Self::MOST),
        }
    }

    /// Adds a child, whose own summary is right if it is a folder.
    #[inline(always)]
    pub fn add<const W: usize>(&mut self, child: &Words<W>) {
        if child[0] == FOLDER {
            let child = Summary::of(child);
            self.newest = greatest(self.newest, child.newest);
            self.least = smallest(self.least, child.least);
            self.most = greatest(self.most, child.most);
        } else {
            let floor = vector(child, FLOOR);
            let newest = &mut self.newest[column::<C>(child[2])];
            *newest = child[3].max(*newest);
            self.least = smallest(self.least, floor);
            self.most = greatest(self.most, floor);
        }
    }

    /// All children are gathered: with the folder's own floor.
    #[inline(always)]
    pub fn with_floor<const W: usize>(mut self, rows: &[Words<W>]) -> Summary<C> {
        let floor = vector(&rows[0], FLOOR);
        if rows.len() == 1 {
            self.least = floor;
        }
        self.least = greatest(floor, self.least);
        self.most = greatest(floor, self.most);
        self
    }

    /// Puts it into the folder's row.
    #[inline(always)]
    pub fn put<const W: usize>(self, row: &mut Words<W>) {
        put(row, Self::NEWEST, self.newest);
        self.put_times(row);
    }

    /// Puts least and most into the folder's row.
    #[inline(always)]
    pub fn put_times<const W: usize>(self, row: &mut Words<W>) {
        put(row, Self::LEAST, self.least);
        put(row, Self::MOST, self.most);
    }
}

/// The clock of a table.
#[derive(Clone, Copy)]
pub struct Clock {
    pub device: usize,
    pub counter: u32,
}

impl Clock {
    /// What is known above the root: the counter, in the own column. No floor says anything of that column.
    pub fn above<const C: usize>(self) -> Vector<C> {
        let mut above = [0; C];
        above[self.device] = self.counter;
        above
    }

    /// All ones in the columns of the others, and zero in the own.
    pub fn others<const C: usize>(self) -> Vector<C> {
        let mut others = [u32::MAX; C];
        others[self.device] = 0;
        others
    }
}
