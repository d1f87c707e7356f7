//! The order of rows: depth first, sizes leading from sibling to sibling, at most 16 levels.

use crate::layout::MOST_LEVELS;

/// What the order of rows needs to know of one row.
#[derive(Clone, Copy, Debug)]
pub struct Place {
    pub folder: bool,
    pub size: usize,
}

impl Place {
    /// A row of a plan: 0 is a sheet, any other number a folder of that size.
    pub fn of_plan(number: u32) -> Place {
        match number {
            0 => Place {
                folder: false,
                size: 1,
            },
            size => Place {
                folder: true,
                size: size as usize,
            },
        }
    }

    /// Whether a row can stand on this level, with this many rows left in its folder.
    fn fits(self, level: usize, room: usize) -> bool {
        let size_fits = if self.folder {
            (1..=room).contains(&self.size)
        } else {
            self.size == 1
        };
        size_fits && level <= MOST_LEVELS
    }
}

/// Whether the rows are in order: row 0 is a folder of them all, and everything in it fits.
pub fn is_kept(places: &[Place]) -> bool {
    match places.first() {
        Some(root) => root.folder && root.size == places.len() && is_kept_in(places, 1),
        None => false,
    }
}

/// Whether the children of a row on this level end exactly where it ends, and keep the order in turn.
///
/// The row comes first in `places`, the rest is what lies beneath it: nothing, for a sheet.
fn is_kept_in(places: &[Place], level: usize) -> bool {
    let mut left = &places[1..];
    while let Some(child) = left.first() {
        if !child.fits(level + 1, left.len()) {
            return false;
        }
        let (subtree, siblings) = left.split_at(child.size);
        if !is_kept_in(subtree, level + 1) {
            return false;
        }
        left = siblings;
    }
    true
}
