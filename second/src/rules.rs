//! What is done at one sheet.

use crate::layout::Kind;
use crate::table::Table;
use crate::times;

/// What the six rules say of one sheet.
#[derive(Clone, Copy, Debug, PartialEq, Eq)]
pub enum Ruling {
    /// Nothing but times changes.
    Keep,
    /// The answer is keep, but the target's row, never used or removed, takes the source's removal.
    KeepRemoval,
    /// The target takes the source's live sheet.
    Copy,
    /// The target takes the source's removal.
    Remove,
    /// Somebody has to settle it.
    Conflict,
}

impl Ruling {
    /// The number in an answer list.
    pub fn answer(self) -> u32 {
        match self {
            Ruling::Keep | Ruling::KeepRemoval => 0,
            Ruling::Copy => 1,
            Ruling::Remove => 2,
            Ruling::Conflict => 3,
        }
    }

    /// Whether the target's row takes kind, stamp, birth and content of the source's.
    pub fn takes(self) -> bool {
        matches!(self, Ruling::KeepRemoval | Ruling::Copy | Ruling::Remove)
    }
}

/// The first of the six rules that fits the sheet in this row.
pub fn ruling(source: &Table, target: &Table, row: usize) -> Ruling {
    let (a, b) = (&source.rows[row], &target.rows[row]);
    let (a_known, b_known) = (times::known(source, row), times::known(target, row));
    if a.kind == Kind::Never || b_known.covers(a.stamp) {
        return Ruling::Keep;
    }
    match (a.kind, b.kind) {
        (Kind::Live, Kind::Never) => Ruling::Copy,
        (Kind::Removed, Kind::Never) => Ruling::KeepRemoval,
        (Kind::Removed, Kind::Removed) => {
            if a_known.covers(b.stamp) {
                Ruling::KeepRemoval
            } else {
                Ruling::Keep
            }
        }
        (Kind::Live, Kind::Live) => {
            if a_known.covers(b.stamp) {
                Ruling::Copy
            } else {
                Ruling::Conflict
            }
        }
        (Kind::Live, Kind::Removed) => {
            if a_known.covers(b.stamp) || !b_known.covers(a.birth) {
                Ruling::Copy
            } else {
                Ruling::Conflict
            }
        }
        (Kind::Removed, Kind::Live) => {
            if !a_known.covers(b.birth) {
                Ruling::Keep
            } else if a_known.covers(b.stamp) {
                Ruling::Remove
            } else {
                Ruling::Conflict
            }
        }
        // The first rule has seen to a source that is never, and nobody asks about a folder.
        (Kind::Never | Kind::Folder, _) | (_, Kind::Folder) => Ruling::Keep,
    }
}
