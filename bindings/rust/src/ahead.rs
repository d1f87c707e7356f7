//! Who is ahead in a conflict.

use crate::table::Table;
use crate::{allow, number, raw, Refusal};

/// Some devices, in the order of their numbers.
#[derive(Clone, Copy, Debug, PartialEq, Eq, Hash)]
pub struct Devices {
    mask: u32,
}

impl Devices {
    /// Whether a device is among them.
    #[must_use]
    pub fn contains(self, device: u32) -> bool {
        self.iter().any(|one| one == device)
    }

    /// Each of them.
    pub fn iter(self) -> impl Iterator<Item = u32> {
        (0..u32::BITS).filter(move |device| self.mask >> device & 1 == 1)
    }

    /// The mask in which bit d stands for device d.
    #[must_use]
    pub fn mask(self) -> u32 {
        self.mask
    }
}

/// Who is ahead at a sheet in conflict. There is somebody on each side.
#[derive(Clone, Copy, Debug, PartialEq, Eq, Hash)]
#[must_use]
pub struct Ahead {
    /// The devices of whom the source knows more than the target.
    pub source: Devices,
    /// The devices of whom the target knows more than the source.
    pub target: Devices,
}

/// Says who is ahead at a sheet in conflict: whose events each side has taken into account there and the other hasn't.
/// Nothing is changed.
///
/// ```
/// use kettleflock::{ahead, Columns, Content, Plan, Refusal, Table};
///
/// let plan = Plan::folder([Plan::sheet()]);
/// let mut desk = Table::new(Columns::Eight, 0, &plan)?;
/// let mut tablet = Table::new(Columns::Eight, 1, &plan)?;
/// desk.create(1, Content { mark: 10, class: 0 })?;
/// assert_eq!(ahead(&desk, &tablet, 1), Err(Refusal::NoConflict));
///
/// tablet.create(1, Content { mark: 20, class: 0 })?;
/// let ahead = ahead(&desk, &tablet, 1)?;
/// assert_eq!(ahead.source.iter().collect::<Vec<_>>(), [0]);
/// assert!(ahead.target.contains(1));
/// # Ok::<(), Refusal>(())
/// ```
///
/// # Errors
///
/// Those of [`pass`](crate::pass); the row is a folder ([`Refusal::Unfit`]); the rules don't say conflict there
/// ([`Refusal::NoConflict`]).
pub fn ahead(source: &Table, target: &Table, row: usize) -> Result<Ahead, Refusal> {
    let masks = raw::ahead(source.words(), target.words(), number(row));
    allow(masks.number)?;
    Ok(Ahead {
        source: Devices { mask: masks.source },
        target: Devices { mask: masks.target },
    })
}
