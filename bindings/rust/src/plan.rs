//! The tree of a new table.

/// A tree of folders and sheets, from which a new table is made.
///
/// ```
/// use kettleflock::Plan;
///
/// let week = Plan::folder([Plan::sheet(), Plan::sheet()]);
/// let root = Plan::folder([week, Plan::sheet()]);
/// assert_eq!(root.size(), 5);
/// ```
#[derive(Clone, Debug, PartialEq, Eq)]
pub enum Plan {
    /// A duty sheet.
    Sheet,
    /// A folder and what is in it, in order.
    Folder(Vec<Plan>),
}

impl Plan {
    /// A duty sheet.
    #[must_use]
    pub fn sheet() -> Plan {
        Plan::Sheet
    }

    /// A folder with these in it.
    pub fn folder(children: impl IntoIterator<Item = Plan>) -> Plan {
        Plan::Folder(children.into_iter().collect())
    }

    /// How many rows it gives.
    pub fn size(&self) -> usize {
        match self {
            Plan::Sheet => 1,
            Plan::Folder(children) => 1 + children.iter().map(Plan::size).sum::<usize>(),
        }
    }

    /// A number for each row, depth first: 0 for a sheet, its size for a folder.
    pub(crate) fn numbers(&self) -> Vec<u32> {
        match self {
            Plan::Sheet => vec![0],
            Plan::Folder(children) => {
                let mut numbers = vec![crate::number(self.size())];
                numbers.extend(children.iter().flat_map(Plan::numbers));
                numbers
            }
        }
    }
}
