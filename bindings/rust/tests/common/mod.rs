//! What the tests share.

use kettleflock::{Columns, Content, Plan, Table};

/// A new table of the paper's tree: a folder of two sheets, and another sheet, beneath the root.
pub fn table(columns: Columns, device: u32) -> Table {
    let week = Plan::folder([Plan::sheet(), Plan::sheet()]);
    Table::new(columns, device, &Plan::folder([week, Plan::sheet()])).expect("a sound plan")
}

/// What a sheet of class 0 holds.
pub fn marked(mark: u32) -> Content {
    Content { mark, class: 0 }
}
