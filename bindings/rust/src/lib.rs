//! Duty sheets carried between devices.
//!
//! Each device holds a [`Table`] of times for one tree of duty sheets. A [`pass`] carries what is new from one table
//! to another; where two people have worked on one sheet without knowing of each other it says conflict, and
//! somebody chooses: see [`settle`], and [`ahead`](ahead()) for who is ahead.
//!
//! ```
//! use kettleflock::{pass, settle, Answer, Choice, Columns, Content, Plan, Table};
//!
//! let plan = Plan::folder([Plan::folder([Plan::sheet(), Plan::sheet()]), Plan::sheet()]);
//! let mut desk = Table::new(Columns::Eight, 0, &plan)?;
//! let mut tablet = Table::new(Columns::Eight, 1, &plan)?;
//!
//! desk.create(2, Content { mark: 700, class: 0 })?;
//! assert_eq!(pass(&desk, &mut tablet, 0)?.answer(2), Some(Answer::Copy));
//!
//! // Both correct the sheet, and somebody is asked.
//! desk.change(2, Content { mark: 701, class: 0 })?;
//! tablet.change(2, Content { mark: 702, class: 0 })?;
//! assert_eq!(pass(&desk, &mut tablet, 0)?.answer(2), Some(Answer::Conflict));
//! settle(&desk, &mut tablet, 2, Choice::Own)?;
//! assert_eq!(pass(&tablet, &mut desk, 0)?.answer(2), Some(Answer::Copy));
//! # Ok::<(), kettleflock::Refusal>(())
//! ```
//!
//! A table has eight columns, for devices 0 to 7, or sixteen, for devices 0 to 15. Tables that meet have equally many:
//! see [`Columns`] and [`Table::widen`]. It has at most 256 rows on 16 levels, and its tree is fixed when it is made.
//!
//! # What the tables cannot see
//!
//! It is proved that in any run in which each device goes on from its own last table, a pass says of each sheet what its
//! full history says. That it is such a run is the caller's part, in four rules:
//!
//! 1. One number is one device, for ever. Two devices with one number lose each other's sheets unseen.
//! 2. Save a table before anybody may read it. If it is lost after somebody has read it, what is left is an older copy.
//! 3. Never go on from an older copy of a table once its counter has moved. A restored device takes a fresh number, one
//!    that no device has had: make a new table and pass the old one into it, before any other work.
//! 4. Bring a sheet's content before you save the table that says it came. A pass doesn't say copy twice.
//!
//! ```
//! use kettleflock::{pass, Answer, Columns, Content, Plan, Refusal, Table};
//!
//! let plan = Plan::folder([Plan::sheet()]);
//! let mut desk = Table::new(Columns::Eight, 0, &plan)?;
//! let mut tablet = Table::new(Columns::Eight, 1, &plan)?;
//! tablet.create(1, Content { mark: 700, class: 0 })?;
//! let backup = tablet.clone();
//! tablet.change(1, Content { mark: 650, class: 0 })?;
//! assert_eq!(pass(&tablet, &mut desk, 0)?.answer(1), Some(Answer::Copy));
//!
//! // Gone on from its backup, the tablet loses a correction: keep, and the desk still has 650.
//! let mut restored = backup.clone();
//! assert_eq!(pass(&restored, &mut desk, 0), Err(Refusal::TargetAhead));
//! restored.change(1, Content { mark: 640, class: 0 })?;
//! assert_eq!(pass(&restored, &mut desk, 0)?.answer(1), Some(Answer::Keep));
//!
//! // With a fresh number it doesn't.
//! let mut fresh = Table::new(Columns::Eight, 2, &plan)?;
//! assert_eq!(pass(&backup, &mut fresh, 0)?.answer(1), Some(Answer::Copy));
//! fresh.change(1, Content { mark: 640, class: 0 })?;
//! assert_eq!(pass(&fresh, &mut desk, 0)?.answer(1), Some(Answer::Conflict));
//! # Ok::<(), Refusal>(())
//! ```
//!
//! # A sheet removed twice can come back
//!
//! Where two devices remove a sheet and neither has heard of the other, a third that changed it and settled against one of
//! the removals can bring it back to both, and no conflict is said of the other removal:
//!
//! ```
//! use kettleflock::{pass, settle, Answer, Choice, Columns, Content, Plan, Refusal, Table};
//!
//! let plan = Plan::folder([Plan::sheet()]);
//! let mut desk = Table::new(Columns::Eight, 0, &plan)?;
//! let mut tablet = Table::new(Columns::Eight, 1, &plan)?;
//! let mut laptop = Table::new(Columns::Eight, 2, &plan)?;
//! desk.create(1, Content { mark: 700, class: 0 })?;
//! assert_eq!(pass(&desk, &mut tablet, 0)?.answer(1), Some(Answer::Copy));
//! assert_eq!(pass(&desk, &mut laptop, 0)?.answer(1), Some(Answer::Copy));
//! tablet.remove(1)?;
//! desk.remove(1)?;
//! laptop.change(1, Content { mark: 701, class: 0 })?;
//! assert_eq!(pass(&tablet, &mut laptop, 0)?.answer(1), Some(Answer::Conflict));
//! settle(&tablet, &mut laptop, 1, Choice::Own)?;
//! assert_eq!(pass(&laptop, &mut desk, 0)?.answer(1), Some(Answer::Conflict));
//!
//! // By way of the tablet, which keeps its own removal, there is none.
//! assert_eq!(pass(&desk, &mut tablet, 0)?.answer(1), Some(Answer::Keep));
//! assert_eq!(pass(&laptop, &mut tablet, 0)?.answer(1), Some(Answer::Copy));
//! assert_eq!(pass(&tablet, &mut desk, 0)?.answer(1), Some(Answer::Copy));
//! # Ok::<(), Refusal>(())
//! ```
//!
//! # Answers are looked at
//!
//! An answer that is dropped is warned of:
//!
//! ```compile_fail
//! #![deny(unused_must_use)]
//! # use kettleflock::{pass, Refusal, Table};
//! fn carry(desk: &Table, tablet: &mut Table) -> Result<(), Refusal> {
//!     pass(desk, tablet, 0)?;
//!     Ok(())
//! }
//! ```

pub mod layout;
pub mod raw;

mod ahead;
mod pass;
mod plan;
mod refusal;
mod row;
mod table;

pub use ahead::{ahead, Ahead, Devices};
pub use layout::Columns;
pub use pass::{pass, settle, standing, Answer, Choice, Passed, Standing};
pub use plan::Plan;
pub use refusal::Refusal;
pub use row::{Content, Kind, Row, Rows, Stamp};
pub use table::Table;

/// The count of a call that succeeded.
fn succeed(answer: raw::Answer) -> Result<u32, Refusal> {
    allow(answer.number).map(|()| answer.count)
}

/// Whether a call with this number succeeded.
fn allow(number: u32) -> Result<(), Refusal> {
    match Refusal::from_number(number) {
        None => Ok(()),
        Some(refusal) => Err(refusal),
    }
}

/// A row or size as the library takes it. One beyond 32 bits becomes the greatest, which is no row of any table.
fn number(row: usize) -> u32 {
    u32::try_from(row).unwrap_or(u32::MAX)
}

/// The examples of the README are run.
#[cfg(doctest)]
#[doc = include_str!("../../../README.md")]
struct Readme;
