//! When the desk says no.

/// Why a call is refused.
#[derive(Clone, Copy, Debug, PartialEq, Eq)]
pub enum Refusal {
    /// The only table or the source is not sound.
    Source(Fault),
    /// The target is not sound.
    Target(Fault),
    /// Sizes or folder places differ between the tables.
    PlacesDiffer,
    /// Both tables have one device number.
    OneDevice,
    /// A floor in the source names a later count of the target's device than its counter.
    SourceAhead,
    /// A floor in the target names a later count of the source's device than its counter.
    TargetAhead,
    /// There is no such row, or no such folder.
    NoSuchRow,
    /// A lent output has the wrong length.
    WrongLength,
    /// The event does not fit the row's kind, or a folder stands where a sheet is needed.
    Unfit,
    /// There is no conflict.
    NoConflict,
    /// The counter has no next count.
    CounterFull,
    /// The event or choice is not 1, 2 or 3.
    NoSuchChoice,
    /// The new table has no column for its device.
    NoSuchDevice,
    /// Two tables of different width, a table to widen that is wide already, or columns that are neither 8 nor 16.
    WrongWidth,
    /// A call was given a class above 9.
    NoSuchClass,
    /// A call was given mark 0.
    NoMark,
    /// The plan would give rows that break the order.
    BadPlan,
}

/// What is wrong with a table.
#[derive(Clone, Copy, Debug, PartialEq, Eq)]
pub enum Fault {
    /// The length or the head.
    Head,
    /// A kind, or the order of rows.
    Order,
    /// Any other rule of the layout or the times.
    Rule,
}

impl Refusal {
    /// The number the paper gives this refusal.
    pub fn number(self) -> u32 {
        match self {
            Refusal::Source(fault) => fault.number(),
            Refusal::Target(fault) => fault.number() + 10,
            Refusal::BadPlan => Fault::Order.number(),
            Refusal::PlacesDiffer => 4,
            Refusal::OneDevice => 5,
            Refusal::SourceAhead => 6,
            Refusal::TargetAhead => 7,
            Refusal::NoSuchRow => 8,
            Refusal::WrongLength => 9,
            Refusal::Unfit => 10,
            Refusal::NoConflict => 14,
            Refusal::CounterFull => 15,
            Refusal::NoSuchChoice => 16,
            Refusal::NoSuchDevice => 17,
            Refusal::WrongWidth => 19,
            Refusal::NoSuchClass => 21,
            Refusal::NoMark => 22,
        }
    }
}

impl Fault {
    fn number(self) -> u32 {
        match self {
            Fault::Head => 1,
            Fault::Order => 2,
            Fault::Rule => 3,
        }
    }
}
