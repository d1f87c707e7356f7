//! Why a call is refused.

use std::error::Error;
use std::fmt;

/// Why a call is refused. A refusal changes nothing.
///
/// Some cannot come from this crate, which lends outputs of the right length and names events and choices; they are
/// here so that the list is the paper's.
///
/// ```
/// use kettleflock::{Columns, Plan, Refusal, Table};
///
/// let refusal = Table::new(Columns::Eight, 8, &Plan::folder([])).unwrap_err();
/// assert_eq!(refusal, Refusal::NoSuchDevice);
/// assert_eq!(refusal.to_string(), "new table's device above 7 (above 15 with 16 columns)");
/// assert_eq!(refusal.number(), 17);
/// ```
#[derive(Clone, Copy, Debug, PartialEq, Eq, Hash)]
#[non_exhaustive]
pub enum Refusal {
    /// The length or the head of the table, or of the source, is wrong.
    Head,
    /// The rows of the table, of the source or of the plan are out of order.
    Order,
    /// The table or the source breaks another rule of the layout or the times.
    Rule,
    /// The two tables are not of one tree.
    PlacesDiffer,
    /// The two tables are of one device.
    OneDevice,
    /// The source knows of a later time of the target than the target itself.
    SourceAhead,
    /// The target knows of a later time of the source than the source itself.
    TargetAhead,
    /// There is no such row, or it's not the folder that is needed.
    NoSuchRow,
    /// A lent output has the wrong length.
    WrongLength,
    /// The row is not of a kind to which this can be done.
    Unfit,
    /// The length or the head of the target is wrong.
    TargetHead,
    /// The rows of the target are out of order.
    TargetOrder,
    /// The target breaks another rule of the layout or the times.
    TargetRule,
    /// There is no conflict.
    NoConflict,
    /// The device has no next count.
    CounterFull,
    /// There is no such event or choice.
    NoSuchChoice,
    /// There is no such device.
    NoSuchDevice,
    /// The two tables differ in width, or the table to be widened is wide.
    Width,
    /// There is no such class of duty.
    NoSuchClass,
    /// There is no mark: 0 stands for none.
    NoMark,
    /// A number that this crate has no name for: the library is newer.
    Unknown(u32),
}

impl Refusal {
    /// All refusals that have a name, by number.
    pub const ALL: &'static [Refusal] = &[
        Refusal::Head,
        Refusal::Order,
        Refusal::Rule,
        Refusal::PlacesDiffer,
        Refusal::OneDevice,
        Refusal::SourceAhead,
        Refusal::TargetAhead,
        Refusal::NoSuchRow,
        Refusal::WrongLength,
        Refusal::Unfit,
        Refusal::TargetHead,
        Refusal::TargetOrder,
        Refusal::TargetRule,
        Refusal::NoConflict,
        Refusal::CounterFull,
        Refusal::NoSuchChoice,
        Refusal::NoSuchDevice,
        Refusal::Width,
        Refusal::NoSuchClass,
        Refusal::NoMark,
    ];

    /// The refusal of this number; `None` for 0, which is success.
    ///
    /// ```
    /// use kettleflock::Refusal;
    ///
    /// assert_eq!(Refusal::from_number(0), None);
    /// assert_eq!(Refusal::from_number(19), Some(Refusal::Width));
    /// assert_eq!(Refusal::from_number(1000), Some(Refusal::Unknown(1000)));
    /// ```
    #[must_use]
    pub fn from_number(number: u32) -> Option<Refusal> {
        let mut named = Refusal::ALL.iter().copied();
        match number {
            0 => None,
            _ => named
                .find(|refusal| refusal.number() == number)
                .or(Some(Refusal::Unknown(number))),
        }
    }

    /// The number of this refusal.
    #[must_use]
    pub fn number(self) -> u32 {
        self.entry().0
    }

    /// The paper's number and words for it.
    fn entry(self) -> (u32, &'static str) {
        match self {
            Refusal::Head => (1, HEAD),
            Refusal::Order => (2, ORDER),
            Refusal::Rule => (3, RULE),
            Refusal::PlacesDiffer => (4, "sizes or folder places differ between the tables"),
            Refusal::OneDevice => (5, "both tables have one device number"),
            Refusal::SourceAhead => (
                6,
                "a floor in the source names a later count of the target's device than its counter",
            ),
            Refusal::TargetAhead => (
                7,
                "a floor in the target names a later count of the source's device than its counter",
            ),
            Refusal::NoSuchRow => (8, "no such row (for the rows under a folder: or not a folder)"),
            Refusal::WrongLength => (9, "a lent output has the wrong length"),
            Refusal::Unfit => (
                10,
                "event unfit for the row's kind, or settling a folder; showing a folder as the row \
                 that stands; asking who is ahead at a folder",
            ),
            Refusal::TargetHead => (11, HEAD),
            Refusal::TargetOrder => (12, ORDER),
            Refusal::TargetRule => (13, RULE),
            Refusal::NoConflict => (
                14,
                "settling, or asking who is ahead, where the rules don't say conflict",
            ),
            Refusal::CounterFull => (15, "the counter is 4,294,967,295 and a new stamp is needed"),
            Refusal::NoSuchChoice => (16, "event or choice not 1, 2 or 3"),
            Refusal::NoSuchDevice => (17, "new table's device above 7 (above 15 with 16 columns)"),
            Refusal::Width => (
                19,
                "two tables of different width; new table's columns neither 8 nor 16; widening a \
                 table that is wide already",
            ),
            Refusal::NoSuchClass => (
                21,
                "a class above 9 where one is taken: creating, changing, settling by new",
            ),
            Refusal::NoMark => (
                22,
                "mark 0 where one is taken: creating, changing, settling by new",
            ),
            Refusal::Unknown(number) => (number, "a refusal that this crate has no words for"),
        }
    }
}

/// What is wrong with the head of a table.
const HEAD: &str =
    "length or head wrong: device above 7 (above 15 in a wide table), row count not 1 to \
                    256 or not matching the length, word 3 neither 0 nor 16, non-zero rest";
/// What is wrong with the order of rows.
const ORDER: &str =
    "a kind is above 3, or sizes, row 0 or levels break the order of rows; or a plan \
                     that would give such rows";
/// What is wrong with a table otherwise.
const RULE: &str =
    "any other rule of the layout or the times is broken; a live row with a class above 9 \
     or mark 0";

impl fmt::Display for Refusal {
    fn fmt(&self, out: &mut fmt::Formatter<'_>) -> fmt::Result {
        let (number, words) = self.entry();
        match self {
            Refusal::TargetHead | Refusal::TargetOrder | Refusal::TargetRule => {
                write!(out, "for the target: {words}")
            }
            Refusal::Unknown(_) => write!(out, "{words}: {number}"),
            _ => out.write_str(words),
        }
    }
}

impl Error for Refusal {}
