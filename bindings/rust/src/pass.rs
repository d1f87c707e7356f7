//! Passing from one table to another, settling, and seeing what stands.

use crate::row::{Content, Row};
use crate::table::Table;
use crate::{number, raw, succeed, Refusal};

/// What a pass says of a row.
#[derive(Clone, Copy, Debug, PartialEq, Eq, Hash)]
#[non_exhaustive]
pub enum Answer {
    /// The target's sheet stays.
    Keep,
    /// The target has taken the source's sheet.
    Copy,
    /// The target's sheet has been removed.
    Remove,
    /// Nothing was done: this is to be settled.
    Conflict,
    /// A folder whose children were looked at.
    Walked,
    /// A folder with nothing new beneath it.
    PassedOver,
    /// A number that this crate has no name for: the library is newer.
    Unknown(u32),
}

impl Answer {
    /// All answers that have a name, by number from 0.
    pub const ALL: &'static [Answer] = &[
        Answer::Keep,
        Answer::Copy,
        Answer::Remove,
        Answer::Conflict,
        Answer::Walked,
        Answer::PassedOver,
    ];

    /// The answer of this number in an answer list.
    ///
    /// ```
    /// use kettleflock::Answer;
    ///
    /// assert_eq!(Answer::from_number(3), Answer::Conflict);
    /// assert_eq!(Answer::from_number(1000), Answer::Unknown(1000));
    /// ```
    #[must_use]
    pub fn from_number(number: u32) -> Answer {
        let named = Answer::ALL.get(number as usize).copied();
        named.unwrap_or(Answer::Unknown(number))
    }

    /// The number of this answer.
    #[must_use]
    pub fn number(self) -> u32 {
        match self {
            Answer::Keep => 0,
            Answer::Copy => 1,
            Answer::Remove => 2,
            Answer::Conflict => 3,
            Answer::Walked => 4,
            Answer::PassedOver => 5,
            Answer::Unknown(number) => number,
        }
    }
}

/// What a pass says of each row of its subtree.
#[derive(Clone, Debug, PartialEq, Eq)]
#[must_use = "conflicts are to be settled, and what was copied or removed is to be brought or taken away"]
pub struct Passed {
    start: usize,
    answers: Vec<Answer>,
    looked_at: usize,
}

impl Passed {
    /// What it says of a row; `None` outside its subtree.
    #[must_use]
    pub fn answer(&self, row: usize) -> Option<Answer> {
        self.answers.get(row.checked_sub(self.start)?).copied()
    }

    /// All its rows in order, and what it says of each.
    pub fn iter(&self) -> impl Iterator<Item = (usize, Answer)> + '_ {
        (self.start..).zip(self.answers.iter().copied())
    }

    /// The rows to be settled.
    pub fn conflicts(&self) -> impl Iterator<Item = usize> + '_ {
        self.iter()
            .filter(|&(_, answer)| answer == Answer::Conflict)
            .map(|(row, _)| row)
    }

    /// How many rows were looked at: those not beneath a folder that was passed over.
    #[must_use]
    pub fn looked_at(&self) -> usize {
        self.looked_at
    }
}

/// How a conflict is settled. Whichever it is, the target's sheet has a new stamp.
#[derive(Clone, Copy, Debug, PartialEq, Eq, Hash)]
pub enum Choice {
    /// The target takes the source's sheet, or its removal.
    Theirs,
    /// The target's sheet, or its removal, stays.
    Own,
    /// The target's sheet is live and holds this.
    New(Content),
}

/// The row that stands if a source is passed to a target.
#[derive(Clone, Copy, Debug, PartialEq, Eq)]
#[must_use]
pub enum Standing<'a> {
    /// The source's: the rules say copy or remove.
    Source(Row<'a>),
    /// The target's.
    Target(Row<'a>),
    /// None: the rules say conflict.
    Conflict,
}

/// Passes a row of the source, and all beneath it, to the target.
///
/// The target's sheets and times are brought up to date, but for conflicts, which change nothing.
///
/// ```
/// use kettleflock::{pass, Answer, Columns, Content, Plan, Table};
///
/// let plan = Plan::folder([Plan::folder([Plan::sheet(), Plan::sheet()]), Plan::sheet()]);
/// let mut desk = Table::new(Columns::Eight, 0, &plan)?;
/// let mut tablet = Table::new(Columns::Eight, 1, &plan)?;
/// desk.create(2, Content { mark: 700, class: 0 })?;
///
/// let passed = pass(&desk, &mut tablet, 0)?;
/// assert_eq!(passed.answer(2), Some(Answer::Copy));
/// assert_eq!(passed.looked_at(), 5);
///
/// // The same again has nothing to do, and looks at the root alone.
/// let passed = pass(&desk, &mut tablet, 0)?;
/// assert_eq!(passed.answer(0), Some(Answer::PassedOver));
/// assert_eq!(passed.looked_at(), 1);
/// # Ok::<(), kettleflock::Refusal>(())
/// ```
///
/// # Errors
///
/// The tables differ in columns ([`Refusal::Width`]) or in their trees ([`Refusal::PlacesDiffer`]), or are of one device
/// ([`Refusal::OneDevice`]); one of them knows of a later time of the other than the other itself, which was put back to
/// an older copy ([`Refusal::SourceAhead`], [`Refusal::TargetAhead`]); there is no such row ([`Refusal::NoSuchRow`]).
pub fn pass(source: &Table, target: &mut Table, row: usize) -> Result<Passed, Refusal> {
    let size = target.row(row).map_or(0, |row| row.size());
    let mut answers = vec![0; size];
    let looked_at = succeed(raw::pass(
        source.words(),
        target.words_mut(),
        number(row),
        &mut answers,
    ))?;
    Ok(Passed {
        start: row,
        answers: answers.into_iter().map(Answer::from_number).collect(),
        looked_at: looked_at as usize,
    })
}

/// Settles a conflict in the target, so that it does not come back. Gives the count of the new stamp.
///
/// ```
/// use kettleflock::{pass, settle, Choice, Columns, Content, Plan, Table};
///
/// let plan = Plan::folder([Plan::sheet()]);
/// let mut desk = Table::new(Columns::Eight, 0, &plan)?;
/// let mut tablet = Table::new(Columns::Eight, 1, &plan)?;
/// desk.create(1, Content { mark: 10, class: 0 })?;
/// tablet.create(1, Content { mark: 20, class: 0 })?;
///
/// let conflicts: Vec<usize> = pass(&desk, &mut tablet, 0)?.conflicts().collect();
/// assert_eq!(conflicts, [1]);
/// let new = Choice::New(Content { mark: 30, class: 0 });
/// assert_eq!(settle(&desk, &mut tablet, 1, new)?, 2);
/// assert_eq!(pass(&desk, &mut tablet, 0)?.conflicts().count(), 0);
/// # Ok::<(), kettleflock::Refusal>(())
/// ```
///
/// Two settlements of one conflict that don't know of each other are a conflict again:
///
/// ```
/// use kettleflock::{pass, settle, Choice, Columns, Content, Plan, Table};
///
/// let plan = Plan::folder([Plan::sheet()]);
/// let mut desk = Table::new(Columns::Eight, 0, &plan)?;
/// let mut tablet = Table::new(Columns::Eight, 1, &plan)?;
/// desk.create(1, Content { mark: 10, class: 0 })?;
/// tablet.create(1, Content { mark: 20, class: 0 })?;
///
/// let before = tablet.clone();
/// settle(&desk, &mut tablet, 1, Choice::Own)?;
/// settle(&before, &mut desk, 1, Choice::Own)?;
/// assert_eq!(pass(&desk, &mut tablet, 0)?.conflicts().count(), 1);
/// # Ok::<(), kettleflock::Refusal>(())
/// ```
///
/// # Errors
///
/// Those of [`pass`]; there is no such class ([`Refusal::NoSuchClass`]) or no mark ([`Refusal::NoMark`]) for a new sheet; the
/// row is a folder ([`Refusal::Unfit`]); the rules don't say conflict there ([`Refusal::NoConflict`]); the device has no
/// next count ([`Refusal::CounterFull`]).
pub fn settle(
    source: &Table,
    target: &mut Table,
    row: usize,
    choice: Choice,
) -> Result<u32, Refusal> {
    let (choice, content) = match choice {
        Choice::Theirs => (1, Content::IGNORED),
        Choice::Own => (2, Content::IGNORED),
        Choice::New(content) => (3, content),
    };
    let answer = raw::settle(
        source.words(),
        target.words_mut(),
        number(row),
        choice,
        content.mark,
        content.class,
    );
    succeed(answer)
}

/// The row that stands if the source is passed to the target. Nothing is changed.
///
/// ```
/// use kettleflock::{standing, Columns, Content, Plan, Standing, Table};
///
/// let plan = Plan::folder([Plan::sheet()]);
/// let mut desk = Table::new(Columns::Eight, 0, &plan)?;
/// let tablet = Table::new(Columns::Eight, 1, &plan)?;
/// desk.create(1, Content { mark: 10, class: 0 })?;
///
/// assert!(matches!(standing(&desk, &tablet, 1)?, Standing::Source(_)));
/// assert!(matches!(standing(&tablet, &desk, 1)?, Standing::Target(_)));
/// # Ok::<(), kettleflock::Refusal>(())
/// ```
///
/// # Errors
///
/// Those of [`pass`]; the row is a folder ([`Refusal::Unfit`]).
pub fn standing<'a>(
    source: &'a Table,
    target: &'a Table,
    row: usize,
) -> Result<Standing<'a>, Refusal> {
    succeed(raw::standing(source.words(), target.words(), number(row)))?;
    let side = raw::standing_side(source.words(), target.words(), number(row));
    let stands = match side {
        1 => source.row(row).map(Standing::Source),
        2 => target.row(row).map(Standing::Target),
        _ => None,
    };
    Ok(stands.unwrap_or(Standing::Conflict))
}
