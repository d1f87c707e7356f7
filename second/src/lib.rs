//! A second program of the sheet synchronizer's calls.
//!
//! It is written from the paper alone and shares no code with anything, so that it can be held beside another
//! program of the same calls. It takes the plainest way everywhere: words are read into a table, the table is
//! judged whole, a row's path is walked from the root each time it is needed, and summaries are worked out
//! from nothing. Words are written back only when a call has succeeded, so a refusal changes none.
//!
//! A table is narrow or wide, with eight or sixteen columns, as its head says ([`layout`]). In all that is done to a
//! table its vectors have sixteen columns, and those that a narrow table doesn't have are zero.
//!
//! Every call works on word slices and gives an [`Answer`]: the refusal's number, or 0, and a count; or [`Masks`] in place
//! of a count. [`trial`] serves those who try the calls out.
//!
//! ```
//! let plan = [5, 3, 0, 0, 0];
//! let (mut desk, mut tablet) = ([0; 240], [0; 240]);
//! second::new(8, 0, &plan, &mut desk);
//! second::new(8, 1, &plan, &mut tablet);
//! assert_eq!(second::event(&mut desk, 2, 1, 700, 0).count, 1);
//!
//! let mut answers = [0; 5];
//! let answer = second::pass(&desk, &mut tablet, 0, &mut answers);
//! assert_eq!((answer.number, answer.count), (0, 5));
//! assert_eq!(answers, [4, 4, 1, 0, 0]);
//! ```

pub mod history;
pub mod layout;
pub mod trial;

mod order;
mod pass;
mod refusal;
mod rules;
mod sound;
mod table;
mod times;
mod vector;
mod work;

use std::ops::Range;

use refusal::Refusal;
use rules::Ruling;
use table::Table;
use work::{Choice, Event};

pub use layout::Width;
pub use table::Content;
pub use vector::{Stamp, Vector};

/// What a call says: the number of the refusal, or 0 for success; and a count, 0 on a refusal.
#[derive(Clone, Copy, Debug, PartialEq, Eq, Hash)]
#[repr(C)]
pub struct Answer {
    /// 0, or why the call was refused.
    pub number: u32,
    /// What the call counts: see each call.
    pub count: u32,
}

impl Answer {
    /// The answer of a call that succeeded with a count, or was refused.
    fn of(result: Result<u32, Refusal>) -> Answer {
        match result {
            Ok(count) => Answer { number: 0, count },
            Err(refusal) => Answer {
                number: refusal.number(),
                count: 0,
            },
        }
    }
}

/// Who is ahead in a conflict, bit d of a mask standing for device d: both masks are 0 on a refusal.
#[derive(Clone, Copy, Debug, PartialEq, Eq, Hash)]
#[repr(C)]
pub struct Masks {
    /// 0, or why the call was refused.
    pub number: u32,
    /// The devices of whom the source knows a later count.
    pub source: u32,
    /// The devices of whom the target knows a later count.
    pub target: u32,
}

/// In whose table the row that stands lies.
#[derive(Clone, Copy, Debug, PartialEq, Eq, Hash)]
#[repr(u32)]
pub enum Side {
    /// In neither: the call is refused, or there is a conflict.
    None = 0,
    /// In the source's.
    Source = 1,
    /// In the target's.
    Target = 2,
}

/// Judges a table; counts its rows.
pub fn check(table: &[u32]) -> Answer {
    Answer::of(try_check(table))
}

/// Makes a new table with 8 or 16 columns from a plan, a number a row: 0 for a sheet, k for a folder of size k.
/// Counts its rows.
pub fn new(columns: u32, device: u32, plan: &[u32], table: &mut [u32]) -> Answer {
    Answer::of(try_new(columns, device, plan, table))
}

/// Makes a table with 16 columns of one with 8: the same events, and zeros in the new columns. Counts its rows.
pub fn widen(table: &[u32], wide: &mut [u32]) -> Answer {
    Answer::of(try_widen(table, wide))
}

/// Creates (1), changes (2) or removes (3) a sheet; counts the new stamp. A removal ignores mark and class.
pub fn event(table: &mut [u32], row: u32, event: u32, mark: u32, class: u32) -> Answer {
    Answer::of(try_event(table, row, event, Content { mark, class }))
}

/// Passes the subtree that starts at a row from source to target. Counts the rows looked at.
///
/// `answers` gets a number for each row of the subtree: 0 keep, 1 copy, 2 remove, 3 conflict, 4 walked,
/// 5 passed over.
pub fn pass(source: &[u32], target: &mut [u32], row: u32, answers: &mut [u32]) -> Answer {
    Answer::of(try_pass(source, target, row, answers))
}

/// Settles a conflict by theirs (1), own (2) or new (3); counts the new stamp. Theirs and own ignore mark and class.
pub fn settle(
    source: &[u32],
    target: &mut [u32],
    row: u32,
    choice: u32,
    mark: u32,
    class: u32,
) -> Answer {
    let content = Content { mark, class };
    Answer::of(try_settle(source, target, row, choice, content))
}

/// Shows all rows beneath a folder: the words of the table in which they lie. Counts these words.
///
/// The range is empty where the folder is, and on a refusal.
pub fn beneath(table: &[u32], row: u32) -> (Answer, Range<usize>) {
    let part = try_beneath(table, row);
    let count = part.clone().map(|words| words.len() as u32);
    (Answer::of(count), part.unwrap_or(0..0))
}

/// Shows the row that stands, and says in whose table it lies. Counts its words, 0 on a conflict.
pub fn standing(source: &[u32], target: &[u32], row: u32) -> (Answer, Side) {
    let stands = try_standing(source, target, row);
    let count = stands.map(|(side, width)| match side {
        Side::None => 0,
        Side::Source | Side::Target => width.row() as u32,
    });
    let side = stands.map_or(Side::None, |(side, _)| side);
    (Answer::of(count), side)
}

/// Says who is ahead at a sheet in conflict: by its known time in the source, and by that in the target.
pub fn ahead(source: &[u32], target: &[u32], row: u32) -> Masks {
    let (number, [source, target]) = match try_ahead(source, target, row) {
        Ok(masks) => (0, masks),
        Err(refusal) => (refusal.number(), [0; 2]),
    };
    Masks {
        number,
        source,
        target,
    }
}

fn try_check(words: &[u32]) -> Result<u32, Refusal> {
    let table = sound::read(words).map_err(Refusal::Source)?;
    Ok(table.rows.len() as u32)
}

fn try_new(columns: u32, device: u32, plan: &[u32], words: &mut [u32]) -> Result<u32, Refusal> {
    write(&work::new(columns, device, plan)?, words)
}

fn try_widen(words: &[u32], wide: &mut [u32]) -> Result<u32, Refusal> {
    let table = sound::read(words).map_err(Refusal::Source)?;
    write(&work::widen(table)?, wide)
}

/// Writes a table into words that have its length; counts its rows.
fn write(table: &Table, words: &mut [u32]) -> Result<u32, Refusal> {
    let rows = table.rows.len();
    if words.len() != table.width.length(rows) {
        return Err(Refusal::WrongLength);
    }
    words.copy_from_slice(&table.words());
    Ok(rows as u32)
}

fn try_event(words: &mut [u32], row: u32, event: u32, content: Content) -> Result<u32, Refusal> {
    let mut table = sound::read(words).map_err(Refusal::Source)?;
    let event = Event::read(event, content)?;
    let row = sound::find(&table, row)?;
    let count = work::event(&mut table, row, event)?;
    words.copy_from_slice(&table.words());
    Ok(count)
}

fn try_pass(
    source: &[u32],
    target_words: &mut [u32],
    row: u32,
    answers: &mut [u32],
) -> Result<u32, Refusal> {
    let (source, target) = sound::read_pair(source, target_words)?;
    let row = sound::find(&target, row)?;
    if answers.len() != target.rows[row].size {
        return Err(Refusal::WrongLength);
    }
    let passed = pass::pass(&source, &target, row);
    target_words.copy_from_slice(&passed.target.words());
    answers.copy_from_slice(&passed.answers);
    Ok(passed.looked_at)
}

fn try_settle(
    source: &[u32],
    target_words: &mut [u32],
    row: u32,
    choice: u32,
    content: Content,
) -> Result<u32, Refusal> {
    let (source, mut target) = sound::read_pair(source, target_words)?;
    let row = sound::find(&target, row)?;
    let choice = Choice::read(choice, content)?;
    let count = work::settle(&source, &mut target, row, choice)?;
    target_words.copy_from_slice(&target.words());
    Ok(count)
}

fn try_beneath(words: &[u32], row: u32) -> Result<Range<usize>, Refusal> {
    let table = sound::read(words).map_err(Refusal::Source)?;
    let row = sound::find(&table, row)?;
    if !table.rows[row].is_folder() {
        return Err(Refusal::NoSuchRow);
    }
    Ok(table.words_of(table.beneath(row)))
}

/// In whose table the row that stands lies, and the width of both.
fn try_standing(source: &[u32], target: &[u32], row: u32) -> Result<(Side, Width), Refusal> {
    let (source, target) = sound::read_pair(source, target)?;
    let row = sound::find(&target, row)?;
    if target.rows[row].is_folder() {
        return Err(Refusal::Unfit);
    }
    let side = match rules::ruling(&source, &target, row) {
        Ruling::Copy | Ruling::Remove => Side::Source,
        Ruling::Keep | Ruling::KeepRemoval => Side::Target,
        Ruling::Conflict => Side::None,
    };
    Ok((side, target.width))
}

fn try_ahead(source: &[u32], target: &[u32], row: u32) -> Result<[u32; 2], Refusal> {
    let (source, target) = sound::read_pair(source, target)?;
    let row = sound::find(&target, row)?;
    work::find_conflict(&source, &target, row)?;
    let [a, b] = [&source, &target].map(|table| times::known(table, row));
    Ok([a.ahead_of(&b), b.ahead_of(&a)])
}
