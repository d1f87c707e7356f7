//! Local work: new tables, events, and settling a conflict.

use crate::layout::{Kind, Width, LAST_CLASS, MOST_ROWS};
use crate::order::{self, Place};
use crate::refusal::Refusal;
use crate::rules::{self, Ruling};
use crate::table::{Content, Row, Table};
use crate::times;
use crate::vector::Stamp;

/// What a user does to a sheet.
#[derive(Clone, Copy, Debug, PartialEq, Eq)]
pub enum Event {
    Create(Content),
    Change(Content),
    Remove,
}

impl Event {
    /// The event of this number, with the content if it takes one.
    pub fn read(number: u32, content: Content) -> Result<Event, Refusal> {
        match number {
            1 => taken(content).map(Event::Create),
            2 => taken(content).map(Event::Change),
            3 => Ok(Event::Remove),
            _ => Err(Refusal::NoSuchChoice),
        }
    }

    /// Whether it can happen to a row of this kind.
    fn fits(self, kind: Kind) -> bool {
        match self {
            Event::Create(_) => matches!(kind, Kind::Never | Kind::Removed),
            Event::Change(_) | Event::Remove => kind == Kind::Live,
        }
    }
}

/// How a conflict is settled.
#[derive(Clone, Copy, Debug, PartialEq, Eq)]
pub enum Choice {
    Theirs,
    Own,
    New(Content),
}

impl Choice {
    /// The choice of this number, with the content if it takes one.
    pub fn read(number: u32, content: Content) -> Result<Choice, Refusal> {
        match number {
            1 => Ok(Choice::Theirs),
            2 => Ok(Choice::Own),
            3 => taken(content).map(Choice::New),
            _ => Err(Refusal::NoSuchChoice),
        }
    }
}

/// The content that a call takes, if it may.
fn taken(content: Content) -> Result<Content, Refusal> {
    if content.class > LAST_CLASS {
        return Err(Refusal::NoSuchClass);
    }
    if content.mark == 0 {
        return Err(Refusal::NoMark);
    }
    Ok(content)
}

/// A new table of a device with so many columns, from a plan.
pub fn new(columns: u32, device: u32, plan: &[u32]) -> Result<Table, Refusal> {
    let width = Width::of_columns(columns).ok_or(Refusal::WrongWidth)?;
    if !width.has(device) {
        return Err(Refusal::NoSuchDevice);
    }
    let places: Vec<Place> = plan.iter().map(|&number| Place::of_plan(number)).collect();
    if places.len() > MOST_ROWS || !order::is_kept(&places) {
        return Err(Refusal::BadPlan);
    }
    let fresh = |place: Place| {
        let kind = if place.folder {
            Kind::Folder
        } else {
            Kind::Never
        };
        Row::fresh(kind, place.size)
    };
    Ok(Table {
        width,
        device,
        counter: 0,
        rows: places.into_iter().map(fresh).collect(),
    })
}

/// The same table with sixteen columns, zeros in the new ones.
pub fn widen(table: Table) -> Result<Table, Refusal> {
    match table.width {
        Width::Narrow => Ok(Table {
            width: Width::Wide,
            ..table
        }),
        Width::Wide => Err(Refusal::WrongWidth),
    }
}

/// The next stamp of the table's device, its counter having gone up by one.
fn next_stamp(table: &mut Table) -> Result<Stamp, Refusal> {
    table.counter = table.counter.checked_add(1).ok_or(Refusal::CounterFull)?;
    Ok(Stamp {
        device: table.device,
        count: table.counter,
    })
}

/// Does an event to a sheet and gives the count of its stamp.
pub fn event(table: &mut Table, row: usize, event: Event) -> Result<u32, Refusal> {
    if !event.fits(table.rows[row].kind) {
        return Err(Refusal::Unfit);
    }
    let stamp = next_stamp(table)?;
    let sheet = &mut table.rows[row];
    sheet.stamp = stamp;
    match event {
        Event::Create(content) => {
            sheet.kind = Kind::Live;
            sheet.birth = stamp;
            sheet.content = content;
        }
        Event::Change(content) => sheet.content = content,
        Event::Remove => {
            sheet.kind = Kind::Removed;
            sheet.birth = Stamp::EMPTY;
            sheet.content = Content::NONE;
        }
    }
    times::mend(table);
    Ok(stamp.count)
}

/// Sees that the row is a sheet, and the rules say conflict.
pub fn find_conflict(source: &Table, target: &Table, row: usize) -> Result<(), Refusal> {
    if target.rows[row].is_folder() {
        return Err(Refusal::Unfit);
    }
    match rules::ruling(source, target, row) {
        Ruling::Conflict => Ok(()),
        _ => Err(Refusal::NoConflict),
    }
}

/// Settles the conflict at a sheet and gives the count of the new stamp.
pub fn settle(
    source: &Table,
    target: &mut Table,
    row: usize,
    choice: Choice,
) -> Result<u32, Refusal> {
    find_conflict(source, target, row)?;
    let stamp = next_stamp(target)?;
    let (theirs, sheet) = (&source.rows[row], &mut target.rows[row]);
    match choice {
        Choice::Theirs => sheet.take(theirs),
        Choice::Own => (),
        Choice::New(content) => renew(sheet, theirs, content),
    }
    sheet.stamp = stamp;
    times::raise(target, row, times::known(source, row));
    times::mend(target);
    Ok(stamp.count)
}

/// Makes a sheet live with the content given; its birth stays if it was live, and else is theirs.
fn renew(sheet: &mut Row, theirs: &Row, content: Content) {
    if sheet.kind != Kind::Live {
        sheet.kind = Kind::Live;
        sheet.birth = theirs.birth;
    }
    sheet.content = content;
}
