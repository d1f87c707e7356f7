//! The history: what happened, kept as sets of events. It is what the tables must agree with.
//!
//! For each device and each sheet it keeps the last event, the birth and the set of events taken into account,
//! and nothing else: no vector, no folder, no time. An event is named by its device and by how many-th event of
//! that device it is; so the history counts each device's own events, which is a way of naming them and says
//! nothing about what anybody knows. The kind of a sheet is kept with its last event, since the rules read it.
//!
//! Widening a table is no event and moves no set, so nothing here knows of widths.
//!
//! Nothing here is shared with the code that works on tables, the six rules included.

use std::collections::{BTreeMap, BTreeSet};
use std::ops::Range;

/// The name of an event: its device, and how many-th event of that device it is, from 1.
#[derive(Clone, Copy, Debug, PartialEq, Eq, PartialOrd, Ord, Hash)]
pub struct Event {
    /// Where it happened.
    pub device: u32,
    /// How many events had happened there, this one included.
    pub count: u32,
}

/// What has become of a sheet on one device.
#[derive(Clone, Copy, Debug, PartialEq, Eq)]
pub enum State {
    /// Nothing has happened to it.
    Never,
    /// It is there.
    Live {
        /// Its last event.
        last: Event,
        /// The event that created it.
        birth: Event,
    },
    /// It was there.
    Removed {
        /// Its last event.
        last: Event,
    },
}

/// A sheet on one device.
#[derive(Clone, Debug, PartialEq, Eq)]
pub struct Sheet {
    /// What has become of it, and by which event.
    pub state: State,
    /// The events of this sheet that the device has taken into account.
    pub taken: BTreeSet<Event>,
}

/// What a user does to a sheet.
#[derive(Clone, Copy, Debug, PartialEq, Eq)]
pub enum Act {
    /// Event 1.
    Create,
    /// Event 2.
    Change,
    /// Event 3.
    Remove,
}

/// How a conflict is settled.
#[derive(Clone, Copy, Debug, PartialEq, Eq)]
pub enum Choice {
    /// Choice 1.
    Theirs,
    /// Choice 2.
    Own,
    /// Choice 3.
    New,
}

/// What the six rules say of a sheet.
#[derive(Clone, Copy, Debug, PartialEq, Eq)]
pub enum Ruling {
    /// The target's sheet stays.
    Keep,
    /// Also called keep: the target's sheet, never used or removed, takes the source's removal.
    KeepRemoval,
    /// The target takes the source's live sheet.
    Copy,
    /// The target takes the source's removal.
    Remove,
    /// Somebody has to settle it.
    Conflict,
}

impl Ruling {
    /// The number in an answer list.
    pub fn answer(self) -> u32 {
        match self {
            Ruling::Keep | Ruling::KeepRemoval => 0,
            Ruling::Copy => 1,
            Ruling::Remove => 2,
            Ruling::Conflict => 3,
        }
    }

    /// This ruling if the two sides agree, and else a conflict.
    fn if_agreed(self, agreed: bool) -> Ruling {
        if agreed {
            self
        } else {
            Ruling::Conflict
        }
    }
}

/// One device: the events that happened on it, counted, and its sheets by row.
#[derive(Clone, Debug, PartialEq, Eq)]
struct Device {
    events: u32,
    sheets: BTreeMap<usize, Sheet>,
}

/// The history of all devices, numbered from 0.
#[derive(Clone, Debug, PartialEq, Eq)]
pub struct History {
    devices: Vec<Device>,
}

impl State {
    /// The same by another event.
    fn by(self, last: Event) -> State {
        match self {
            State::Never => State::Never,
            State::Live { birth, .. } => State::Live { last, birth },
            State::Removed { .. } => State::Removed { last },
        }
    }

    /// The event that created it, if it is there.
    fn birth(self) -> Option<Event> {
        match self {
            State::Live { birth, .. } => Some(birth),
            State::Never | State::Removed { .. } => None,
        }
    }
}

impl Sheet {
    fn unused() -> Sheet {
        Sheet {
            state: State::Never,
            taken: BTreeSet::new(),
        }
    }

    fn has_taken(&self, event: Event) -> bool {
        self.taken.contains(&event)
    }
}

impl Device {
    /// The name of an event that happens now.
    fn next_event(&mut self, device: usize) -> Event {
        self.events += 1;
        Event {
            device: device as u32,
            count: self.events,
        }
    }
}

impl History {
    /// The history before any event, of this many devices with sheets in these rows.
    pub fn new(devices: usize, sheets: &[usize]) -> History {
        let device = Device {
            events: 0,
            sheets: sheets.iter().map(|&row| (row, Sheet::unused())).collect(),
        };
        History {
            devices: vec![device; devices],
        }
    }

    /// A sheet on a device. Here as in all that follows, it is a mistake to name a device or a sheet that is not
    /// there, and a panic.
    pub fn sheet(&self, device: usize, row: usize) -> &Sheet {
        &self.devices[device].sheets[&row]
    }

    /// The sheets of a device, by row.
    pub fn sheets(&self, device: usize) -> impl Iterator<Item = (usize, &Sheet)> {
        let sheets = &self.devices[device].sheets;
        sheets.iter().map(|(&row, sheet)| (row, sheet))
    }

    /// An event on a device; gives its count. `None`, and nothing has happened, where it does not fit the sheet.
    pub fn event(&mut self, device: usize, row: usize, act: Act) -> Option<u32> {
        let birth = match (act, self.sheet(device, row).state) {
            (Act::Create, State::Never | State::Removed { .. }) => None,
            (Act::Change | Act::Remove, State::Live { birth, .. }) => Some(birth),
            _ => return None,
        };
        let last = self.devices[device].next_event(device);
        let state = match act {
            Act::Remove => State::Removed { last },
            Act::Create | Act::Change => State::Live {
                last,
                birth: birth.unwrap_or(last),
            },
        };
        let sheet = self.sheet_mut(device, row);
        sheet.state = state;
        sheet.taken.insert(last);
        Some(last.count)
    }

    /// A pass over every sheet in these rows, whatever folders lie among them. Gives each sheet's ruling by row.
    pub fn pass(
        &mut self,
        source: usize,
        target: usize,
        rows: Range<usize>,
    ) -> BTreeMap<usize, Ruling> {
        let sheets = self.devices[source].sheets.range(rows);
        let rows: Vec<usize> = sheets.map(|(&row, _)| row).collect();
        rows.into_iter()
            .map(|row| (row, self.pass_sheet(source, target, row)))
            .collect()
    }

    /// Settles a conflict on the target, by an event that knows of both sides; gives its count. `None`, and nothing has
    /// happened, where there is no conflict.
    pub fn settle(
        &mut self,
        source: usize,
        target: usize,
        row: usize,
        choice: Choice,
    ) -> Option<u32> {
        if self.ruling(source, target, row) != Ruling::Conflict {
            return None;
        }
        let [theirs, own] = [source, target].map(|device| self.sheet(device, row).state);
        let last = self.devices[target].next_event(target);
        let state = match choice {
            Choice::Theirs => theirs.by(last),
            Choice::Own => own.by(last),
            Choice::New => State::Live {
                last,
                birth: own.birth().or(theirs.birth()).unwrap_or(last),
            },
        };
        self.join(source, target, row);
        let sheet = self.sheet_mut(target, row);
        sheet.state = state;
        sheet.taken.insert(last);
        Some(last.count)
    }

    /// The first of the six rules that fits, with "in the set" for "covered".
    pub fn ruling(&self, source: usize, target: usize, row: usize) -> Ruling {
        let (a, b) = (self.sheet(source, row), self.sheet(target, row));
        match (a.state, b.state) {
            // 1
            (State::Never, _) => Ruling::Keep,
            (State::Live { last, .. } | State::Removed { last }, _) if b.has_taken(last) => {
                Ruling::Keep
            }
            // 2
            (State::Live { .. }, State::Never) => Ruling::Copy,
            (State::Removed { .. }, State::Never) => Ruling::KeepRemoval,
            // 3
            (State::Removed { .. }, State::Removed { last }) if a.has_taken(last) => {
                Ruling::KeepRemoval
            }
            (State::Removed { .. }, State::Removed { .. }) => Ruling::Keep,
            // 4
            (State::Live { .. }, State::Live { last, .. }) => {
                Ruling::Copy.if_agreed(a.has_taken(last))
            }
            // 5
            (State::Live { birth, .. }, State::Removed { last }) => {
                Ruling::Copy.if_agreed(a.has_taken(last) || !b.has_taken(birth))
            }
            // 6
            (State::Removed { .. }, State::Live { birth, .. }) if !a.has_taken(birth) => {
                Ruling::Keep
            }
            (State::Removed { .. }, State::Live { last, .. }) => {
                Ruling::Remove.if_agreed(a.has_taken(last))
            }
        }
    }

    fn sheet_mut(&mut self, device: usize, row: usize) -> &mut Sheet {
        let sheets = &mut self.devices[device].sheets;
        sheets.get_mut(&row).expect("the device has the sheet")
    }

    /// Does to one sheet of the target what the rules say.
    fn pass_sheet(&mut self, source: usize, target: usize, row: usize) -> Ruling {
        let ruling = self.ruling(source, target, row);
        if matches!(ruling, Ruling::KeepRemoval | Ruling::Copy | Ruling::Remove) {
            self.sheet_mut(target, row).state = self.sheet(source, row).state;
        }
        if ruling != Ruling::Conflict {
            self.join(source, target, row);
        }
        ruling
    }

    /// The target takes into account whatever the source has.
    fn join(&mut self, source: usize, target: usize, row: usize) {
        let taken = self.sheet(source, row).taken.clone();
        self.sheet_mut(target, row).taken.extend(taken);
    }
}
