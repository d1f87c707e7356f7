//! The history of a run, held against its tables.

use std::collections::{BTreeMap, BTreeSet};

use second::history::{Event, History, State};
use second::layout::Kind;
use second::trial::look::{birth, content_of, kind, known, stamp};
use second::Content;

/// The history of a run's devices, and the counts at which its names of events start.
pub struct Record {
    /// What happened.
    pub history: History,
    /// The rows that are sheets.
    pub sheets: Vec<usize>,
    /// Each device's counter at the start: the history names its first event 1.
    counters: Vec<u32>,
    /// What each event gave its sheet, by its stamp.
    contents: BTreeMap<(u32, u32), Content>,
}

impl Record {
    /// The record before any event: each device's counter, and the sheets.
    pub fn new(counters: Vec<u32>, sheets: Vec<usize>) -> Record {
        Record {
            history: History::new(counters.len(), &sheets),
            sheets,
            counters,
            contents: BTreeMap::new(),
        }
    }

    /// Notes what the event that a device counts so gave its sheet. A call that was refused counts 0.
    pub fn note(&mut self, device: usize, count: u32, content: Content) {
        if count > 0 {
            self.contents.insert((device as u32, count), content);
        }
    }

    /// A device's count of the event that the history counts so.
    pub fn count_of(&self, device: usize, count: u32) -> u32 {
        self.counters[device] + count
    }

    /// The stamp that names an event of the history; that of none is empty.
    fn stamp_of(&self, event: Option<Event>) -> (u32, u32) {
        event.map_or((0, 0), |Event { device, count }| {
            (device, self.count_of(device as usize, count))
        })
    }

    /// A device's table and its history tell the same of every sheet: what it is, by which event, and which events
    /// of the sheet have been taken into account; and a live sheet holds what its event gave it. Else what differs, in
    /// words.
    pub fn agrees(&self, device: usize, table: &[u32]) -> Result<(), String> {
        for &row in &self.sheets {
            let sheet = self.history.sheet(device, row);
            let (is, last, born) = match sheet.state {
                State::Never => (Kind::Never, None, None),
                State::Live { last, birth } => (Kind::Live, Some(last), Some(birth)),
                State::Removed { last } => (Kind::Removed, Some(last), None),
            };
            let is_same = kind(table, row) == is.number()
                && stamp(table, row) == self.stamp_of(last)
                && birth(table, row) == self.stamp_of(born);
            if !is_same {
                return Err(format!(
                    "row {row} of device {device}: the history has {sheet:?}"
                ));
            }
            let holds = content_of(table, row);
            let given = match is {
                Kind::Live => self.contents.get(&stamp(table, row)).copied(),
                _ => Some(Content::NONE),
            };
            if given != Some(holds) {
                return Err(format!(
                    "row {row} of device {device}: {holds:?}, and its event gave it {given:?}"
                ));
            }
            let known = known(table, row);
            for event in self.events_of(row) {
                let (device_of_event, count) = self.stamp_of(Some(event));
                let covered = known.count(device_of_event) >= count;
                if covered != sheet.taken.contains(&event) {
                    return Err(format!(
                        "row {row} of device {device}: covers {event:?}, {covered}, the history has {sheet:?}"
                    ));
                }
            }
        }
        Ok(())
    }

    /// All events of a sheet so far.
    fn events_of(&self, row: usize) -> BTreeSet<Event> {
        (0..self.counters.len())
            .flat_map(|device| self.history.sheet(device, row).taken.iter().copied())
            .collect()
    }
}
