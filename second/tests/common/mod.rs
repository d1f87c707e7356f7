//! What the tests share: the numbers of the calls, and a desk with several devices.

// Each test file is a program of its own and uses its own part of this.
#![allow(dead_code, unused_imports)]

use std::ops::Range;

pub use second::layout::{head, word, Kind, Time, Width, LAST_CLASS, MOST_ROWS};
pub use second::trial::look::*;
pub use second::trial::{plans, two_of, Random};
pub use second::{Answer, Content, Masks, Vector};

/// The plan of the marked sheets.
pub const PLAN: [u32; 5] = [5, 3, 0, 0, 0];

pub const KEEP: u32 = 0;
pub const COPY: u32 = 1;
pub const REMOVE: u32 = 2;
pub const CONFLICT: u32 = 3;
pub const WALKED: u32 = 4;
pub const PASSED_OVER: u32 = 5;

pub const CREATE: u32 = 1;
pub const CHANGE: u32 = 2;
pub const REMOVAL: u32 = 3;

pub const THEIRS: u32 = 1;
pub const OWN: u32 = 2;
pub const NEW: u32 = 3;

pub fn done(count: u32) -> Answer {
    Answer { number: 0, count }
}

pub fn refused(number: u32) -> Answer {
    Answer { number, count: 0 }
}

/// What is said of a conflict, or with masks of 0 of a refusal.
pub fn masks(number: u32, source: u32, target: u32) -> Masks {
    Masks {
        number,
        source,
        target,
    }
}

/// The number of the call that says who is ahead: each mask is 0 exactly where it is refused.
pub fn ahead_number(source: &[u32], target: &[u32], row: u32) -> Answer {
    let Masks {
        number,
        source,
        target,
    } = second::ahead(source, target, row);
    assert_eq!([source, target].map(|mask| mask == 0), [number != 0; 2]);
    Answer { number, count: 0 }
}

/// A new table, by the call.
pub fn new_table(width: Width, device: u32, plan: &[u32]) -> Vec<u32> {
    let mut table = vec![u32::MAX; width.length(plan.len())];
    let answer = second::new(width.columns() as u32, device, plan, &mut table);
    assert_eq!(answer, done(plan.len() as u32), "a new table of {plan:?}");
    table
}

/// A narrow table widened, by the call.
pub fn widened(table: &[u32]) -> Vec<u32> {
    let mut wide = vec![u32::MAX; Width::Wide.length(rows(table))];
    assert_eq!(second::widen(table, &mut wide), done(table[head::ROWS]));
    wide
}

/// Some devices with a table each. Each call must succeed, and leaves sound tables behind.
pub struct Desk {
    pub tables: Vec<Vec<u32>>,
}

impl Desk {
    /// New devices of these numbers and one width.
    pub fn fresh(width: Width, devices: Range<u32>, plan: &[u32]) -> Desk {
        Desk {
            tables: devices
                .map(|device| new_table(width, device, plan))
                .collect(),
        }
    }

    /// An event on a device, with class 0; gives its count.
    pub fn event(&mut self, device: usize, row: usize, event: u32, mark: u32) -> u32 {
        self.event_with(device, row, event, Content { mark, class: 0 })
    }

    /// An event on a device; gives its count.
    pub fn event_with(&mut self, device: usize, row: usize, event: u32, content: Content) -> u32 {
        let Content { mark, class } = content;
        let before = self.tables[device][head::COUNTER];
        let answer = second::event(&mut self.tables[device], row as u32, event, mark, class);
        assert_eq!(answer, done(before + 1), "event {event} at row {row}");
        assert_sound(&self.tables[device]);
        answer.count
    }

    /// A pass; gives its list and the rows looked at.
    pub fn pass(&mut self, source: usize, target: usize, row: usize) -> (Vec<u32>, u32) {
        let mut answers = vec![u32::MAX; size(&self.tables[target], row)];
        let (source, target) = pair(&mut self.tables, source, target);
        let answer = second::pass(source, target, row as u32, &mut answers);
        assert_eq!(answer.number, 0, "a pass at row {row}");
        assert_sound(target);
        (answers, answer.count)
    }

    /// A settling, with class 0; gives the count of the new stamp.
    pub fn settle(
        &mut self,
        source: usize,
        target: usize,
        row: usize,
        choice: u32,
        mark: u32,
    ) -> u32 {
        self.settle_with(source, target, row, choice, Content { mark, class: 0 })
    }

    /// A settling; gives the count of the new stamp.
    pub fn settle_with(
        &mut self,
        source: usize,
        target: usize,
        row: usize,
        choice: u32,
        content: Content,
    ) -> u32 {
        let Content { mark, class } = content;
        let (source, target) = pair(&mut self.tables, source, target);
        let before = target[head::COUNTER];
        let answer = second::settle(source, target, row as u32, choice, mark, class);
        assert_eq!(
            answer,
            done(before + 1),
            "settling by {choice} at row {row}"
        );
        assert_sound(target);
        answer.count
    }

    /// Who is ahead at a sheet.
    pub fn ahead(&self, source: usize, target: usize, row: usize) -> Masks {
        second::ahead(&self.tables[source], &self.tables[target], row as u32)
    }

    /// A device's table becomes wide.
    pub fn widen(&mut self, device: usize) {
        self.tables[device] = widened(&self.tables[device]);
        assert_sound(&self.tables[device]);
    }
}

/// Raises one column of a row's floor beyond all else. The table stays sound, but for the own column.
pub fn raise(table: &mut [u32], row: usize, column: u32, count: u32) {
    let floor = vector(table, row, Time::Floor);
    let raised = floor.count(column).max(count);
    set_vector(table, row, Time::Floor, floor.with(column, raised));
    mend(table);
}

/// Two different tables, the second to be changed.
pub fn pair(tables: &mut [Vec<u32>], source: usize, target: usize) -> (&[u32], &mut [u32]) {
    assert_ne!(source, target);
    let (low, high) = tables.split_at_mut(source.max(target));
    if source < target {
        (&low[source], &mut high[0])
    } else {
        (&high[0], &mut low[target])
    }
}

pub fn assert_sound(table: &[u32]) {
    assert_eq!(
        second::check(table),
        done(table[head::ROWS]),
        "a sound table"
    );
}
