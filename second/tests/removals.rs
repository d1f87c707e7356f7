//! Rule 3, both sheets removed: the target's row takes the source's removal where the source knows the target's.

mod common;

use common::*;
use second::history::{Act, Choice, History, Ruling, State};

/// A root with one sheet.
const ONE_SHEET: [u32; 2] = [2, 0];
const SHEET: usize = 1;

/// Three devices: their tables and their history, which tell the same after every step.
struct Devices {
    desk: Desk,
    history: History,
}

impl Devices {
    fn fresh(width: Width) -> Devices {
        Devices {
            desk: Desk::fresh(width, 0..3, &ONE_SHEET),
            history: History::new(3, &[SHEET]),
        }
    }

    fn event(&mut self, device: usize, event: u32, mark: u32) {
        let count = self.desk.event(device, SHEET, event, mark);
        let act = [Act::Create, Act::Change, Act::Remove][event as usize - 1];
        assert_eq!(self.history.event(device, SHEET, act), Some(count));
        self.assert_agreed(device);
    }

    /// A pass of everything, which has to walk; gives the sheet's answer.
    fn pass(&mut self, source: usize, target: usize) -> u32 {
        let (answers, looked_at) = self.desk.pass(source, target, 0);
        assert_eq!((answers[0], looked_at), (WALKED, 2));
        let said = self.history.pass(source, target, 0..2)[&SHEET];
        assert_eq!(said.answer(), answers[SHEET]);
        self.assert_agreed(target);
        answers[SHEET]
    }

    fn settle_own(&mut self, source: usize, target: usize) {
        let count = self.desk.settle(source, target, SHEET, OWN, 0);
        let said = self.history.settle(source, target, SHEET, Choice::Own);
        assert_eq!(said, Some(count));
        self.assert_agreed(target);
    }

    /// The kind and stamp of the sheet on a device.
    fn sheet(&self, device: usize) -> (u32, (u32, u32)) {
        let table = &self.desk.tables[device];
        (kind(table, SHEET), stamp(table, SHEET))
    }

    /// What the history would say of a pass.
    fn said(&self, source: usize, target: usize) -> Ruling {
        self.history.ruling(source, target, SHEET)
    }

    fn assert_agreed(&self, device: usize) {
        let expected = match self.history.sheet(device, SHEET).state {
            State::Never => (0, (0, 0)),
            State::Live { last, .. } => (1, (last.device, last.count)),
            State::Removed { last } => (2, (last.device, last.count)),
        };
        assert_eq!(self.sheet(device), expected, "device {device}");
    }
}

const DESK: usize = 0;
const TABLET: usize = 1;
const LAPTOP: usize = 2;

/// Desk and tablet have both removed a sheet; the desk has taken in the tablet's removal, filed the sheet anew, handed
/// it to the laptop, and removed it again.
fn refiled(width: Width) -> Devices {
    let mut devices = Devices::fresh(width);
    devices.event(DESK, CREATE, 700);
    assert_eq!(devices.pass(DESK, TABLET), COPY);
    devices.event(DESK, REMOVAL, 0);
    devices.event(TABLET, REMOVAL, 0);
    assert_eq!(devices.said(TABLET, DESK), Ruling::Keep);
    assert_eq!(devices.pass(TABLET, DESK), KEEP);
    assert_eq!(devices.sheet(DESK), (2, (0, 2)));
    devices.event(DESK, CREATE, 701);
    assert_eq!(devices.pass(DESK, LAPTOP), COPY);
    devices.event(DESK, REMOVAL, 0);
    devices
}

#[test]
fn known_removal_gives_way_to_the_later_one() {
    for width in Width::BOTH {
        let mut devices = refiled(width);
        assert_eq!(devices.said(DESK, TABLET), Ruling::KeepRemoval);
        assert_eq!(devices.pass(DESK, TABLET), KEEP);
        assert_eq!(devices.sheet(TABLET), (2, (0, 4)));
        let table = &devices.desk.tables[TABLET];
        assert_eq!((birth(table, SHEET), mark(table, SHEET)), ((0, 0), 0));
        let floor = vector(table, SHEET, Time::Floor);
        assert_eq!(floor, Vector::ZERO.with(0, 4));
        let newest = vector(table, 0, Time::Newest);
        assert_eq!(newest, Vector::ZERO.with(0, 4));
    }
}

#[test]
fn change_of_a_refiled_sheet_meets_its_removal() {
    for width in Width::BOTH {
        let mut devices = refiled(width);
        assert_eq!(devices.pass(DESK, TABLET), KEEP);
        devices.event(LAPTOP, CHANGE, 702);
        assert_eq!(devices.pass(LAPTOP, TABLET), CONFLICT);
        assert_eq!(devices.sheet(TABLET), (2, (0, 4)));
        assert_eq!(devices.pass(LAPTOP, DESK), CONFLICT);
        assert_eq!(devices.sheet(DESK), (2, (0, 4)));
    }
}

#[test]
fn removal_that_the_target_knows_is_not_taken() {
    for width in Width::BOTH {
        let mut devices = refiled(width);
        assert_eq!(devices.pass(DESK, TABLET), KEEP);
        // The desk knows all that the tablet does, so the root is passed over.
        let (answers, _) = devices.desk.pass(TABLET, DESK, 0);
        assert_eq!(answers, [PASSED_OVER, KEEP]);
        assert_eq!(devices.said(TABLET, DESK), Ruling::Keep);
        assert_eq!(devices.sheet(DESK), (2, (0, 4)));
    }
}

/// What the rule doesn't end: two removals, neither of which has heard of the other, are one stamp too many for a row. The
/// change knows the removal that the row kept, and nothing of the other.
#[test]
fn sheet_removed_twice_comes_back_by_a_third_device() {
    for width in Width::BOTH {
        let mut devices = Devices::fresh(width);
        devices.event(0, CREATE, 700);
        assert_eq!([devices.pass(0, 1), devices.pass(0, 2)], [COPY; 2]);
        devices.event(1, REMOVAL, 0);
        devices.event(0, REMOVAL, 0);
        devices.event(2, CHANGE, 701);
        assert_eq!(devices.pass(1, 2), CONFLICT);
        devices.settle_own(1, 2);
        assert_eq!(devices.pass(2, 0), CONFLICT);
        assert_eq!(devices.said(0, 1), Ruling::Keep);
        assert_eq!(devices.pass(0, 1), KEEP);
        assert_eq!(devices.sheet(1), (2, (1, 1)));
        assert_eq!(devices.pass(2, 1), COPY);
        assert_eq!(devices.pass(1, 0), COPY);
        assert_eq!(devices.sheet(0), (1, (2, 2)));
        assert_eq!(mark(&devices.desk.tables[0], SHEET), 701);
    }
}
