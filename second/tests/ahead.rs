//! Who is ahead at a sheet in conflict, at both widths.

mod common;

use common::*;

/// The mask of these devices.
fn mask_of(devices: &[u32]) -> u32 {
    devices.iter().map(|&device| 1 << device).sum()
}

/// Row 2 in conflict between devices 0 and 1, as in case C.
fn in_conflict(width: Width) -> Desk {
    let mut desk = Desk::fresh(width, 0..3, &PLAN);
    desk.event(0, 2, CREATE, 700);
    desk.pass(0, 1, 0);
    desk.event(0, 2, CHANGE, 701);
    desk.event(1, 2, CHANGE, 702);
    desk
}

#[test]
fn each_is_ahead_by_its_own_change() {
    for width in Width::BOTH {
        let desk = in_conflict(width);
        assert_eq!(desk.ahead(0, 1, 2), masks(0, 0b01, 0b10));
        assert_eq!(desk.ahead(1, 0, 2), masks(0, 0b10, 0b01));
    }
}

#[test]
fn nobody_is_ahead_where_there_is_no_conflict() {
    for width in Width::BOTH {
        let mut desk = in_conflict(width);
        let conflict = desk.tables.clone();
        for row in [3, 4] {
            assert_eq!(desk.ahead(0, 1, row), masks(14, 0, 0));
        }
        for folder in [0, 1] {
            assert_eq!(desk.ahead(0, 1, folder), masks(10, 0, 0));
        }
        assert_eq!(desk.ahead(0, 1, 5), masks(8, 0, 0));
        assert_eq!(desk.ahead(0, 2, 2), masks(14, 0, 0));
        assert_eq!(desk.tables, conflict);
        desk.settle(0, 1, 2, OWN, 0);
        assert_eq!(desk.ahead(0, 1, 2), masks(14, 0, 0));
    }
}

#[test]
fn third_device_is_ahead_by_hearsay() {
    for width in Width::BOTH {
        let mut desk = Desk::fresh(width, 0..3, &PLAN);
        desk.event(0, 2, CREATE, 10);
        desk.event(1, 2, CREATE, 20);
        desk.pass(1, 2, 0);
        assert_eq!(desk.ahead(0, 2, 2), masks(0, 0b001, 0b010));
        // An own event at another sheet moves the counter, and with it the own column of every sheet.
        desk.event(2, 4, CREATE, 30);
        assert_eq!(desk.ahead(0, 2, 2), masks(0, 0b001, 0b110));
    }
}

#[test]
fn nobody_is_ahead_by_what_both_know() {
    for width in Width::BOTH {
        let mut desk = Desk::fresh(width, 0..3, &PLAN);
        desk.event(2, 2, CREATE, 10);
        for device in 0..2 {
            desk.pass(2, device, 0);
            desk.event(device, 2, CHANGE, 11);
        }
        assert_eq!(desk.ahead(0, 1, 2), masks(0, 0b01, 0b10));
    }
}

#[test]
fn each_device_has_its_bit() {
    for width in Width::BOTH {
        let columns = width.columns() as u32;
        let disputed = columns as usize + 1;
        let mut desk = Desk::fresh(width, 0..columns, &plans::flat(disputed));
        for device in 0..columns as usize {
            desk.event(device, 1 + device, CREATE, 7);
            if device > 1 {
                desk.pass(device, device % 2, 0);
            }
        }
        for device in 0..2 {
            desk.event(device, disputed, CREATE, 8);
        }
        let [even, odd] = [0, 1].map(|first| (first..columns).step_by(2).collect::<Vec<_>>());
        let expected = masks(0, mask_of(&even), mask_of(&odd));
        assert_eq!(desk.ahead(0, 1, disputed), expected);
    }
}
