//! The paper's marked sheets A to K, with whole lists, rows looked at and floors: at both widths, and with other
//! devices in the places of 0, 1 and 2.

mod common;

use common::*;

/// How wide the tables are, and which device stands in the place of 0; those of 1 and 2 follow it.
#[derive(Clone, Copy)]
struct Setting {
    width: Width,
    first: u32,
}

const fn setting(width: Width, first: u32) -> Setting {
    Setting { width, first }
}

const SETTINGS: [Setting; 5] = [
    setting(Width::Narrow, 0),
    setting(Width::Narrow, 5),
    setting(Width::Wide, 0),
    setting(Width::Wide, 7),
    setting(Width::Wide, 13),
];

impl Setting {
    /// So many new devices.
    fn desk(self, devices: u32) -> Desk {
        Desk::fresh(self.width, self.first..self.first + devices, &PLAN)
    }

    /// The stamp of the device in this place.
    fn stamp(self, place: u32, count: u32) -> (u32, u32) {
        (self.first + place, count)
    }

    /// The vector with these counts of the devices in the first places, and zeros.
    fn counts(self, first: &[u32]) -> Vector {
        let device = |place: usize| self.first + place as u32;
        let counts = first.iter().enumerate();
        counts.fold(Vector::ZERO, |vector, (place, &count)| {
            vector.with(device(place), count)
        })
    }
}

/// A: device 0 creates row 2 and passes to device 1.
fn after_a(setting: Setting) -> Desk {
    let mut desk = setting.desk(2);
    assert_eq!(desk.event(0, 2, CREATE, 700), 1);
    assert_eq!(desk.pass(0, 1, 0), (vec![4, 4, 1, 0, 0], 5));
    desk
}

/// B: the same again at once.
fn after_b(setting: Setting) -> Desk {
    let mut desk = after_a(setting);
    assert_eq!(desk.pass(0, 1, 0), (vec![5, 5, 0, 0, 0], 1));
    desk
}

/// C: both change row 2, and it's a conflict.
fn after_c(setting: Setting) -> Desk {
    let mut desk = after_b(setting);
    assert_eq!(desk.event(0, 2, CHANGE, 701), 2);
    assert_eq!(desk.event(1, 2, CHANGE, 702), 1);
    assert_eq!(desk.pass(0, 1, 0), (vec![4, 4, 3, 0, 0], 5));
    desk
}

/// D: device 1 settles own, and the conflict doesn't come back.
fn after_d(setting: Setting) -> Desk {
    let mut desk = after_c(setting);
    assert_eq!(desk.settle(0, 1, 2, OWN, 999), 2);
    assert_eq!(desk.pass(0, 1, 0), (vec![5, 5, 0, 0, 0], 1));
    desk
}

/// F: of two rows created, a pass at row 1 brings the first.
fn after_f_first(setting: Setting) -> Desk {
    let mut desk = setting.desk(2);
    assert_eq!(desk.event(0, 2, CREATE, 10), 1);
    assert_eq!(desk.event(0, 4, CREATE, 20), 2);
    assert_eq!(desk.pass(0, 1, 1), (vec![4, 1, 0], 3));
    desk
}

/// H: device 0 creates row 2; device 1 creates and removes it.
fn before_h(setting: Setting) -> Desk {
    let mut desk = setting.desk(2);
    assert_eq!(desk.event(0, 2, CREATE, 10), 1);
    assert_eq!(desk.event(1, 2, CREATE, 20), 1);
    assert_eq!(desk.event(1, 2, REMOVAL, 0), 2);
    desk
}

/// K, up to its last pass.
fn before_k_last(setting: Setting) -> Desk {
    let mut desk = setting.desk(3);
    assert_eq!(desk.event(0, 2, CREATE, 10), 1);
    assert_eq!(desk.event(1, 2, CREATE, 20), 1);
    assert_eq!(desk.pass(1, 2, 0), (vec![4, 4, 1, 0, 0], 5));
    assert_eq!(desk.pass(0, 1, 0), (vec![4, 4, 3, 0, 0], 5));
    assert_eq!(desk.settle(0, 1, 2, OWN, 0), 2);
    assert_eq!(desk.pass(1, 2, 0), (vec![4, 4, 1, 0, 0], 5));
    desk
}

/// The floors of all rows.
fn floors(table: &[u32]) -> Vec<Vector> {
    (0..rows(table)).map(|row| floor(table, row)).collect()
}

fn floor(table: &[u32], row: usize) -> Vector {
    vector(table, row, Time::Floor)
}

#[test]
fn a_first_pass_copies() {
    for setting in SETTINGS {
        let desk = after_a(setting);
        let [zero, one] = [setting.counts(&[]), setting.counts(&[1])];
        assert_eq!(floors(&desk.tables[1]), [zero, zero, one, one, one]);
        assert_eq!(floors(&desk.tables[0]), [zero; 5]);
    }
}

/// All words of device 1's table, its counter being 0: of each row the first words, and the first count of each vector.
fn words(width: Width, rows: [(&[u32], [u32; 4]); 5]) -> Vec<u32> {
    let (row_words, columns, told) = match width {
        Width::Narrow => (40, 8, 0),
        Width::Wide => (72, 16, 16),
    };
    let mut words = vec![0; row_words * 6];
    words[..4].copy_from_slice(&[1, 0, 5, told]);
    for ((first, vectors), row) in rows.into_iter().zip(words.chunks_mut(row_words).skip(1)) {
        row[..first.len()].copy_from_slice(first);
        for (vector, count) in vectors.into_iter().enumerate() {
            row[8 + columns * vector] = count;
        }
    }
    words
}

#[test]
fn a_leaves_every_word_right() {
    for width in Width::BOTH {
        let rows: [(&[u32], _); 5] = [
            (&[3, 5], [0, 1, 1, 1]),
            (&[3, 3], [0, 1, 1, 1]),
            (&[1, 1, 0, 1, 0, 1, 700], [1, 0, 0, 0]),
            (&[0, 1], [1, 0, 0, 0]),
            (&[0, 1], [1, 0, 0, 0]),
        ];
        assert_eq!(after_a(setting(width, 0)).tables[1], words(width, rows));
    }
}

#[test]
fn b_second_pass_looks_at_the_root_alone() {
    for setting in SETTINGS {
        let desk = after_b(setting);
        let [zero, one] = [setting.counts(&[]), setting.counts(&[1])];
        assert_eq!(floors(&desk.tables[1]), [one, zero, one, one, one]);
    }
}

#[test]
fn c_both_change_is_a_conflict() {
    for setting in SETTINGS {
        let desk = after_c(setting);
        let [zero, one, two] = [
            setting.counts(&[]),
            setting.counts(&[1]),
            setting.counts(&[2]),
        ];
        assert_eq!(floors(&desk.tables[1]), [one, zero, one, two, two]);
        assert_eq!(mark(&desk.tables[1], 2), 702);
    }
}

#[test]
fn c_is_reported_until_it_is_settled() {
    for setting in SETTINGS {
        let mut desk = after_c(setting);
        for _ in 0..3 {
            let before = desk.tables.clone();
            assert_eq!(desk.pass(0, 1, 0), (vec![4, 4, 3, 0, 0], 5));
            assert_eq!(desk.tables, before);
        }
    }
}

#[test]
fn d_settled_conflict_does_not_come_back() {
    for setting in SETTINGS {
        let desk = after_d(setting);
        let [zero, two] = [setting.counts(&[]), setting.counts(&[2])];
        assert_eq!(floors(&desk.tables[1]), [two, zero, two, two, two]);
        assert_eq!(stamp(&desk.tables[1], 2), setting.stamp(1, 2));
        assert_eq!(birth(&desk.tables[1], 2), setting.stamp(0, 1));
        assert_eq!(mark(&desk.tables[1], 2), 702);
    }
}

#[test]
fn e_settled_sheet_travels_back() {
    for setting in SETTINGS {
        let mut desk = after_d(setting);
        assert_eq!(desk.pass(1, 0, 0), (vec![4, 4, 1, 0, 0], 5));
        let [zero, two] = [setting.counts(&[]), setting.counts(&[0, 2])];
        assert_eq!(floors(&desk.tables[0]), [zero, zero, two, two, two]);
        assert_eq!(stamp(&desk.tables[0], 2), setting.stamp(1, 2));
        assert_eq!(mark(&desk.tables[0], 2), 702);
    }
}

#[test]
fn f_part_first_and_then_the_rest() {
    for setting in SETTINGS {
        let mut desk = after_f_first(setting);
        let [zero, two] = [setting.counts(&[]), setting.counts(&[2])];
        assert_eq!(floors(&desk.tables[1]), [zero, zero, two, two, zero]);
        assert_eq!(desk.pass(0, 1, 0), (vec![4, 5, 0, 0, 1], 3));
        assert_eq!(floors(&desk.tables[1]), [zero, two, two, two, two]);
        assert_eq!(mark(&desk.tables[1], 4), 20);
    }
}

#[test]
fn f_first_pass_leaves_every_word_right() {
    for width in Width::BOTH {
        let rows: [(&[u32], _); 5] = [
            (&[3, 5], [0, 1, 0, 2]),
            (&[3, 3], [0, 1, 2, 2]),
            (&[1, 1, 0, 1, 0, 1, 10], [2, 0, 0, 0]),
            (&[0, 1], [2, 0, 0, 0]),
            (&[0, 1], [0, 0, 0, 0]),
        ];
        let desk = after_f_first(setting(width, 0));
        assert_eq!(desk.tables[1], words(width, rows));
    }
}

#[test]
fn g_root_that_is_not_level_is_walked() {
    for setting in SETTINGS {
        let mut desk = after_f_first(setting);
        assert_eq!(desk.pass(1, 0, 0), (vec![4, 5, 0, 0, 0], 3));
        assert_eq!(floors(&desk.tables[0]), [setting.counts(&[]); 5]);
    }
}

#[test]
fn h_sheet_born_elsewhere_is_copied_over_a_removal() {
    for setting in SETTINGS {
        let mut desk = before_h(setting);
        assert_eq!(desk.pass(0, 1, 0), (vec![4, 4, 1, 0, 0], 5));
        assert_eq!(kind(&desk.tables[1], 2), 1);
        assert_eq!(birth(&desk.tables[1], 2), setting.stamp(0, 1));
    }
}

#[test]
fn h_removal_leaves_a_sheet_born_elsewhere() {
    for setting in SETTINGS {
        let mut desk = before_h(setting);
        assert_eq!(desk.pass(1, 0, 0), (vec![4, 4, 0, 0, 0], 5));
        assert_eq!(stamp(&desk.tables[0], 2), setting.stamp(0, 1));
        assert_eq!(floor(&desk.tables[0], 2), setting.counts(&[0, 2]));
    }
}

#[test]
fn i_change_against_removal_is_a_conflict() {
    for setting in SETTINGS {
        let mut desk = after_a(setting);
        desk.event(0, 2, CHANGE, 701);
        desk.event(1, 2, REMOVAL, 0);
        assert_eq!(desk.pass(0, 1, 0), (vec![4, 4, 3, 0, 0], 5));
    }
}

#[test]
fn i_settled_by_new_takes_their_birth() {
    for setting in SETTINGS {
        let mut desk = after_a(setting);
        desk.event(0, 2, CHANGE, 701);
        desk.event(1, 2, REMOVAL, 0);
        assert_eq!(desk.settle(0, 1, 2, NEW, 800), 2);
        let table = &desk.tables[1];
        assert_eq!((kind(table, 2), mark(table, 2)), (1, 800));
        assert_eq!(stamp(table, 2), setting.stamp(1, 2));
        assert_eq!(birth(table, 2), setting.stamp(0, 1));
    }
}

#[test]
fn j_removal_is_carried_over() {
    for setting in SETTINGS {
        let mut desk = after_a(setting);
        desk.event(0, 2, REMOVAL, 999);
        assert_eq!(desk.pass(0, 1, 0), (vec![4, 4, 2, 0, 0], 5));
        let table = &desk.tables[1];
        assert_eq!((kind(table, 2), stamp(table, 2)), (2, setting.stamp(0, 2)));
        assert_eq!((birth(table, 2), mark(table, 2)), ((0, 0), 0));
    }
}

#[test]
fn k_what_the_sheets_know_travels_with_the_folder() {
    for setting in SETTINGS {
        let mut desk = before_k_last(setting);
        let [zero, one, both] = [
            setting.counts(&[]),
            setting.counts(&[1]),
            setting.counts(&[1, 2]),
        ];
        assert_eq!(floors(&desk.tables[2]), [zero, zero, both, both, both]);
        assert_eq!(stamp(&desk.tables[2], 2), setting.stamp(1, 2));
        assert_eq!(desk.pass(0, 2, 0), (vec![5, 5, 0, 0, 0], 1));
        assert_eq!(floors(&desk.tables[2]), [one, zero, both, both, both]);
    }
}

#[test]
fn k_last_pass_started_at_row_1() {
    for setting in SETTINGS {
        let mut desk = before_k_last(setting);
        assert_eq!(desk.pass(0, 2, 1), (vec![5, 0, 0], 1));
    }
}

#[test]
fn played_narrow_and_then_widened_is_played_wide() {
    let cases = [
        after_a,
        after_b,
        after_c,
        after_d,
        after_f_first,
        before_h,
        before_k_last,
    ];
    for case in cases {
        let [narrow, wide] = Width::BOTH.map(|width| case(setting(width, 0)).tables);
        for (narrow, wide) in narrow.iter().zip(wide) {
            assert_eq!(widened(narrow), wide);
        }
    }
}
