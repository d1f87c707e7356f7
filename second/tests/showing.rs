//! Showing the rows beneath a folder, and the row that stands, at both widths.

mod common;

use common::*;
use second::Side;

#[test]
fn rows_beneath_a_folder_are_a_part_of_the_table() {
    for width in Width::BOTH {
        // Root, folder of two sheets, empty folder, sheet.
        let table = new_table(width, 0, &[6, 3, 0, 0, 1, 0]);
        let part = |first: usize, last: usize| {
            let words = width.row() * first..width.row() * last;
            (done(words.len() as u32), words)
        };
        assert_eq!(second::beneath(&table, 0), part(2, 7));
        assert_eq!(second::beneath(&table, 1), part(3, 5));
        assert_eq!(second::beneath(&table, 2), (refused(8), 0..0));
        let (answer, part) = second::beneath(&table, 4);
        assert_eq!((answer, part.is_empty()), (done(0), true));
    }
}

/// Two devices with row 2 as case A leaves it.
fn after_a(width: Width) -> Desk {
    let mut desk = Desk::fresh(width, 0..2, &PLAN);
    desk.event(0, 2, CREATE, 700);
    desk.pass(0, 1, 0);
    desk
}

fn standing(desk: &Desk, source: usize, target: usize) -> (Answer, Side) {
    second::standing(&desk.tables[source], &desk.tables[target], 2)
}

/// What a showing of one row says.
fn a_row(width: Width) -> Answer {
    match width {
        Width::Narrow => done(40),
        Width::Wide => done(72),
    }
}

#[test]
fn source_stands_where_the_rules_say_copy() {
    for width in Width::BOTH {
        let mut desk = Desk::fresh(width, 0..2, &PLAN);
        desk.event(0, 2, CREATE, 700);
        assert_eq!(standing(&desk, 0, 1), (a_row(width), Side::Source));
        assert_eq!(standing(&desk, 1, 0), (a_row(width), Side::Target));
    }
}

#[test]
fn source_stands_where_the_rules_say_remove() {
    for width in Width::BOTH {
        let mut desk = after_a(width);
        desk.event(0, 2, REMOVAL, 0);
        assert_eq!(standing(&desk, 0, 1), (a_row(width), Side::Source));
        assert_eq!(standing(&desk, 1, 0), (a_row(width), Side::Target));
    }
}

#[test]
fn nothing_stands_in_a_conflict() {
    for width in Width::BOTH {
        let mut desk = after_a(width);
        desk.event(0, 2, CHANGE, 701);
        desk.event(1, 2, CHANGE, 702);
        assert_eq!(standing(&desk, 0, 1), (done(0), Side::None));
    }
}

#[test]
fn target_stands_where_a_removal_meets_a_row_never_used() {
    for width in Width::BOTH {
        let mut desk = Desk::fresh(width, 0..2, &PLAN);
        desk.event(0, 2, CREATE, 700);
        desk.event(0, 2, REMOVAL, 0);
        assert_eq!(standing(&desk, 0, 1), (a_row(width), Side::Target));
        assert_eq!(desk.pass(0, 1, 2), (vec![KEEP], 1));
        assert_eq!(kind(&desk.tables[1], 2), 2);
        assert_eq!(stamp(&desk.tables[1], 2), (0, 2));
    }
}

#[test]
fn sides_have_the_numbers_0_1_2() {
    assert_eq!(
        [Side::None, Side::Source, Side::Target].map(|side| side as u32),
        [0, 1, 2]
    );
}
