//! Mark and class of duty, at both widths: they go together, and no call takes mark 0 or a class above 9.

mod common;

use common::*;

fn of(mark: u32, class: u32) -> Content {
    Content { mark, class }
}

/// Device 0 has created row 2 with a mark and a class, and device 1 has it too.
fn copied(width: Width) -> Desk {
    let mut desk = Desk::fresh(width, 0..2, &PLAN);
    desk.event_with(0, 2, CREATE, of(700, 9));
    assert_eq!(content_of(&desk.tables[0], 2), of(700, 9));
    assert_eq!(desk.pass(0, 1, 0).0, [4, 4, 1, 0, 0]);
    desk
}

/// Both have then changed it.
fn in_conflict(width: Width) -> Desk {
    let mut desk = copied(width);
    desk.event_with(0, 2, CHANGE, of(701, 3));
    desk.event_with(1, 2, CHANGE, of(702, 4));
    desk
}

#[test]
fn copy_carries_it() {
    for width in Width::BOTH {
        let desk = copied(width);
        assert_eq!(content_of(&desk.tables[1], 2), of(700, 9));
        assert_eq!(at(&desk.tables[1], 2, 7), 9);
    }
}

#[test]
fn change_gives_another() {
    for width in Width::BOTH {
        let mut desk = copied(width);
        for class in (0..=9).rev() {
            desk.event_with(0, 2, CHANGE, of(701, class));
            assert_eq!(desk.pass(0, 1, 0).0, [4, 4, 1, 0, 0]);
            assert_eq!(content_of(&desk.tables[1], 2), of(701, class));
        }
    }
}

#[test]
fn removal_takes_it_away() {
    for width in Width::BOTH {
        let mut desk = copied(width);
        desk.event_with(0, 2, REMOVAL, of(5, 5));
        assert_eq!(content_of(&desk.tables[0], 2), Content::NONE);
        assert_eq!(desk.pass(0, 1, 0).0, [4, 4, 2, 0, 0]);
        assert_eq!(content_of(&desk.tables[1], 2), Content::NONE);
    }
}

#[test]
fn settling() {
    for width in Width::BOTH {
        for (choice, expected) in [(THEIRS, of(701, 3)), (OWN, of(702, 4)), (NEW, of(5, 6))] {
            let mut desk = in_conflict(width);
            desk.settle_with(0, 1, 2, choice, of(5, 6));
            assert_eq!(content_of(&desk.tables[1], 2), expected);
        }
    }
}

#[test]
fn no_rule_reads_it() {
    for width in Width::BOTH {
        let mut desk = copied(width);
        let other = place(&desk.tables[1], 2, word::CLASS);
        desk.tables[1][other] = 1;
        assert_eq!(desk.pass(0, 1, 0), (vec![5, 5, 0, 0, 0], 1));
        assert_eq!(class(&desk.tables[1], 2), 1);
    }
}

#[test]
fn widening_keeps_it() {
    let mut desk = copied(Width::Narrow);
    desk.widen(1);
    assert_eq!(content_of(&desk.tables[1], 2), of(700, 9));
}

#[test]
fn class_above_9_is_refused_where_it_is_taken() {
    for width in Width::BOTH {
        for class in [10, 11, u32::MAX] {
            let mut desk = in_conflict(width);
            let before = desk.tables.clone();
            let (source, target) = pair(&mut desk.tables, 0, 1);
            assert_eq!(second::event(target, 4, CREATE, 1, class), refused(21));
            assert_eq!(second::event(target, 2, CHANGE, 1, class), refused(21));
            assert_eq!(
                second::settle(source, target, 2, NEW, 1, class),
                refused(21)
            );
            assert_eq!(desk.tables, before);
            let (source, target) = pair(&mut desk.tables, 0, 1);
            assert_eq!(second::settle(source, target, 2, OWN, 1, class).number, 0);
            assert_eq!(second::event(target, 2, REMOVAL, 1, class).number, 0);
        }
    }
}

#[test]
fn mark_0_is_refused_where_it_is_taken() {
    for width in Width::BOTH {
        let mut desk = in_conflict(width);
        let before = desk.tables.clone();
        let (source, target) = pair(&mut desk.tables, 0, 1);
        for (class, number) in [(0, 22), (9, 22), (10, 21)] {
            let answer = refused(number);
            assert_eq!(second::event(target, 4, CREATE, 0, class), answer);
            assert_eq!(second::event(target, 2, CHANGE, 0, class), answer);
            assert_eq!(second::settle(source, target, 2, NEW, 0, class), answer);
        }
        assert_eq!(desk.tables, before);
        let (source, target) = pair(&mut desk.tables, 0, 1);
        assert_eq!(second::settle(source, target, 2, THEIRS, 0, 0).number, 0);
        assert_eq!(second::event(target, 2, REMOVAL, 0, 0).number, 0);
        assert_eq!(second::event(target, 2, CREATE, 1, 0).number, 0);
    }
}
