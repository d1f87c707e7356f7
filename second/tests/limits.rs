//! The limits, at both widths: rows, levels and the counter.

mod common;

use common::*;

/// Plans of so many levels, one folder in the other: the last row is a sheet, or an empty folder.
fn deep_plans(levels: usize) -> [Vec<u32>; 2] {
    [plans::chain(levels - 1, 1), plans::chain(levels, 0)]
}

/// What `new` gives for a plan and a buffer of the right length.
fn new(width: Width, plan: &[u32]) -> Answer {
    let mut table = vec![0; width.length(plan.len())];
    second::new(width.columns() as u32, 0, plan, &mut table)
}

/// The plan gives a table, and the check takes it.
fn assert_accepted(plan: &[u32]) {
    for width in Width::BOTH {
        let table = fresh(width, 0, plan);
        assert_eq!(second::check(&table), done(plan.len() as u32));
        assert_eq!(new_table(width, 0, plan), table);
    }
}

/// The plan gives no table, and the check refuses its words.
fn assert_too_much(plan: &[u32], number: u32) {
    for width in Width::BOTH {
        let table = fresh(width, 0, plan);
        assert_eq!(second::check(&table), refused(number));
        assert_eq!(new(width, plan), refused(2));
    }
}

#[test]
fn rows_from_1_to_256() {
    for rows in [1, 2, 255, 256] {
        assert_accepted(&plans::flat(rows - 1));
    }
}

#[test]
fn no_row_or_257_rows() {
    for rows in [0, 257, 258, 1000] {
        assert_too_much(&vec![rows; rows as usize], 1);
    }
    assert_too_much(&plans::flat(256), 1);
}

#[test]
fn pass_over_256_rows() {
    for width in Width::BOTH {
        let mut desk = Desk::fresh(width, 0..2, &plans::flat(255));
        desk.event(0, 255, CREATE, 7);
        let (answers, looked_at) = desk.pass(0, 1, 0);
        assert_eq!(looked_at, 256);
        assert_eq!(answers[0], WALKED);
        assert!(answers[1..255].iter().all(|&answer| answer == KEEP));
        assert_eq!(answers[255], COPY);
    }
}

#[test]
fn pass_over_one_row() {
    for width in Width::BOTH {
        let mut desk = Desk::fresh(width, 0..2, &[1]);
        assert_eq!(desk.pass(0, 1, 0), (vec![PASSED_OVER], 1));
    }
}

#[test]
fn levels_up_to_16() {
    for levels in [2, 15, 16] {
        for plan in deep_plans(levels) {
            assert_accepted(&plan);
        }
    }
    for levels in [17, 18, 256] {
        for plan in deep_plans(levels) {
            assert_too_much(&plan, 2);
        }
    }
}

#[test]
fn pass_over_16_levels() {
    for width in Width::BOTH {
        let mut desk = Desk::fresh(width, 0..2, &plans::chain(15, 1));
        desk.event(0, 15, CREATE, 7);
        let mut answers = vec![WALKED; 15];
        answers.push(COPY);
        assert_eq!(desk.pass(0, 1, 0), (answers, 16));
    }
}

#[test]
fn widening_256_rows_and_16_levels() {
    for plan in [plans::flat(255), plans::chain(15, 1)] {
        let mut desk = Desk::fresh(Width::Narrow, 0..2, &plan);
        desk.event(0, plan.len() - 1, CREATE, 7);
        desk.pass(0, 1, 0);
        for device in 0..2 {
            desk.widen(device);
        }
        assert_eq!(desk.pass(0, 1, 0).1, 1);
    }
}

#[test]
fn counter_has_an_end() {
    for width in Width::BOTH {
        let mut table = new_table(width, 3, &PLAN);
        table[head::COUNTER] = 4_294_967_294;
        assert_eq!(
            second::event(&mut table, 2, CREATE, 1, 0),
            done(4_294_967_295)
        );
        assert_sound(&table);

        let before = table.clone();
        assert_eq!(second::event(&mut table, 2, CHANGE, 2, 0), refused(15));
        assert_eq!(second::event(&mut table, 2, REMOVAL, 2, 0), refused(15));
        assert_eq!(second::event(&mut table, 3, CREATE, 2, 0), refused(15));
        assert_eq!(table, before);
    }
}

#[test]
fn full_counter_settles_nothing() {
    for width in Width::BOTH {
        for choice in [THEIRS, OWN, NEW] {
            let mut desk = Desk::fresh(width, 0..2, &PLAN);
            desk.event(0, 2, CREATE, 1);
            desk.event(1, 2, CREATE, 2);
            desk.tables[1][head::COUNTER] = u32::MAX;
            let before = desk.tables[1].clone();
            let (source, target) = pair(&mut desk.tables, 0, 1);
            assert_eq!(second::settle(source, target, 2, choice, 3, 0), refused(15));
            assert_eq!(target, before);
            target[head::COUNTER] = u32::MAX - 1;
            let answer = second::settle(source, target, 2, choice, 3, 0);
            assert_eq!(answer, done(u32::MAX));
            assert_sound(target);
        }
    }
}

#[test]
fn pass_between_full_counters() {
    for width in Width::BOTH {
        let mut desk = Desk::fresh(width, 0..2, &PLAN);
        for table in &mut desk.tables {
            table[head::COUNTER] = u32::MAX - 1;
        }
        desk.event(0, 2, CREATE, 1);
        desk.event(1, 4, CREATE, 2);
        assert_eq!(desk.pass(0, 1, 0), (vec![4, 4, 1, 0, 0], 5));
        assert_eq!(desk.pass(1, 0, 0), (vec![4, 5, 0, 0, 1], 3));
        assert_eq!(vector(&desk.tables[0], 4, Time::Floor).count(1), u32::MAX);
    }
}
