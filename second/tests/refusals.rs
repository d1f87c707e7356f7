//! Every refusal of every call at both widths, in its order, and that none changes a word.

mod common;

use common::*;
use second::Side;

/// All that a call can be lent. A call of one table takes the source.
#[derive(Clone, Debug, PartialEq)]
struct Lent {
    source: Vec<u32>,
    target: Vec<u32>,
    row: u32,
    /// The event or choice.
    choice: u32,
    mark: u32,
    class: u32,
    /// A pass's answers, or the words of a widened table.
    output: Vec<u32>,
}

/// A refusal's number, and a change that calls for it.
type Fault = (u32, fn(&mut Lent));

const SOURCE: [Fault; 3] = [
    (1, |lent| break_head(&mut lent.source)),
    (2, |lent| put(&mut lent.source, 4, word::KIND, 4)),
    (3, |lent| put(&mut lent.source, 4, word::CLASS, 1)),
];

const TARGET: [Fault; 3] = [
    (11, |lent| break_head(&mut lent.target)),
    (12, |lent| put(&mut lent.target, 4, word::KIND, 4)),
    (13, |lent| put(&mut lent.target, 4, word::CLASS, 1)),
];

const WIDTHS: [Fault; 2] = [
    (19, |lent| lent.source = other_width(&lent.source)),
    (19, |lent| lent.target = other_width(&lent.target)),
];

const PAIR: [Fault; 4] = [
    (4, |lent| make_folder(&mut lent.target, 4)),
    (5, |lent| lent.target = lent.source.clone()),
    (6, |lent| {
        raise(&mut lent.source, 0, 1, 9);
        lent.target[head::COUNTER] = 8;
    }),
    (7, |lent| raise(&mut lent.target, 0, 0, 9)),
];

const NO_ROW: Fault = (8, |lent| lent.row = 5);
const NO_ROW_AT_ALL: Fault = (8, |lent| lent.row = u32::MAX);
const NOT_A_FOLDER: Fault = (8, |lent| lent.row = 4);
const TOO_LONG: Fault = (9, |lent| lent.output.extend([7; 2]));
const TOO_SHORT: Fault = (9, |lent| lent.output.clear());
const A_FOLDER: Fault = (10, |lent| lent.row = 1);
const A_LIVE_SHEET: Fault = (10, |lent| lent.row = 2);
const A_SHEET_NEVER_USED: Fault = (10, |lent| lent.row = 3);
const NO_CONFLICT: Fault = (14, |lent| lent.row = 3);
const SOURCE_FULL: Fault = (15, |lent| lent.source[head::COUNTER] = u32::MAX);
const TARGET_FULL: Fault = (15, |lent| lent.target[head::COUNTER] = u32::MAX);
const CHOICE_0: Fault = (16, |lent| lent.choice = 0);
const CHOICE_4: Fault = (16, |lent| lent.choice = 4);
const CLASS_10: Fault = (21, |lent| lent.class = 10);
const CLASS_MAX: Fault = (21, |lent| lent.class = u32::MAX);
const NO_MARK: Fault = (22, |lent| lent.mark = 0);

/// Changes a word of a row.
fn put(table: &mut [u32], row: usize, word: usize, value: u32) {
    table[width(table).place(row, word)] = value;
}

/// Changes the last word of the head.
fn break_head(table: &mut [u32]) {
    table[width(table).row() - 1] = 1;
}

/// The same table with the other width.
fn other_width(table: &[u32]) -> Vec<u32> {
    match width(table) {
        Width::Narrow => widened(table),
        Width::Wide => narrowed(table),
    }
}

/// Makes an empty folder of a sheet that is never.
fn make_folder(table: &mut [u32], row: usize) {
    put(table, row, word::KIND, Kind::Folder.number());
    mend(table);
}

/// After case A both have changed row 2.
fn sound(width: Width) -> Lent {
    let mut desk = Desk::fresh(width, 0..2, &PLAN);
    desk.event(0, 2, CREATE, 700);
    desk.pass(0, 1, 0);
    desk.event(0, 2, CHANGE, 701);
    desk.event(1, 2, CHANGE, 702);
    Lent {
        source: desk.tables[0].clone(),
        target: desk.tables[1].clone(),
        row: 2,
        choice: NEW,
        mark: 1,
        class: LAST_CLASS,
        output: vec![7],
    }
}

/// At both widths, the order holds for a call on sound tables that are fitted to it.
fn assert_orders(fit: fn(&mut Lent), call: fn(&mut Lent) -> Answer, order: &[&[Fault]]) {
    for width in Width::BOTH {
        let mut lent = sound(width);
        fit(&mut lent);
        assert_order(lent, call, order);
    }
}

/// A call succeeds with what it's lent; each fault alone gives its number; and with several, the first in the order
/// does.
fn assert_order(lent: Lent, call: fn(&mut Lent) -> Answer, order: &[&[Fault]]) {
    let faults = order.concat();
    assert_eq!(call(&mut lent.clone()).number, 0);
    for from in 0..faults.len() {
        let (number, _) = faults[from];
        assert_refused(&lent, call, &faults[from..=from], number);
        assert_refused(&lent, call, &faults[from..], number);
    }
}

/// With all these faults the call gives this number and changes nothing.
fn assert_refused(lent: &Lent, call: fn(&mut Lent) -> Answer, faults: &[Fault], number: u32) {
    let mut lent = lent.clone();
    for (_, change) in faults.iter().rev() {
        change(&mut lent);
    }
    let before = lent.clone();
    assert_eq!(call(&mut lent), refused(number));
    assert_eq!(lent, before);
}

#[test]
fn of_a_check() {
    assert_orders(|_| (), |lent| second::check(&lent.source), &[&SOURCE]);
}

#[test]
fn of_an_event() {
    assert_orders(
        |lent| {
            lent.row = 3;
            lent.choice = CREATE;
        },
        event,
        &[
            &SOURCE,
            &[CHOICE_0, CHOICE_4],
            &[CLASS_10, CLASS_MAX],
            &[NO_MARK],
            &[NO_ROW, NO_ROW_AT_ALL],
            &[A_FOLDER, A_LIVE_SHEET],
            &[SOURCE_FULL],
        ],
    );
}

#[test]
fn of_a_pass() {
    assert_orders(
        |_| (),
        |lent| second::pass(&lent.source, &mut lent.target, lent.row, &mut lent.output),
        &[
            &SOURCE,
            &TARGET,
            &WIDTHS[..1],
            &PAIR,
            &[NO_ROW, NO_ROW_AT_ALL],
            &[TOO_LONG, TOO_SHORT],
        ],
    );
}

#[test]
fn of_a_settling() {
    assert_orders(
        |_| (),
        settle,
        &[
            &SOURCE,
            &TARGET,
            &WIDTHS[..1],
            &PAIR,
            &[NO_ROW, NO_ROW_AT_ALL],
            &[CHOICE_0, CHOICE_4],
            &[CLASS_10, CLASS_MAX],
            &[NO_MARK],
            &[A_FOLDER],
            &[NO_CONFLICT],
            &[TARGET_FULL],
        ],
    );
}

/// An event to what is lent.
fn event(lent: &mut Lent) -> Answer {
    let Lent {
        row,
        choice,
        mark,
        class,
        ..
    } = *lent;
    second::event(&mut lent.source, row, choice, mark, class)
}

/// A settling of what is lent.
fn settle(lent: &mut Lent) -> Answer {
    let Lent {
        row,
        choice,
        mark,
        class,
        ..
    } = *lent;
    second::settle(&lent.source, &mut lent.target, row, choice, mark, class)
}

#[test]
fn of_a_change() {
    assert_orders(
        |lent| lent.choice = CHANGE,
        event,
        &[
            &SOURCE,
            &[CHOICE_0, CHOICE_4],
            &[CLASS_10, CLASS_MAX],
            &[NO_MARK],
            &[NO_ROW, NO_ROW_AT_ALL],
            &[A_FOLDER, A_SHEET_NEVER_USED],
            &[SOURCE_FULL],
        ],
    );
}

/// Marks and classes, such that no call takes any but the first.
const CONTENTS: [(u32, u32); 5] = [
    (9, LAST_CLASS),
    (9, LAST_CLASS + 1),
    (0, LAST_CLASS),
    (0, LAST_CLASS + 1),
    (0, u32::MAX),
];

#[test]
fn of_a_removal_whatever_mark_and_class() {
    for (mark, class) in CONTENTS {
        for width in Width::BOTH {
            let removal = Lent {
                choice: REMOVAL,
                mark,
                class,
                ..sound(width)
            };
            assert_refused(&removal, event, &[A_SHEET_NEVER_USED], 10);
            assert_eq!(event(&mut removal.clone()), done(3));
        }
    }
}

#[test]
fn of_theirs_and_own_whatever_mark_and_class() {
    for (mark, class) in CONTENTS {
        for choice in [THEIRS, OWN] {
            for width in Width::BOTH {
                let settling = Lent {
                    choice,
                    mark,
                    class,
                    ..sound(width)
                };
                assert_refused(&settling, settle, &[NO_CONFLICT], 14);
                assert_eq!(settle(&mut settling.clone()).number, 0);
            }
        }
    }
}

#[test]
fn of_showing_the_rows_beneath() {
    let call = |lent: &mut Lent| {
        let (answer, part) = second::beneath(&lent.source, lent.row);
        assert_eq!(answer.count as usize, part.len());
        answer
    };
    let order: [&[Fault]; 2] = [&SOURCE, &[NO_ROW, NO_ROW_AT_ALL, NOT_A_FOLDER]];
    assert_orders(|lent| lent.row = 1, call, &order);
}

#[test]
fn of_showing_the_row_that_stands() {
    let call = |lent: &mut Lent| {
        let (answer, side) = second::standing(&lent.source, &lent.target, lent.row);
        assert_eq!(answer.count == 0, side == Side::None);
        answer
    };
    let order: [&[Fault]; 6] = [
        &SOURCE,
        &TARGET,
        &WIDTHS[1..],
        &PAIR,
        &[NO_ROW, NO_ROW_AT_ALL],
        &[A_FOLDER],
    ];
    assert_orders(|_| (), call, &order);
}

#[test]
fn of_asking_who_is_ahead() {
    let call = |lent: &mut Lent| ahead_number(&lent.source, &lent.target, lent.row);
    let order: [&[Fault]; 7] = [
        &SOURCE,
        &TARGET,
        &WIDTHS[1..],
        &PAIR,
        &[NO_ROW, NO_ROW_AT_ALL],
        &[A_FOLDER],
        &[NO_CONFLICT],
    ];
    assert_orders(|_| (), call, &order);
}

#[test]
fn of_a_widening() {
    let narrow = Lent {
        output: vec![7; Width::Wide.length(5)],
        ..sound(Width::Narrow)
    };
    assert_order(
        narrow,
        |lent| second::widen(&lent.source, &mut lent.output),
        &[&SOURCE, &WIDTHS[..1], &[TOO_LONG, TOO_SHORT]],
    );
    for number in 1..4 {
        // A wide table is judged before it is found to be wide already.
        let (_, fault) = SOURCE[number - 1];
        let call = |lent: &mut Lent| second::widen(&lent.source, &mut lent.output);
        assert_refused(&sound(Width::Wide), call, &[(0, fault)], number as u32);
    }
    for length in [0, 240, 431, 433, 72] {
        let mut wide = vec![7; length];
        let answer = second::widen(&sound(Width::Narrow).source, &mut wide);
        assert_eq!((answer, wide), (refused(9), vec![7; length]));
    }
}

#[test]
fn of_a_new_table() {
    let refused_new = |columns: u32, device: u32, plan: &[u32], length: usize, number: u32| {
        let mut table = vec![7; length];
        assert_eq!(
            second::new(columns, device, plan, &mut table),
            refused(number),
            "{plan:?}"
        );
        assert_eq!(table, vec![7; length]);
    };
    for columns in [0, 7, 9, 17] {
        refused_new(columns, u32::MAX, &[], 0, 19);
        refused_new(columns, 0, &PLAN, 240, 19);
    }
    for (columns, device) in [(8, 8), (8, 15), (16, 16), (8, u32::MAX), (16, u32::MAX)] {
        refused_new(columns, device, &[], 0, 17);
        refused_new(columns, device, &PLAN, 240, 17);
    }
    let bad_plans: [&[u32]; 10] = [
        &[],
        &[0],
        &[2],
        &[0, 0],
        &[1, 0],
        &[3, 0],
        &[3, 3, 0],
        &[u32::MAX, 0],
        &[3, u32::MAX, 0],
        &[4, 2, 2, 0],
    ];
    for width in Width::BOTH {
        let columns = width.columns() as u32;
        for plan in bad_plans {
            refused_new(columns, 7, plan, 0, 2);
            refused_new(columns, 7, plan, width.length(plan.len()), 2);
        }
        let right = width.length(5);
        let row = width.row();
        for length in [0, row, right - row, right - 1, right + 1, right + row] {
            refused_new(columns, 7, &PLAN, length, 9);
        }
    }
}

#[test]
fn of_two_trees() {
    for width in Width::BOTH {
        let standing = |source: &[u32], target: &[u32]| {
            let [source, target] =
                [(0, source), (1, target)].map(|(device, plan)| new_table(width, device, plan));
            second::standing(&source, &target, 2).0.number
        };
        assert_eq!(standing(&[4, 1, 0, 0], &[4, 1, 0, 0]), 0);
        // The same folder places with other sizes, the same sizes with a folder for a sheet, more rows.
        assert_eq!(standing(&[4, 1, 0, 0], &[4, 2, 0, 0]), 4);
        assert_eq!(standing(&[4, 1, 0, 0], &[4, 1, 0, 1]), 4);
        assert_eq!(standing(&[4, 1, 0, 0], &[5, 1, 0, 0, 0]), 4);
        assert_eq!(standing(&[5, 1, 0, 0, 0], &[4, 1, 0, 0]), 4);
    }
}

#[test]
fn of_floors_ahead_of_a_counter_in_any_row() {
    for width in Width::BOTH {
        let last = width.columns() as u32 - 1;
        for row in 0..5 {
            let mut ahead = new_table(width, 0, &PLAN);
            raise(&mut ahead, row, last, 9);
            assert_sound(&ahead);
            for (counter, as_source, as_target) in [(8, 6, 7), (9, 0, 0)] {
                let mut other = new_table(width, last, &PLAN);
                other[head::COUNTER] = counter;
                let (answer, _) = second::standing(&ahead, &other, 2);
                assert_eq!(answer.number, as_source, "row {row}");
                let (answer, _) = second::standing(&other, &ahead, 2);
                assert_eq!(answer.number, as_target, "row {row}");
            }
        }
    }
}
