//! Faults of what a live sheet holds: its mark and its class of duty.

use compare::call::Call;
use compare::program::{Answer, Program, SECOND};
use second::layout::word;
use second::trial::look::{kind, place, rows};
use second::Content;

use super::{found, keep_classes, pass_and, refused, told_as};

#[test]
fn copy_leaves_the_class_behind() {
    let program = Program {
        pass: |source, target, row, answers| {
            pass_and(source, target, row, answers, |_, before, target| {
                keep_classes(before, target)
            })
        },
        ..SECOND
    };
    found(program, Call::Pass, 2);
}

#[test]
fn theirs_leaves_the_class_behind() {
    let settle = |source: &[u32], target: &mut [u32], row: u32, choice: u32, content: Content| {
        let before = target.to_vec();
        let answer = (SECOND.settle)(source, target, row, choice, content);
        if answer.number == 0 && choice == 1 {
            keep_classes(&before, target);
        }
        answer
    };
    found(Program { settle, ..SECOND }, Call::Settle, 2);
}

/// The check of a table in which this word of each live row has this value.
fn check_with(table: &[u32], word: usize, value: u32) -> Answer {
    let mut table = table.to_vec();
    for row in 0..rows(&table) {
        if kind(&table, row) == 1 {
            let place = place(&table, row, word);
            table[place] = value;
        }
    }
    (SECOND.check)(&table)
}

#[test]
fn any_class_in_a_table() {
    let check = |table: &[u32]| match (SECOND.check)(table) {
        Answer { number: 3, .. } => check_with(table, word::CLASS, 0),
        answer => answer,
    };
    found(Program { check, ..SECOND }, Call::Check, 2);
}

#[test]
fn live_sheet_without_a_mark() {
    let check = |table: &[u32]| match (SECOND.check)(table) {
        Answer { number: 3, .. } => check_with(table, word::MARK, 1),
        answer => answer,
    };
    found(Program { check, ..SECOND }, Call::Check, 2);
}

#[test]
fn class_judged_before_the_event() {
    let event = |table: &mut [u32], row: u32, event: u32, content: Content| {
        let answer = (SECOND.event)(table, row, event, content);
        told_as(answer, 16, 21, || content.class > 9)
    };
    found(Program { event, ..SECOND }, Call::Event, 1);
}

#[test]
fn class_judged_after_the_row() {
    let event = |table: &mut [u32], row: u32, event: u32, content: Content| {
        let answer = (SECOND.event)(table, row, event, content);
        told_as(answer, 21, 8, || row as usize >= rows(table))
    };
    found(Program { event, ..SECOND }, Call::Event, 1);
}

#[test]
fn removal_refused_for_its_class() {
    let event = |table: &mut [u32], row: u32, event: u32, content: Content| match content.class {
        10.. if (SECOND.check)(table).number == 0 && event == 3 => refused(21),
        _ => (SECOND.event)(table, row, event, content),
    };
    found(Program { event, ..SECOND }, Call::Event, 1);
}

#[test]
fn own_refused_for_its_class() {
    let settle = |source: &[u32], target: &mut [u32], row: u32, choice: u32, content: Content| {
        let before = target.to_vec();
        let answer = (SECOND.settle)(source, target, row, choice, content);
        if answer.number == 0 && choice == 2 && content.class > 9 {
            target.copy_from_slice(&before);
            return refused(21);
        }
        answer
    };
    found(Program { settle, ..SECOND }, Call::Settle, 2);
}

#[test]
fn mark_judged_before_the_class() {
    let settle = |source: &[u32], target: &mut [u32], row: u32, choice: u32, content: Content| {
        let answer = (SECOND.settle)(source, target, row, choice, content);
        told_as(answer, 21, 22, || content.mark == 0)
    };
    found(Program { settle, ..SECOND }, Call::Settle, 1);
}

#[test]
fn removal_refused_for_its_mark() {
    let event = |table: &mut [u32], row: u32, event: u32, content: Content| match content.mark {
        0 if (SECOND.check)(table).number == 0 && event == 3 => refused(22),
        _ => (SECOND.event)(table, row, event, content),
    };
    found(Program { event, ..SECOND }, Call::Event, 1);
}
