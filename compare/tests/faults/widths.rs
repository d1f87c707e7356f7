//! Faults of tables with eight columns or sixteen.

use compare::call::Call;
use compare::program::{Answer, Program, SECOND};
use second::layout::{head, Time, Width};
use second::trial::look::{counts, is_folder, rows, size};
use second::Content;

use super::{done, forget_a_floor, found, refused, told_as, widen_and};

#[test]
fn devices_of_new_tables_end_at_7() {
    let new = |columns: u32, device: u32, plan: &[u32], table: &mut [u32]| match device {
        8.. if columns == 16 => refused(17),
        _ => (SECOND.new)(columns, device, plan, table),
    };
    found(Program { new, ..SECOND }, Call::New, 2);
}

#[test]
fn device_of_a_new_table_before_its_columns() {
    let new = |columns: u32, device: u32, plan: &[u32], table: &mut [u32]| match device {
        16.. => refused(17),
        _ => (SECOND.new)(columns, device, plan, table),
    };
    found(Program { new, ..SECOND }, Call::New, 0);
}

#[test]
fn stamps_end_at_device_7() {
    let check = |table: &[u32]| match (SECOND.check)(table) {
        Answer { number: 0, .. } if has_late_stamp(table) => refused(3),
        answer => answer,
    };
    found(Program { check, ..SECOND }, Call::Check, 2);
}

/// Whether some newest has a count of a device above 7.
fn has_late_stamp(table: &[u32]) -> bool {
    let newest = &table[counts(table, 0, Time::Newest)];
    newest.iter().skip(8).any(|&count| count > 0)
}

#[test]
fn heads_tell_8_or_16() {
    let check = |table: &[u32]| {
        let mut table = table.to_vec();
        if table.get(head::WIDTH) == Some(&8) {
            table[head::WIDTH] = 0;
        }
        (SECOND.check)(&table)
    };
    found(Program { check, ..SECOND }, Call::Check, 2);
}

#[test]
fn widths_compared_after_places() {
    let pass = |source: &[u32], target: &mut [u32], row: u32, answers: &mut [u32]| {
        let answer = (SECOND.pass)(source, target, row, answers);
        told_as(answer, 19, 4, || places_differ(source, target))
    };
    found(Program { pass, ..SECOND }, Call::Pass, 2);
}

/// Whether sizes or folder places of two sound tables differ.
fn places_differ(one: &[u32], other: &[u32]) -> bool {
    let place = |table: &[u32], row| (size(table, row), is_folder(table, row));
    rows(one) != rows(other) || (0..rows(one)).any(|row| place(one, row) != place(other, row))
}

#[test]
fn source_read_at_the_targets_width() {
    let settle = |source: &[u32], target: &mut [u32], row: u32, choice: u32, content: Content| {
        let answer = (SECOND.settle)(source, target, row, choice, content);
        told_as(answer, 19, 1, || true)
    };
    found(Program { settle, ..SECOND }, Call::Settle, 1);
}

#[test]
fn row_that_stands_has_forty_words() {
    let standing = |source: &[u32], target: &[u32], row: u32| {
        let answer = (SECOND.standing)(source, target, row);
        if answer.count == 72 {
            return done(40);
        }
        answer
    };
    found(Program { standing, ..SECOND }, Call::Standing, 2);
}

#[test]
fn widening_forgets_a_floor() {
    let widen = |table: &[u32], wide: &mut [u32]| widen_and(table, wide, forget_a_floor);
    found(Program { widen, ..SECOND }, Call::Widen, 1);
}

#[test]
fn widening_keeps_the_old_head() {
    let widen = |table: &[u32], wide: &mut [u32]| {
        widen_and(table, wide, |wide| wide[head::WIDTH] = Width::Narrow.told())
    };
    found(Program { widen, ..SECOND }, Call::Widen, 1);
}

#[test]
fn wide_table_widened_again() {
    let widen = |table: &[u32], wide: &mut [u32]| {
        let answer = (SECOND.widen)(table, wide);
        if answer.number == 19 && wide.len() == table.len() {
            wide.copy_from_slice(table);
            return done(rows(table) as u32);
        }
        answer
    };
    found(Program { widen, ..SECOND }, Call::Widen, 1);
}
