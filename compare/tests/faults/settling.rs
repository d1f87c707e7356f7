//! Faults of the stamp that a settling makes.

use compare::call::Call;
use compare::program::{Program, SECOND};
use second::Content;

use super::{done, found, put_stamp, settle_without_an_act};

#[test]
fn theirs_keeps_their_stamp() {
    let settle = |source: &[u32], target: &mut [u32], row: u32, choice: u32, content: Content| {
        let answer = (SECOND.settle)(source, target, row, choice, content);
        if answer.number == 0 && choice == 1 {
            put_stamp(source, target, row);
        }
        answer
    };
    found(Program { settle, ..SECOND }, Call::Settle, 2);
}

#[test]
fn own_makes_no_stamp() {
    let settle = settle_without_an_act;
    found(Program { settle, ..SECOND }, Call::Settle, 2);
}

#[test]
fn last_count_is_left_to_own() {
    let settle = |source: &[u32], target: &mut [u32], row: u32, choice: u32, content: Content| {
        let answer = (SECOND.settle)(source, target, row, choice, content);
        match (answer.number, choice) {
            (15, 2) => done(0),
            _ => answer,
        }
    };
    found(Program { settle, ..SECOND }, Call::Settle, 2);
}
