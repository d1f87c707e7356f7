//! Faults of a table's check, of a pass, of an event and of what is shown.

use compare::call::Call;
use compare::program::{Answer, Program, SECOND};
use second::layout::{head, word, Time, MOST_LEVELS};
use second::trial::look::{counts, kind, mend, place, rows, size, width};
use second::Content;

use super::{done, found, pass_and};

#[test]
fn last_word_of_the_head_isnt_looked_at() {
    let check = |table: &[u32]| {
        let mut table = table.to_vec();
        let last = width(&table).row() - 1;
        if let Some(word) = table.get_mut(last) {
            *word = 0;
        }
        (SECOND.check)(&table)
    };
    found(Program { check, ..SECOND }, Call::Check, 2);
}

#[test]
fn rows_counted_on_a_refusal() {
    let check = |table: &[u32]| Answer {
        count: rows(table) as u32,
        ..(SECOND.check)(table)
    };
    found(Program { check, ..SECOND }, Call::Check, 2);
}

#[test]
fn too_many_levels() {
    // A table of one level too many is judged as if its innermost folder weren't there.
    let check = |table: &[u32]| {
        let answer = (SECOND.check)(table);
        let rows = rows(table);
        let is_deep = rows == MOST_LEVELS + 1 && size(table, MOST_LEVELS - 1) == 2;
        if answer.number == 2 && is_deep {
            return done(rows as u32);
        }
        answer
    };
    found(Program { check, ..SECOND }, Call::Check, 17);
}

#[test]
fn answers_written_before_a_refusal() {
    let pass = |source: &[u32], target: &mut [u32], row: u32, answers: &mut [u32]| {
        let answer = (SECOND.pass)(source, target, row, answers);
        if answer.number == 7 && !answers.is_empty() {
            answers[0] = answers[0].wrapping_add(1);
        }
        answer
    };
    found(Program { pass, ..SECOND }, Call::Pass, 2);
}

#[test]
fn newest_never_falls() {
    let program = Program {
        pass: |source, target, row, answers| {
            pass_and(source, target, row, answers, |_, before, target| {
                for place in counts(target, 0, Time::Newest) {
                    target[place] = target[place].max(before[place]);
                }
            })
        },
        ..SECOND
    };
    found(program, Call::Pass, 3);
}

#[test]
fn removals_never_give_way() {
    let program = Program {
        pass: |source, target, row, answers| {
            pass_and(source, target, row, answers, |source, before, target| {
                for row in 0..rows(target) {
                    if [source, before].map(|table| kind(table, row)) == [2; 2] {
                        let stamp = place(target, row, word::STAMP);
                        target[stamp..stamp + 2].copy_from_slice(&before[stamp..stamp + 2]);
                    }
                }
                mend(target);
            })
        },
        ..SECOND
    };
    found(program, Call::Pass, 2);
}

#[test]
fn counter_wraps() {
    let event = |table: &mut [u32], row: u32, event: u32, content: Content| {
        let answer = (SECOND.event)(table, row, event, content);
        if answer.number == 15 {
            table[head::COUNTER] = 0;
            return done(0);
        }
        answer
    };
    found(Program { event, ..SECOND }, Call::Event, 2);
}

#[test]
fn side_of_a_conflict() {
    let standing_side = |source: &[u32], target: &[u32], row: u32| {
        let side = (SECOND.standing_side)(source, target, row);
        let is_conflict = side == 0 && (SECOND.standing)(source, target, row).number == 0;
        if is_conflict {
            return 2;
        }
        side
    };
    let program = Program {
        standing_side,
        ..SECOND
    };
    found(program, Call::Standing, 2);
}
