//! Programs with one fault each: the comparison finds it, and the case that it tells of is small.

use compare::call::{Call, Lent};
use compare::judge::{Failure, Judge};
use compare::lents;
use compare::program::{Answer, Program, SECOND};
use compare::shrink;
use second::layout::{head, word, Time};
use second::trial::look::{counts, mend, place, rows};
use second::trial::Random;
use second::Content;

mod ahead;
mod calls;
mod contents;
mod runs;
mod settling;
mod widths;

/// The smallest failing case of a program, among so many made-up ones: sound, damaged, and plans.
fn smallest(program: Program, cases: u64) -> Option<(Call, Lent)> {
    let judge = Judge::new(program, SECOND);
    for case in 0..cases {
        let random = &mut Random::numbered(1, [0, case]);
        let lent = match case % 3 {
            0 => lents::sound(random, 12),
            1 => lents::damaged(random, 12),
            _ => lents::plan(random, 12),
        };
        for call in Call::ALL {
            if let Err(Failure { call, lent }) = judge.call(call, &lent) {
                assert!(!judge.complaints(call, &lent).is_empty());
                return Some((call, shrink::lent(&judge, call, *lent)));
            }
        }
    }
    None
}

/// The fault is found in this call, and told of with at most so many rows.
fn found(program: Program, call: Call, most_rows: usize) {
    let (found_in, lent) = smallest(program, 30_000).expect("the fault is found");
    assert_eq!(found_in, call);
    assert!(rows(&lent.target) <= most_rows, "{lent:?}");
}

fn done(count: u32) -> Answer {
    Answer { number: 0, count }
}

fn refused(number: u32) -> Answer {
    Answer { number, count: 0 }
}

/// The answer, or a refusal by another number where it has this one and something holds.
fn told_as(answer: Answer, number: u32, other: u32, holds: impl Fn() -> bool) -> Answer {
    if answer.number == number && holds() {
        return refused(other);
    }
    answer
}

/// A pass after which something is done to the target's words, by those of the source and of the target before it.
fn pass_and(
    source: &[u32],
    target: &mut [u32],
    row: u32,
    answers: &mut [u32],
    then: fn(&[u32], &[u32], &mut [u32]),
) -> Answer {
    let before = target.to_vec();
    let answer = (SECOND.pass)(source, target, row, answers);
    if answer.number == 0 {
        then(source, &before, target);
    }
    answer
}

/// Gives each of the target's rows the class that it had before.
fn keep_classes(before: &[u32], target: &mut [u32]) {
    for row in 0..rows(target) {
        let class = place(target, row, word::CLASS);
        target[class] = before[class];
    }
}

/// Gives a row of a table the stamp that it has in another.
fn put_stamp(from: &[u32], to: &mut [u32], row: u32) {
    let stamp = place(to, row as usize, word::STAMP);
    to[stamp..stamp + 2].copy_from_slice(&from[stamp..stamp + 2]);
    mend(to);
}

/// Settling by own with nothing but times, as if it were no act.
fn settle_without_an_act(
    source: &[u32],
    target: &mut [u32],
    row: u32,
    choice: u32,
    content: Content,
) -> Answer {
    let before = target.to_vec();
    let answer = (SECOND.settle)(source, target, row, choice, content);
    if answer.number != 0 || choice != 2 {
        return answer;
    }
    put_stamp(&before, target, row);
    target[head::COUNTER] = before[head::COUNTER];
    done(0)
}

/// Widening, after which something is done to the wide words.
fn widen_and(table: &[u32], wide: &mut [u32], then: fn(&mut [u32])) -> Answer {
    let answer = (SECOND.widen)(table, wide);
    if answer.number == 0 {
        then(wide);
    }
    answer
}

/// Takes the last row's floor away.
fn forget_a_floor(wide: &mut [u32]) {
    let floor = counts(wide, rows(wide) - 1, Time::Floor);
    wide[floor].fill(0);
}

#[test]
fn no_fault() {
    assert_eq!(smallest(SECOND, 700), None);
}
