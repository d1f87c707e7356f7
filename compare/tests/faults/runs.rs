//! Both programs have one fault: only the history can tell, by a run.

use compare::judge::Judge;
use compare::program::{Program, SECOND};
use compare::run::{Run, Step};
use compare::shrink;
use second::trial::look::is_folder;
use second::trial::Random;
use second::Content;

use super::{done, forget_a_floor, keep_classes, pass_and, settle_without_an_act, widen_and};

/// The smallest run that fails where both programs have one fault: only the history can tell.
fn smallest_run(faulty: Program) -> Run {
    let judge = Judge::new(faulty, faulty);
    let failing = (0..1000).find_map(|case| {
        let mut random = Random::numbered(2, [0, case]);
        let (run, played) = Run::random(&judge, &mut random, 20, 100);
        played.is_err().then_some(run)
    });
    let run = shrink::run(&judge, failing.expect("the fault is found"));
    assert!(run.play(&judge).is_err());
    run
}

/// Settling by own raises no time, so the conflict comes back.
#[test]
fn settled_conflict_comes_back() {
    let settle = |source: &[u32], target: &mut [u32], row: u32, choice: u32, content: Content| {
        let before = target.to_vec();
        let answer = (SECOND.settle)(source, target, row, choice, content);
        if answer.number == 0 && choice == 2 {
            target.copy_from_slice(&before);
        }
        answer
    };
    let run = smallest_run(Program { settle, ..SECOND });
    assert_eq!(run.plan, [2, 0], "{run}");
    assert!(run.starts.len() <= 3 && run.steps.len() <= 4, "{run}");
}

/// Settling by own is no event, and nobody hears of it.
#[test]
fn settlement_that_is_no_event() {
    let settle = settle_without_an_act;
    let run = smallest_run(Program { settle, ..SECOND });
    assert_eq!(run.plan, [2, 0], "{run}");
    assert!(run.starts.len() <= 2 && run.steps.len() <= 3, "{run}");
}

/// A copy leaves the class behind: no program says so, and no rule, but the event that gave it.
#[test]
fn class_stays_where_it_was_given() {
    let run = smallest_run(Program {
        pass: |source, target, row, answers| {
            pass_and(source, target, row, answers, |_, before, target| {
                keep_classes(before, target)
            })
        },
        ..SECOND
    });
    assert_eq!(run.plan, [2, 0], "{run}");
    assert!(run.starts.len() <= 2 && run.steps.len() <= 2, "{run}");
}

/// What a widened table had heard is forgotten.
#[test]
fn widened_table_has_forgotten() {
    let widen = |table: &[u32], wide: &mut [u32]| widen_and(table, wide, forget_a_floor);
    let run = smallest_run(Program { widen, ..SECOND });
    assert_eq!(run.plan, [2, 0], "{run}");
    assert!(
        matches!(run.steps.last(), Some(Step::Widen { .. })),
        "{run}"
    );
    assert!(run.starts.len() <= 2 && run.steps.len() <= 3, "{run}");
}

/// A pass between two widths does nothing and says that it has done it all.
#[test]
fn pass_between_widths_says_success() {
    let pass = |source: &[u32], target: &mut [u32], row: u32, answers: &mut [u32]| {
        let answer = (SECOND.pass)(source, target, row, answers);
        if answer.number != 19 {
            return answer;
        }
        for (row, answer) in (row as usize..).zip(answers) {
            *answer = if is_folder(target, row) { 5 } else { 0 };
        }
        done(1)
    };
    let run = smallest_run(Program { pass, ..SECOND });
    assert!(run.starts.len() <= 2 && run.steps.len() <= 2, "{run}");
    assert_eq!(run.plan.len(), 1, "{run}");
}
