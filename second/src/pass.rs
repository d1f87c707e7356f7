//! A one-way pass, each row looked at by itself.

use crate::rules::{self, Ruling};
use crate::table::Table;
use crate::times;

/// The answer for a folder that is walked.
const WALKED: u32 = 4;
/// The answer for a folder that is passed over, or lies beneath one.
const PASSED_OVER: u32 = 5;

/// What a pass leaves behind.
pub struct Passed {
    /// The target after the pass.
    pub target: Table,
    /// A number for each row of the subtree.
    pub answers: Vec<u32>,
    /// The rows looked at.
    pub looked_at: u32,
}

/// Passes the subtree that starts at a row.
///
/// What a pass does at one row changes nothing that it reads at another, so each row it looks at is judged by
/// the tables as they were.
pub fn pass(source: &Table, target: &Table, start: usize) -> Passed {
    let passed_over: Vec<bool> = (0..target.rows.len())
        .map(|row| target.rows[row].is_folder() && is_passed_over(source, target, row))
        .collect();
    let is_beneath = |row: usize| {
        let mut above = target.path(row).into_iter().filter(|&above| above < row);
        above.any(|above| start <= above && passed_over[above])
    };

    let mut after = target.clone();
    let mut answers = Vec::new();
    let mut looked_at = 0;
    for row in target.subtree(start) {
        let answer = if is_beneath(row) {
            answer_beneath(target, row)
        } else {
            looked_at += 1;
            look_at(source, target, &mut after, row, passed_over[row])
        };
        answers.push(answer);
    }
    times::mend(&mut after);
    Passed {
        target: after,
        answers,
        looked_at,
    }
}

/// Does at one row what the tables before the pass call for, and gives its answer.
fn look_at(
    source: &Table,
    before: &Table,
    after: &mut Table,
    row: usize,
    passed_over: bool,
) -> u32 {
    if passed_over {
        times::raise(after, row, times::full_least(source, row));
        PASSED_OVER
    } else if before.rows[row].is_folder() {
        WALKED
    } else {
        let ruling = rules::ruling(source, before, row);
        follow(ruling, source, after, row);
        ruling.answer()
    }
}

/// Whether the target covers all that is beneath the source's folder, and the source's folder is level.
fn is_passed_over(source: &Table, target: &Table, folder: usize) -> bool {
    let newest = times::summary(source, folder).newest;
    times::full_least(target, folder).covers_all(&newest) && times::is_level(source, folder)
}

/// The answer for a row beneath a folder that is passed over.
fn answer_beneath(target: &Table, row: usize) -> u32 {
    if target.rows[row].is_folder() {
        PASSED_OVER
    } else {
        Ruling::Keep.answer()
    }
}

/// Does at one sheet what the rules say.
fn follow(ruling: Ruling, source: &Table, target: &mut Table, row: usize) {
    if ruling.takes() {
        target.rows[row].take(&source.rows[row]);
    }
    if ruling != Ruling::Conflict {
        times::raise(target, row, times::known(source, row));
    }
}
