//! The calls of a program, whichever it is, on words.

use kettleflock::raw;
pub use kettleflock::raw::{Answer, Masks};
use second::Content;

/// A program of the calls.
#[derive(Clone, Copy)]
pub struct Program {
    /// Its name in what is printed.
    pub name: &'static str,
    /// `kf_check`.
    pub check: fn(&[u32]) -> Answer,
    /// `kf_new`.
    pub new: fn(u32, u32, &[u32], &mut [u32]) -> Answer,
    /// `kf_widen`.
    pub widen: fn(&[u32], &mut [u32]) -> Answer,
    /// `kf_event`.
    pub event: fn(&mut [u32], u32, u32, Content) -> Answer,
    /// `kf_pass`.
    pub pass: fn(&[u32], &mut [u32], u32, &mut [u32]) -> Answer,
    /// `kf_settle`.
    pub settle: fn(&[u32], &mut [u32], u32, u32, Content) -> Answer,
    /// `kf_beneath`.
    pub beneath: fn(&[u32], u32) -> Answer,
    /// `kf_standing`.
    pub standing: fn(&[u32], &[u32], u32) -> Answer,
    /// `kf_standing_side`.
    pub standing_side: fn(&[u32], &[u32], u32) -> u32,
    /// `kf_ahead`.
    pub ahead: fn(&[u32], &[u32], u32) -> Masks,
}

/// The product, through its exports.
pub const PRODUCT: Program = Program {
    name: "product",
    check: raw::check,
    new: raw::new,
    widen: raw::widen,
    event: |table, row, event, Content { mark, class }| raw::event(table, row, event, mark, class),
    pass: raw::pass,
    settle: |source, target, row, choice, Content { mark, class }| {
        raw::settle(source, target, row, choice, mark, class)
    },
    beneath: raw::beneath,
    standing: raw::standing,
    standing_side: raw::standing_side,
    ahead: raw::ahead,
};

/// The second program.
pub const SECOND: Program = Program {
    name: "second",
    check: |table| told(second::check(table)),
    new: |columns, device, plan, table| told(second::new(columns, device, plan, table)),
    widen: |table, wide| told(second::widen(table, wide)),
    event: |table, row, event, Content { mark, class }| {
        told(second::event(table, row, event, mark, class))
    },
    pass: |source, target, row, answers| told(second::pass(source, target, row, answers)),
    settle: |source, target, row, choice, Content { mark, class }| {
        told(second::settle(source, target, row, choice, mark, class))
    },
    beneath: |table, row| told(second::beneath(table, row).0),
    standing: |source, target, row| told(second::standing(source, target, row).0),
    standing_side: |source, target, row| second::standing(source, target, row).1 as u32,
    ahead: |source, target, row| {
        let masks = second::ahead(source, target, row);
        Masks {
            number: masks.number,
            source: masks.source,
            target: masks.target,
        }
    },
};

fn told(answer: second::Answer) -> Answer {
    Answer {
        number: answer.number,
        count: answer.count,
    }
}
