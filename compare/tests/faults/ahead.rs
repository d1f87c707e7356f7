//! Faults of who is ahead.

use compare::call::Call;
use compare::program::{Masks, Program, SECOND};
use second::layout::head;
use second::trial::look::width;

use super::found;

/// Who is ahead, after which something is done to the masks.
fn ahead_and(source: &[u32], target: &[u32], row: u32, then: impl Fn(Masks) -> Masks) -> Masks {
    then((SECOND.ahead)(source, target, row))
}

#[test]
fn ahead_the_other_way_round() {
    let ahead = |source: &[u32], target: &[u32], row: u32| {
        ahead_and(source, target, row, |masks| Masks {
            source: masks.target,
            target: masks.source,
            ..masks
        })
    };
    found(Program { ahead, ..SECOND }, Call::Ahead, 2);
}

#[test]
fn bits_of_who_is_ahead_reversed() {
    let ahead = |source: &[u32], target: &[u32], row: u32| {
        let turned = |mask: u32| mask.reverse_bits() >> (32 - width(target).columns());
        ahead_and(source, target, row, |masks| Masks {
            source: turned(masks.source),
            target: turned(masks.target),
            ..masks
        })
    };
    found(Program { ahead, ..SECOND }, Call::Ahead, 2);
}

#[test]
fn only_the_tables_own_devices_are_ahead() {
    let ahead = |source: &[u32], target: &[u32], row: u32| {
        ahead_and(source, target, row, |masks| match masks.number {
            0 => Masks {
                source: masks.source & 1 << source[head::DEVICE],
                target: masks.target & 1 << target[head::DEVICE],
                ..masks
            },
            _ => masks,
        })
    };
    found(Program { ahead, ..SECOND }, Call::Ahead, 2);
}

#[test]
fn ahead_without_a_conflict() {
    let ahead = |source: &[u32], target: &[u32], row: u32| {
        ahead_and(source, target, row, |masks| match masks.number {
            14 => Masks {
                source: 1,
                target: 2,
                ..masks
            },
            _ => masks,
        })
    };
    found(Program { ahead, ..SECOND }, Call::Ahead, 2);
}
