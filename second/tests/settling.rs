//! Settling is an act: each choice has a stamp of its own, at both widths.

mod common;

use common::*;

const CHOICES: [u32; 3] = [THEIRS, OWN, NEW];

/// What a new sheet is to hold.
const ANOTHER: Content = Content {
    mark: 800,
    class: 8,
};

/// The desk has created row 2, and the tablet has it too.
fn copied(width: Width) -> Desk {
    let mut desk = Desk::fresh(width, 0..3, &PLAN);
    let filed = Content {
        mark: 700,
        class: 1,
    };
    desk.event_with(0, 2, CREATE, filed);
    desk.pass(0, 1, 0);
    desk
}

/// What each then does to it: it is changed, to a mark and a class, or removed.
fn in_conflict(width: Width, acts: [Option<Content>; 2]) -> Desk {
    let mut desk = copied(width);
    for (device, act) in acts.into_iter().enumerate() {
        match act {
            Some(content) => desk.event_with(device, 2, CHANGE, content),
            None => desk.event(device, 2, REMOVAL, 0),
        };
    }
    assert_eq!(desk.pass(0, 1, 0).0, [4, 4, 3, 0, 0]);
    desk
}

const THEIR_CHANGE: Option<Content> = Some(Content {
    mark: 701,
    class: 2,
});
const OWN_CHANGE: Option<Content> = Some(Content {
    mark: 702,
    class: 3,
});

/// After a settling the row has the tablet's second stamp, and is live with this content, or removed.
fn assert_settled(acts: [Option<Content>; 2], choice: u32, expected: Option<Content>) {
    for width in Width::BOTH {
        let mut desk = in_conflict(width, acts);
        assert_eq!(desk.settle_with(0, 1, 2, choice, ANOTHER), 2);
        let table = &desk.tables[1];
        let (is, born, holds) = match expected {
            Some(content) => (1, (0, 1), content),
            None => (2, (0, 0), Content::NONE),
        };
        assert_eq!((kind(table, 2), stamp(table, 2)), (is, (1, 2)));
        assert_eq!((birth(table, 2), content_of(table, 2)), (born, holds));
        let newest = vector(table, 0, Time::Newest);
        assert_eq!(newest, Vector::ZERO.with(1, 2));
        let floor = vector(table, 2, Time::Floor);
        assert_eq!(floor, Vector::ZERO.with(0, 2));
        // The conflict doesn't come back, and the settlement goes out.
        let answer = match (acts[0], expected) {
            (_, Some(_)) => COPY,
            (Some(_), None) => REMOVE,
            (None, None) => KEEP,
        };
        assert_eq!(desk.pass(0, 1, 2), (vec![KEEP], 1));
        assert_eq!(desk.pass(1, 0, 2), (vec![answer], 1));
        assert_eq!(stamp(&desk.tables[0], 2), (1, 2));
    }
}

#[test]
fn change_against_change() {
    let acts = [THEIR_CHANGE, OWN_CHANGE];
    assert_settled(acts, THEIRS, THEIR_CHANGE);
    assert_settled(acts, OWN, OWN_CHANGE);
    assert_settled(acts, NEW, Some(ANOTHER));
}

#[test]
fn removal_against_change() {
    let acts = [None, OWN_CHANGE];
    assert_settled(acts, THEIRS, None);
    assert_settled(acts, OWN, OWN_CHANGE);
    assert_settled(acts, NEW, Some(ANOTHER));
}

#[test]
fn change_against_removal() {
    let acts = [THEIR_CHANGE, None];
    assert_settled(acts, THEIRS, THEIR_CHANGE);
    assert_settled(acts, OWN, None);
    assert_settled(acts, NEW, Some(ANOTHER));
}

/// Two desks settle one conflict, and neither has heard of it: whichever way each chose, that is a conflict too.
#[test]
fn two_settlements_of_one_conflict_meet() {
    for width in Width::BOTH {
        for one in CHOICES {
            for other in CHOICES {
                let mut desk = in_conflict(width, [THEIR_CHANGE, OWN_CHANGE]);
                let before = desk.tables[1].clone();
                desk.settle_with(0, 1, 2, one, ANOTHER);
                let after = std::mem::replace(&mut desk.tables[1], before);
                desk.settle_with(1, 0, 2, other, ANOTHER);
                desk.tables[1] = after;
                assert_eq!(desk.pass(0, 1, 0).0, [4, 4, 3, 0, 0]);
                assert_eq!(desk.pass(1, 0, 0).0[2], CONFLICT);
                assert_eq!(desk.ahead(0, 1, 2), masks(0, 0b01, 0b10));
                // Settled once more, it is over.
                desk.settle(0, 1, 2, OWN, 0);
                assert_eq!(desk.pass(1, 0, 0).0[2], COPY);
                assert_eq!(desk.pass(0, 1, 0).0[2], KEEP);
            }
        }
    }
}

/// A third device that took the sheet before hears of the settlement, by whichever choice.
#[test]
fn settlement_goes_on_to_a_third_device() {
    for width in Width::BOTH {
        for choice in CHOICES {
            let mut desk = in_conflict(width, [THEIR_CHANGE, OWN_CHANGE]);
            desk.pass(1, 2, 0);
            desk.settle_with(0, 1, 2, choice, ANOTHER);
            assert_eq!(desk.pass(1, 2, 0).0[2], COPY);
            assert_eq!(stamp(&desk.tables[2], 2), (1, 2));
            let settled = content_of(&desk.tables[1], 2);
            assert_eq!(content_of(&desk.tables[2], 2), settled);
            assert_eq!(desk.pass(0, 2, 0).0[2], KEEP);
        }
    }
}
