//! Both widths: which devices and heads each has, and widening.

mod common;

use common::*;

/// New tables of so many columns.
fn new_with(columns: u32, device: u32, words: usize) -> Answer {
    second::new(columns, device, &PLAN, &mut vec![0; words])
}

/// A wide table's words from a narrow one's, as the paper has them: more room in the head and after each vector.
fn spread(narrow: &[u32]) -> Vec<u32> {
    let mut wide = vec![0; 72 * narrow.len() / 40];
    wide[..3].copy_from_slice(&narrow[..3]);
    wide[3] = 16;
    for (narrow, wide) in narrow.chunks(40).zip(wide.chunks_mut(72)).skip(1) {
        wide[..8].copy_from_slice(&narrow[..8]);
        for vector in 0..4 {
            let counts = &narrow[8 + 8 * vector..][..8];
            wide[8 + 16 * vector..][..8].copy_from_slice(counts);
        }
    }
    wide
}

/// Two narrow tables that know something of each other.
fn worked() -> Desk {
    let mut desk = Desk::fresh(Width::Narrow, 0..2, &PLAN);
    desk.event(0, 2, CREATE, 700);
    desk.event(1, 3, CREATE, 701);
    desk.pass(0, 1, 0);
    desk.pass(1, 0, 1);
    desk.event(1, 2, CHANGE, 702);
    desk.event(0, 3, REMOVAL, 0);
    desk
}

#[test]
fn rows_have_40_and_72_words() {
    assert_eq!(Width::BOTH.map(Width::row), [40, 72]);
    let lengths = Width::BOTH.map(|width| [1, 256].map(|rows| width.length(rows)));
    assert_eq!(lengths, [[80, 10_280], [144, 18_504]]);
}

#[test]
fn devices_up_to_7_and_15() {
    assert_eq!(new_with(8, 7, 240), done(5));
    assert_eq!(new_with(8, 8, 240), refused(17));
    assert_eq!(new_with(16, 8, 432), done(5));
    assert_eq!(new_with(16, 15, 432), done(5));
    assert_eq!(new_with(16, 16, 432), refused(17));
    assert_eq!(new_with(16, u32::MAX, 432), refused(17));

    for (width, device, answer) in [
        (Width::Narrow, 7, done(5)),
        (Width::Narrow, 8, refused(1)),
        (Width::Wide, 8, done(5)),
        (Width::Wide, 15, done(5)),
        (Width::Wide, 16, refused(1)),
    ] {
        assert_eq!(second::check(&fresh(width, device, &PLAN)), answer);
    }
}

#[test]
fn eight_columns_or_sixteen() {
    for columns in [0, 1, 7, 9, 15, 17, 40, 72, u32::MAX] {
        for words in [240, 432] {
            assert_eq!(new_with(columns, 0, words), refused(19), "{columns}");
        }
    }
}

#[test]
fn new_tables_have_the_length_of_their_width() {
    for (columns, words) in [(8, 432), (16, 240), (8, 241), (16, 431), (16, 0)] {
        assert_eq!(new_with(columns, 0, words), refused(9));
    }
}

#[test]
fn heads_tell_0_or_16() {
    for told in [1, 7, 8, 15, 17, 40, 72, u32::MAX] {
        for width in Width::BOTH {
            let mut table = new_table(width, 0, &PLAN);
            table[3] = told;
            assert_eq!(second::check(&table), refused(1), "{told}");
        }
    }
}

#[test]
fn words_of_one_width_are_none_of_the_other() {
    // 80 rows of 40 words and 44 rows of 72 words have one length.
    let [narrow, wide] = [(Width::Narrow, 80), (Width::Wide, 44)]
        .map(|(width, rows)| new_table(width, 0, &plans::flat(rows - 1)));
    assert_eq!([narrow.len(), wide.len()], [3240; 2]);
    // Words 40 and 41 are a row in one and the rest of the head in the other.
    for (mut table, told, rows, number) in [(narrow, 16, 44, 1), (wide, 0, 80, 2)] {
        table[3] = told;
        assert_eq!(second::check(&table), refused(1));
        table[2] = rows;
        assert_eq!(second::check(&table), refused(number));
    }
}

#[test]
fn widening_keeps_every_event() {
    for table in worked().tables {
        let wide = widened(&table);
        assert_eq!(wide, spread(&table));
        assert_eq!(narrowed(&wide), table);
        assert_sound(&wide);
    }
}

#[test]
fn a_new_table_widened_is_a_new_wide_table() {
    for plan in [&PLAN[..], &[1], &plans::flat(255), &plans::chain(15, 1)] {
        let wide = widened(&new_table(Width::Narrow, 7, plan));
        assert_eq!(wide, new_table(Width::Wide, 7, plan));
    }
}

#[test]
fn work_goes_on_alike_after_widening() {
    let mut narrow = worked();
    let mut wide = worked();
    for device in 0..2 {
        wide.widen(device);
    }
    for (source, target) in [(0, 1), (1, 0), (0, 1)] {
        let passed = narrow.pass(source, target, 0);
        assert_eq!(wide.pass(source, target, 0), passed);
    }
    for desk in [&mut narrow, &mut wide] {
        desk.event(0, 4, CREATE, 9);
    }
    for device in 0..2 {
        assert_eq!(widened(&narrow.tables[device]), wide.tables[device]);
    }
}

#[test]
fn a_widened_table_hears_of_device_15() {
    let mut desk = worked();
    desk.widen(0);
    let mut late = new_table(Width::Wide, 15, &PLAN);
    assert_eq!(second::event(&mut late, 4, CREATE, 77, 0), done(1));
    let mut answers = [9; 5];
    let answer = second::pass(&late, &mut desk.tables[0], 0, &mut answers);
    assert_eq!((answer, answers), (done(3), [4, 5, 0, 0, 1]));
    assert_eq!(stamp(&desk.tables[0], 4), (15, 1));
    assert_eq!(vector(&desk.tables[0], 4, Time::Floor).count(15), 1);
    assert_sound(&desk.tables[0]);
}

#[test]
fn every_call_on_two_widths_gives_19() {
    let desk = worked();
    let narrow = &desk.tables[0];
    let wide = widened(&desk.tables[1]);
    for (source, target) in [(narrow, &wide), (&wide, narrow)] {
        let mut after = target.clone();
        let mut answers = [9; 5];
        assert_eq!(
            second::pass(source, &mut after, 0, &mut answers),
            refused(19)
        );
        assert_eq!(
            second::settle(source, &mut after, 2, OWN, 1, 0),
            refused(19)
        );
        let (answer, side) = second::standing(source, &after, 2);
        assert_eq!((answer, side), (refused(19), second::Side::None));
        assert_eq!(second::ahead(source, &after, 2), masks(19, 0, 0));
        assert_eq!((&after, answers), (target, [9; 5]));
    }
}
