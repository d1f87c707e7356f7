//! Every call on damaged tables and on garbage of both widths: it never panics, a refusal changes nothing, and whatever
//! is accepted leaves a sound table.

mod common;

use common::*;

/// Everything random in this file comes from this seed.
const SEED: u64 = 20_030_401;

/// What a call is lent.
#[derive(Clone, Debug, PartialEq)]
struct Lent {
    source: Vec<u32>,
    target: Vec<u32>,
    /// What a widening writes.
    wide: Vec<u32>,
    plan: Vec<u32>,
    answers: Vec<u32>,
    columns: u32,
    numbers: [u32; 4],
}

/// How often each number was given.
type Tally = [u32; 23];

/// Tries every call with what is lent.
fn try_all(lent: &Lent, tally: &mut Tally) {
    let calls: [fn(&mut Lent) -> Answer; 9] = [
        |lent| second::check(&lent.target),
        |lent| {
            let device = lent.numbers[0];
            second::new(lent.columns, device, &lent.plan, &mut lent.target)
        },
        |lent| {
            let answer = second::widen(&lent.target, &mut lent.wide);
            if answer.number == 0 {
                assert_sound(&lent.wide);
            }
            answer
        },
        |lent| {
            let [row, event, mark, class] = lent.numbers;
            second::event(&mut lent.target, row, event, mark, class)
        },
        |lent| {
            let row = lent.numbers[0];
            second::pass(&lent.source, &mut lent.target, row, &mut lent.answers)
        },
        |lent| {
            let [row, choice, mark, class] = lent.numbers;
            second::settle(&lent.source, &mut lent.target, row, choice, mark, class)
        },
        |lent| {
            let (answer, part) = second::beneath(&lent.target, lent.numbers[0]);
            assert_eq!(lent.target[part].len(), answer.count as usize);
            answer
        },
        |lent| second::standing(&lent.source, &lent.target, lent.numbers[0]).0,
        |lent| ahead_number(&lent.source, &lent.target, lent.numbers[0]),
    ];
    for call in calls {
        let mut after = lent.clone();
        let answer = call(&mut after);
        tally[answer.number as usize] += 1;
        if answer.number == 0 {
            assert_sound(&after.target);
        } else {
            assert_eq!(answer.count, 0);
            assert_eq!(&after, lent);
        }
    }
}

fn any_words(random: &mut Random, length: usize) -> Vec<u32> {
    (0..length).map(|_| random.odd_word()).collect()
}

/// Devices 0 and 1 after some events and passes.
fn worked(random: &mut Random, width: Width, plan: &[u32]) -> Desk {
    let mut desk = Desk::fresh(width, 0..2, plan);
    for _ in 0..random.within(0..12) {
        let device = random.within(0..2);
        let row = random.within(0..plan.len());
        match kind(&desk.tables[device], row) {
            3 => _ = desk.pass(1 - device, device, row),
            1 => _ = desk.event(device, row, random.one_of(&[CHANGE, REMOVAL]), 5),
            _ => _ = desk.event(device, row, CREATE, 6),
        }
    }
    desk
}

/// Changes a floor, the counter or a few words of a table, or its length, or nothing.
fn damage(random: &mut Random, table: &mut Vec<u32>) {
    let width = width(table);
    match random.within(0..60) {
        0 | 1 => {
            let column = random.within(0..width.columns()) as u32;
            raise(table, 0, column, random.odd_word());
        }
        2 | 3 => table[head::COUNTER] = u32::MAX,
        4 => table.truncate(random.within(1..table.len())),
        _ => (),
    }
    for _ in 0..random.within(0..3) {
        let row = width.row() * random.within(0..table.len().div_ceil(width.row()));
        let word = match random.within(0..3) {
            0 => random.within(0..4),
            1 => row + random.within(0..word::VECTORS),
            _ => random.within(0..table.len()),
        };
        if let Some(word) = table.get_mut(word) {
            *word = match random.once_in(2) {
                true => random.odd_word(),
                false => word.wrapping_add(1),
            };
        }
    }
}

/// A sound pair of tables with fitting numbers, all of it then damaged a little.
fn damaged(random: &mut Random) -> Lent {
    let rows = random.within(1..12);
    let plan = plans::right(random, rows);
    let width = random.one_of(&Width::BOTH);
    let mut tables = worked(random, width, &plan).tables;
    let row = random.within(0..rows + 1);
    let answers = plan.get(row).map_or(1, |&size| size.max(1));
    let mut lent = Lent {
        target: tables.remove(random.within(0..2)),
        source: tables.remove(0),
        wide: vec![9; Width::Wide.length(rows)],
        answers: vec![9; answers as usize],
        columns: width.columns() as u32,
        numbers: [
            row as u32,
            random.within(0..5) as u32,
            random.odd_word(),
            random.within(0..12) as u32,
        ],
        plan,
    };
    if width == Width::Narrow && random.once_in(10) {
        lent.target = widened(&lent.target);
    }
    damage(random, &mut lent.source);
    damage(random, &mut lent.target);
    if random.once_in(10) {
        let row = random.within(0..rows);
        lent.plan[row] = random.odd_word();
    }
    if random.once_in(20) {
        lent.numbers = std::array::from_fn(|_| random.odd_word());
        lent.columns = random.odd_word();
    }
    if random.once_in(20) {
        lent.answers.push(9);
        lent.wide.push(9);
    }
    lent
}

/// Words without any meaning, the head sometimes excepted.
fn garbage(random: &mut Random) -> Lent {
    let width = random.one_of(&Width::BOTH);
    let row = width.row();
    let length = random.one_of(&[
        0,
        1,
        row - 1,
        row,
        2 * row - 1,
        2 * row,
        2 * row + 1,
        3 * row,
        10 * row,
    ]);
    let rows = length / row;
    let mut lent = Lent {
        source: any_words(random, length),
        target: any_words(random, length),
        wide: any_words(random, Width::Wide.length(rows.saturating_sub(1))),
        plan: any_words(random, rows),
        answers: any_words(random, rows),
        columns: match random.within(0..3) {
            0 => random.odd_word(),
            _ => width.columns() as u32,
        },
        numbers: std::array::from_fn(|_| random.odd_word()),
    };
    if length >= 2 * row && random.once_in(2) {
        for (device, table) in (0..).zip([&mut lent.source, &mut lent.target]) {
            let head = fresh(width, device, &[]);
            table[..row].copy_from_slice(&head);
            table[head::ROWS] = rows as u32 - 1;
        }
    }
    lent
}

/// Tries every call on so many cases.
fn try_cases(cases: usize, case: fn(&mut Random) -> Lent) -> Tally {
    println!("seed {SEED}");
    let mut random = Random::new(SEED);
    let mut tally = Tally::default();
    for _ in 0..cases {
        try_all(&case(&mut random), &mut tally);
    }
    println!("how often each number was given: {tally:?}");
    tally
}

#[test]
fn damaged_tables() {
    let tally = try_cases(40_000, damaged);
    for (number, given) in tally.into_iter().enumerate() {
        // There is no refusal 18, and none 20.
        assert_eq!(given > 0, number != 18 && number != 20, "{number}");
    }
}

#[test]
fn garbage_words() {
    try_cases(40_000, garbage);
}
