//! What is lent to the calls, at both widths: sound, damaged, garbage, and at the limits.

use second::layout::{head, word, Kind, Width, LAST_CLASS, MOST_LEVELS, MOST_ROWS};
use second::trial::look::{fresh, is_folder, mend, rows, size, width};
use second::trial::{plans, Random};
use second::Content;

use crate::call::Lent;
use crate::damage::damage;
use crate::sound::{knowing_more, right_content, World};

/// Made-up sound tables of at most so many rows, with numbers that mostly fit. Now and then the two don't go together.
pub fn sound(random: &mut Random, most_rows: usize) -> Lent {
    let rows = random.within(1..most_rows + 1);
    let plan = plans::right(random, rows);
    let world = World::new(random, plan);
    let [(one_width, one), (width, other)] = two_devices(random);
    let mut lent = Lent {
        source: world.table(random, one_width, one),
        target: world.table(random, width, other),
        ..Lent::default()
    };
    match random.within(0..24) {
        0 => lent.source = world.table(random, width, other),
        1 => lent.target = other_tree(random, &world).table(random, width, other),
        2 => lent.source = knowing_more(random, &lent.source),
        3 => lent.target = knowing_more(random, &lent.target),
        _ => (),
    }
    tell(random, &mut lent);
    lent
}

/// Sound tables, one or both of them then damaged.
pub fn damaged(random: &mut Random, most_rows: usize) -> Lent {
    let mut lent = if random.once_in(16) {
        misshapen(random)
    } else {
        sound(random, most_rows)
    };
    let which = random.within(0..4);
    if which != 0 {
        damage(random, &mut lent.target);
    }
    if which <= 1 {
        damage(random, &mut lent.source);
    }
    lent
}

/// Words without any meaning; sometimes the head has one, sometimes the rows too.
pub fn garbage(random: &mut Random) -> Lent {
    let width = random.one_of(&Width::BOTH);
    let row = width.row();
    let rows = random.one_of(&[0, 1, 2, 3, 4, 10]);
    let whole = row * rows;
    let length = random.one_of(&[whole, whole, whole + 1, whole.saturating_sub(1), rows]);
    let mut words = |length: usize| -> Vec<u32> {
        let zero_once_in = random.within(1..5);
        let mut word = || match random.once_in(zero_once_in) {
            true => 0,
            false => random.odd_word(),
        };
        (0..length).map(|_| word()).collect()
    };
    let mut lent = Lent {
        source: words(length),
        target: words(length),
        wide: words(Width::Wide.row() * rows),
        plan: words(rows),
        answers: words(rows),
        ..Lent::default()
    };
    let meaning = random.within(0..3);
    for (device, table) in (0..).zip([&mut lent.source, &mut lent.target]) {
        if table.len() >= 2 * row && meaning > 0 {
            mean(table, width, device, meaning > 1);
        }
    }
    lent.columns = random.odd_word();
    lent.device = random.odd_word();
    lent.row = random.odd_word();
    lent.act = random.odd_word();
    lent.content = Content {
        mark: random.odd_word(),
        class: random.odd_word(),
    };
    lent
}

/// What a sheet may hold; once in so many times what none may.
pub fn content(random: &mut Random, wrong_once_in: usize) -> Content {
    let right = right_content(random);
    if !random.once_in(wrong_once_in) {
        return right;
    }
    let class = random.one_of(&[LAST_CLASS + 1, LAST_CLASS + 7, 0x8000_0000, u32::MAX]);
    match random.within(0..3) {
        0 => Content { class, ..right },
        1 => Content { mark: 0, ..right },
        _ => Content { mark: 0, class },
    }
}

/// Gives words a right head and root; and if so wished, sheets beneath it and right summaries.
fn mean(table: &mut [u32], width: Width, device: u32, all: bool) {
    let head = fresh(width, device, &[]);
    table[..width.row()].copy_from_slice(&head);
    let rows = rows(table);
    table[head::ROWS] = rows as u32;
    table[width.place(0, word::KIND)] = Kind::Folder.number();
    table[width.place(0, word::SIZE)] = rows as u32;
    if all {
        for row in 1..rows {
            table[width.place(row, word::KIND)] %= 3;
            table[width.place(row, word::SIZE)] = 1;
        }
        mend(table);
    }
}

/// A plan, right or wrong, with room for its table, columns and a device.
pub fn plan(random: &mut Random, most_rows: usize) -> Lent {
    let plan = plans::any(random, most_rows);
    let width = random.one_of(&Width::BOTH);
    let columns = width.columns() as u32;
    let no_columns = random.one_of(&[0, 7, 9, 15, 17, 24, u32::MAX]);
    let room = width.length(plan.len());
    let row = width.row();
    let length = match random.within(0..12) {
        0 => room + 1,
        1 => room - 1,
        2 => random.one_of(&[0, row, room - row, room + row]),
        3 => Width::BOTH[1 - width as usize].length(plan.len()),
        _ => room,
    };
    Lent {
        target: (0..length).map(|_| random.odd_word()).collect(),
        plan,
        columns: match random.once_in(12) {
            true => no_columns,
            false => columns,
        },
        device: match random.within(0..12) {
            0 => random.one_of(&[columns, u32::MAX]),
            1 => columns - 1,
            _ => random.within(0..width.columns()) as u32,
        },
        ..Lent::default()
    }
}

/// Tables and plans at and around the greatest number of rows, of levels and of counts.
pub fn limits() -> impl Iterator<Item = Lent> {
    let long = [1, 2, MOST_ROWS - 1, MOST_ROWS, MOST_ROWS + 1, 300]
        .into_iter()
        .map(|rows| plans::flat(rows - 1));
    let deep = (MOST_LEVELS - 1..MOST_LEVELS + 2)
        .flat_map(|folders| [0, 1, 3].map(|sheets| plans::chain(folders, sheets)));
    let both = [(MOST_LEVELS - 1, MOST_ROWS), (MOST_LEVELS, MOST_ROWS)]
        .into_iter()
        .map(|(folders, rows)| plans::chain(folders, rows - folders));
    let plans = long.chain(deep).chain(both);
    plans.flat_map(|plan| Width::BOTH.map(|width| at_limit(width, &plan)).concat())
}

/// The tables of a plan with counters at the end of counting, for each event, at the last row.
fn at_limit(width: Width, plan: &[u32]) -> Vec<Lent> {
    let last = plan.len() - 1;
    let last_device = width.columns() as u32 - 1;
    let table = |device: u32, counter: u32, act: u32| {
        let mut table = fresh(width, device, plan);
        table[head::COUNTER] = counter;
        if !is_folder(&table, last) && counter > 0 && act > 1 {
            let sheet = [1, 1, device, counter, device, 1, 9];
            table[width.place(last, 0)..][..sheet.len()].copy_from_slice(&sheet);
        }
        mend(&mut table);
        table
    };
    let lent = |counter: u32, act: u32| Lent {
        source: table(0, counter, act),
        target: table(last_device, counter, act),
        wide: vec![9; Width::Wide.length(plan.len())],
        answers: vec![9],
        row: last as u32,
        act,
        content: Content {
            mark: 1,
            class: LAST_CLASS,
        },
        plan: plan.to_vec(),
        columns: width.columns() as u32,
        ..Lent::default()
    };
    [0, 1, u32::MAX - 1, u32::MAX]
        .into_iter()
        .flat_map(|counter| [1, 2, 3].map(|act| lent(counter, act)))
        .collect()
}

/// Two tables of a tree that breaks the order.
fn misshapen(random: &mut Random) -> Lent {
    let plan = plans::any(random, 8);
    let right = plans::right(random, plan.len().clamp(1, MOST_ROWS));
    let [(one_width, one), (width, other)] = two_devices(random);
    let plans = random.one_of(&[[&plan, &plan], [&plan, &right], [&right, &plan]]);
    let mut lent = Lent {
        source: fresh(one_width, one, plans[0]),
        target: fresh(width, other, plans[1]),
        ..Lent::default()
    };
    tell(random, &mut lent);
    lent
}

/// The same world on another tree, often almost the same.
fn other_tree(random: &mut Random, world: &World) -> World {
    let rows = world.plan.len();
    let mut plan = world.plan.clone();
    let row = random.within(0..rows);
    match (random.within(0..4), plan[row]) {
        // A sheet becomes an empty folder, or the other way about.
        (0 | 1, number @ (0 | 1)) if row > 0 => plan[row] = 1 - number,
        (2, _) => plan = plans::without(&plan, row, true).unwrap_or(plan),
        _ => {
            let rows = random.one_of(&[rows, rows, rows.saturating_sub(1).max(1)]);
            plan = plans::right(random, rows);
        }
    }
    World {
        plan,
        counters: world.counters,
    }
}

/// Two devices and the widths of their tables, mostly alike.
fn two_devices(random: &mut Random) -> [(Width, u32); 2] {
    let width = random.one_of(&Width::BOTH);
    let other_width = match random.once_in(10) {
        true => random.one_of(&Width::BOTH),
        false => width,
    };
    let one = random.within(0..width.columns());
    let columns = other_width.columns();
    let other = (one + random.within(1..columns)) % columns;
    [(width, one as u32), (other_width, other as u32)]
}

/// Chooses the numbers and the outputs, so that they mostly fit the target.
fn tell(random: &mut Random, lent: &mut Lent) {
    let rows = rows(&lent.target);
    lent.row = match random.within(0..24) {
        0 => rows as u32,
        1 => {
            let row = random.within(0..rows + 1) as u32;
            random.near(row)
        }
        2..=5 => 0,
        6..=11 if rows > 0 => random.within(0..rows) as u32,
        _ => some_sheet(random, &lent.target).unwrap_or(0) as u32,
    };
    lent.act = match random.within(0..16) {
        0 => random.odd_word(),
        act => act as u32 % 3 + 1,
    };
    lent.content = content(random, 12);
    let size = match lent.row as usize {
        row if row < rows => size(&lent.target, row).min(300),
        _ => 1,
    };
    lent.answers = output(random, size, &[0, 1, rows]);
    let (wide, narrow) = (Width::Wide.length(rows), Width::Narrow.length(rows));
    lent.wide = output(random, wide, &[0, narrow, wide + Width::Wide.row()]);
    lent.columns = width(&lent.target).columns() as u32;
}

/// Words to be written over, mostly as many as are right.
fn output(random: &mut Random, right: usize, wrong: &[usize]) -> Vec<u32> {
    let length = match random.within(0..24) {
        0 => right + 1,
        1 => right.saturating_sub(1),
        2 => random.one_of(wrong),
        _ => right,
    };
    vec![random.odd_word(); length]
}

/// One of a table's sheets.
fn some_sheet(random: &mut Random, table: &[u32]) -> Option<usize> {
    let sheets: Vec<usize> = (0..rows(table))
        .filter(|&row| !is_folder(table, row))
        .collect();
    (!sheets.is_empty()).then(|| random.one_of(&sheets))
}
