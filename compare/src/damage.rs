//! Damage to a table.

use second::layout::{head, word, Kind, Time};
use second::trial::look::{counts, mend, place, rows, width};
use second::trial::Random;

/// Damages a table in one way or several. Sometimes what comes of it is sound again.
pub fn damage(random: &mut Random, table: &mut Vec<u32>) {
    for _ in 0..random.one_of(&[1, 1, 1, 2, 3]) {
        if rows(table) > 0 {
            hurt(random, table);
        }
    }
    if random.once_in(2) {
        mend(table);
    }
}

/// Damages a table in one way.
fn hurt(random: &mut Random, table: &mut Vec<u32>) {
    let width = width(table);
    let row = random.within(0..rows(table));
    let devices = [0, 1, 2, 7, 8, 15, 16, u32::MAX];
    match random.within(0..20) {
        0..=6 => change(random, table, row),
        7 => {
            let kind = place(table, row, word::KIND);
            table[kind] = random.one_of(&[0, 1, 2, 3, 4, u32::MAX]);
        }
        8 => change_length(random, table),
        9 => {
            let own = table[head::DEVICE] as usize % width.columns();
            let floor = counts(table, row, Time::Floor).start;
            table[floor + own] = random.odd_word();
        }
        10 => {
            let event = place(table, row, random.one_of(&[word::STAMP, word::BIRTH]));
            table[event] = random.one_of(&devices);
            table[event + 1] = random.odd_word();
        }
        11 => swap_rows(random, table, row),
        12 => resize(random, table, row),
        13 => table[head::DEVICE] = random.one_of(&devices),
        14 => table[head::COUNTER] = random.one_of(&[0, 1, u32::MAX - 1, u32::MAX]),
        15 => table[head::WIDTH] = random.one_of(&[0, 1, 7, 8, 15, 16, 17, 40, 72]),
        16 => {
            let column = random.within(counts(table, row, Time::Floor));
            table[column] = random.odd_word();
        }
        17 => {
            let class = place(table, row, word::CLASS);
            table[class] = random.one_of(&[0, 1, 9, 10, 16, u32::MAX]);
        }
        18 => {
            let mark = place(table, row, word::MARK);
            table[mark] = 0;
        }
        _ => pretend(random, table),
    }
}

/// Changes a word in the head, in a row or anywhere.
fn change(random: &mut Random, table: &mut [u32], row: usize) {
    let width = width(table);
    let in_row = |word: usize| width.place(row, word);
    let summary = width.counts(Time::Newest).start;
    let places = match random.within(0..7) {
        0 => 0..table.len(),
        1 | 2 => in_row(0)..in_row(word::VECTORS),
        3 => in_row(summary)..in_row(width.row()),
        4 => counts(table, row, Time::Floor),
        5 => 0..head::WIDTH,
        _ => 0..width.row(),
    };
    let word = random.within(places);
    table[word] = if random.once_in(2) {
        random.odd_word()
    } else {
        random.near(table[word])
    };
}

/// Makes a table longer or shorter; its head may know of it.
fn change_length(random: &mut Random, table: &mut Vec<u32>) {
    let length = table.len();
    let row = width(table).row();
    let changed = match random.within(0..5) {
        0 => random.within(0..length),
        1 => length - 1,
        2 => length + 1,
        3 => length - row,
        _ => length + row,
    };
    table.resize(changed, 0);
    if random.once_in(2) && table.len() > head::ROWS {
        table[head::ROWS] = rows(table) as u32;
    }
}

/// The head tells the other width, and as many rows as that makes of the words.
fn pretend(random: &mut Random, table: &mut Vec<u32>) {
    table[head::WIDTH] = 16 - width(table).told();
    if random.once_in(2) {
        let row = width(table).row();
        table.resize(table.len().next_multiple_of(row).max(2 * row), 0);
    }
    table[head::ROWS] = rows(table) as u32;
}

/// Exchanges two rows.
fn swap_rows(random: &mut Random, table: &mut [u32], one: usize) {
    let other = random.within(0..rows(table));
    for word in 0..width(table).row() {
        table.swap(place(table, one, word), place(table, other, word));
    }
}

/// Gives a row a size that leads elsewhere, and makes it a folder where it needs one.
fn resize(random: &mut Random, table: &mut [u32], row: usize) {
    let size = place(table, row, word::SIZE);
    table[size] = match random.within(0..4) {
        0 => random.within(0..rows(table) + 2) as u32,
        1 => (rows(table) - row) as u32,
        2 => (row as u32).wrapping_neg().wrapping_add(1),
        _ => random.near(table[size]),
    };
    if random.once_in(2) {
        let kind = place(table, row, word::KIND);
        table[kind] = Kind::Folder.number();
    }
}
