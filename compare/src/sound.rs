//! Made-up sound tables: no run need ever give them.

use std::array;

use second::layout::{head, word, Kind, Time, Width, LAST_CLASS};
use second::trial::look::{fresh, known, mend, place, rows, set_vector, vector, width};
use second::trial::Random;
use second::{Content, Vector};

/// What the tables of one case agree on: the tree, and how far each device has counted.
#[derive(Clone, Debug)]
pub struct World {
    /// The tree.
    pub plan: Vec<u32>,
    /// Each device's counter.
    pub counters: Vector,
}

/// How much a table knows.
#[derive(Clone, Copy)]
enum Knowledge {
    /// Nothing of other devices.
    Nothing,
    /// The same at every row: it is level everywhere.
    Level,
    /// Everything, at every row.
    Everything,
    /// Something at one row in so many.
    Here(usize),
}

impl World {
    /// A world on this tree, its counts mostly small so that they often meet.
    pub fn new(random: &mut Random, plan: Vec<u32>) -> World {
        let most = random.one_of(&[1, 2, 4, 4, 4, u32::MAX]);
        World {
            plan,
            counters: Vector(array::from_fn(|_| match random.within(0..20) {
                0 => u32::MAX - random.within(0..2) as u32,
                1 => random.odd_word(),
                _ => random.up_to(most),
            })),
        }
    }

    /// Some table of a device in this world.
    pub fn table(&self, random: &mut Random, width: Width, device: u32) -> Vec<u32> {
        let mut table = fresh(width, device, &self.plan);
        table[head::COUNTER] = self.counters.count(device);
        self.know(random, &mut table);
        let kinds = random.one_of(&[
            &[Kind::Never, Kind::Live, Kind::Removed][..],
            &[Kind::Never, Kind::Live, Kind::Live, Kind::Live],
            &[Kind::Live],
            &[Kind::Live, Kind::Removed],
        ]);
        for row in 0..rows(&table) {
            if self.plan[row] == 0 {
                happen(random, &mut table, row, kinds);
            }
        }
        mend(&mut table);
        table
    }

    /// Fills in the floors.
    fn know(&self, random: &mut Random, table: &mut [u32]) {
        let knowledge = match random.within(0..8) {
            0 => Knowledge::Nothing,
            1 | 2 => Knowledge::Level,
            3 => Knowledge::Everything,
            some => Knowledge::Here([1, 2, 4, 8][some - 4]),
        };
        for row in 0..rows(table) {
            let here = match knowledge {
                Knowledge::Nothing => false,
                Knowledge::Level | Knowledge::Everything => row == 0,
                Knowledge::Here(times) => random.once_in(times),
            };
            if here {
                let floor = match knowledge {
                    Knowledge::Everything => self.counters,
                    _ => Vector(self.counters.0.map(|count| random.up_to(count))),
                };
                set_floor(table, row, floor);
            }
        }
    }
}

/// Gives a row a floor, but for the table's own column.
fn set_floor(table: &mut [u32], row: usize, floor: Vector) {
    let floor = floor.with(table[head::DEVICE], 0);
    set_vector(table, row, Time::Floor, floor);
}

/// Something happens to a sheet, of which the table knows: it becomes one of these kinds.
fn happen(random: &mut Random, table: &mut [u32], row: usize, kinds: &[Kind]) {
    let known = known(table, row);
    let devices: Vec<u32> = (0..width(table).columns() as u32)
        .filter(|&device| known.count(device) > 0)
        .collect();
    let kind = random.one_of(kinds);
    if devices.is_empty() || kind == Kind::Never {
        return;
    }
    let row = place(table, row, 0);
    let mut event = |word: usize| {
        let device = random.one_of(&devices);
        table[row + word] = device;
        table[row + word + 1] = random.up_to(known.count(device) - 1) + 1;
    };
    event(word::STAMP);
    if kind == Kind::Live {
        event(word::BIRTH);
        let Content { mark, class } = right_content(random);
        table[row + word::MARK] = mark;
        table[row + word::CLASS] = class;
    }
    table[row + word::KIND] = kind.number();
}

/// What a sheet may hold.
pub fn right_content(random: &mut Random) -> Content {
    Content {
        mark: random.odd_word().max(1),
        class: random.within(0..LAST_CLASS as usize + 1) as u32,
    }
}

/// The table with one row that knows more than before, perhaps more than there is to know.
pub fn knowing_more(random: &mut Random, table: &[u32]) -> Vec<u32> {
    let mut table = table.to_vec();
    let row = random.within(0..rows(&table));
    let more = Vector([random.odd_word(); Vector::COLUMNS]);
    let floor = vector(&table, row, Time::Floor);
    set_floor(&mut table, row, floor.greatest(more));
    mend(&mut table);
    table
}
