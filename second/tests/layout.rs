//! Which tables are sound, at both widths: each rule of the layout and the times, broken by a word or two.

mod common;

use common::*;

/// A table after a good deal of work, of which words can be changed.
struct Worked {
    width: Width,
    table: Vec<u32>,
}

impl Worked {
    /// Of each width, the table of device 1: row 2 live, row 3 removed, row 4 never.
    fn both() -> [Worked; 2] {
        Width::BOTH.map(|width| {
            let mut desk = Desk::fresh(width, 0..2, &PLAN);
            desk.event(0, 2, CREATE, 700);
            desk.event(1, 3, CREATE, 701);
            desk.pass(0, 1, 0);
            desk.event(1, 3, REMOVAL, 0);
            desk.event(0, 2, CHANGE, 702);
            desk.pass(0, 1, 1);
            let table = desk.tables.remove(1);
            assert_eq!([2, 3, 4].map(|row| kind(&table, row)), [1, 2, 0]);
            Worked { width, table }
        })
    }

    /// The first device without a column.
    fn no_device(&self) -> u32 {
        self.width.columns() as u32
    }

    /// The place of a word of a row.
    fn at(&self, row: usize, word: usize) -> usize {
        self.width.place(row, word)
    }

    /// The place of a count in a row's vector.
    fn count(&self, row: usize, time: Time, column: usize) -> usize {
        counts(&self.table, row, time).start + column
    }

    /// The places of a row's newest, least and most.
    fn summary(&self, row: usize) -> std::ops::Range<usize> {
        self.count(row, Time::Newest, 0)..self.at(row + 1, 0)
    }

    /// With these words changed to these values, the check gives this number.
    fn gives(&self, number: u32, changes: &[(usize, u32)]) {
        let mut table = self.table.clone();
        for &(word, value) in changes {
            table[word] = value;
        }
        let answer = match number {
            0 => done(5),
            _ => refused(number),
        };
        assert_eq!(
            second::check(&table),
            answer,
            "{:?} {changes:?}",
            self.width
        );
    }
}

#[test]
fn length() {
    for Worked { width, table } in Worked::both() {
        let row = width.row();
        let short = [0, 1, 2, 3, row - 1, row, row + 1];
        let longer = [2 * row - 1, 2 * row, 5 * row, 6 * row - 1];
        for length in short.into_iter().chain(longer) {
            assert_eq!(second::check(&table[..length]), refused(1), "{length}");
        }
        for more in [1, row - 1, row] {
            let longer = [table.clone(), vec![0; more]].concat();
            assert_eq!(second::check(&longer), refused(1), "{more} more");
        }
    }
}

#[test]
fn head_words() {
    for worked in Worked::both() {
        for device in [worked.no_device(), u32::MAX] {
            worked.gives(1, &[(head::DEVICE, device)]);
        }
        for rows in [0, 4, 6, 256, 257, 59_652_324, 107_374_183, u32::MAX] {
            worked.gives(1, &[(head::ROWS, rows)]);
        }
        for told in [1, 8, 15, 17, u32::MAX, 16 - worked.width.told()] {
            worked.gives(1, &[(head::WIDTH, told)]);
        }
        for rest in 4..worked.width.row() {
            worked.gives(1, &[(rest, 1)]);
            worked.gives(1, &[(rest, u32::MAX)]);
        }
    }
}

#[test]
fn order() {
    for worked in Worked::both() {
        let [kind, size] = [word::KIND, word::SIZE].map(|word| move |row| (row, word));
        let gives_2 = |(row, word): (usize, usize), value| {
            worked.gives(2, &[(worked.at(row, word), value)]);
        };
        for row in 0..5 {
            gives_2(kind(row), 4);
            gives_2(kind(row), u32::MAX);
            for wrong in [0, 256, u32::MAX] {
                gives_2(size(row), wrong);
            }
        }
        gives_2(kind(0), 0);
        gives_2(size(0), 4);
        gives_2(size(0), 6);
        for sheet in 2..5 {
            gives_2(size(sheet), 2);
        }
        // A folder that ends past its parent's end, and a sheet of size 3.
        gives_2(size(1), 5);
        gives_2(kind(1), 0);
        // A folder within a folder that ends past it.
        let past = [(worked.at(3, word::KIND), 3), (worked.at(3, word::SIZE), 2)];
        worked.gives(2, &past);
    }
}

#[test]
fn whole_table_is_judged_by_1_then_2_then_3() {
    for worked in Worked::both() {
        let rule = (worked.at(0, word::CLASS), 1);
        let order = (worked.at(4, word::KIND), 9);
        let head = (worked.width.row() - 1, 1);
        worked.gives(3, &[rule]);
        worked.gives(2, &[rule, order]);
        worked.gives(1, &[rule, order, head]);
    }
}

#[test]
fn words_of_each_kind() {
    for worked in Worked::both() {
        let gives = |number, row, word, value| {
            worked.gives(number, &[(worked.at(row, word), value)]);
        };
        // Words 2 to 7 of folders and of the row that is never.
        for row in [0, 1, 4] {
            for word in 2..8 {
                gives(3, row, word, 1);
            }
            worked.gives(3, &[2, 3, 4, 5].map(|word| (worked.at(row, word), 1)));
        }
        // The live row.
        for event in [word::STAMP, word::BIRTH] {
            gives(3, 2, event, worked.no_device());
            gives(3, 2, event + 1, 0);
        }
        gives(3, 2, word::MARK, 0);
        for mark in [1, 2, 0x8000_0000, u32::MAX] {
            gives(0, 2, word::MARK, mark);
        }
        for class in 0..=9 {
            gives(0, 2, word::CLASS, class);
        }
        for class in [10, 11, 255, 256, u32::MAX] {
            gives(3, 2, word::CLASS, class);
        }
        // The removed row.
        gives(3, 3, word::STAMP, worked.no_device());
        gives(3, 3, word::STAMP + 1, 0);
        for word in 4..8 {
            gives(3, 3, word, 1);
        }
        // The last three vectors of sheets.
        for sheet in 2..5 {
            for place in worked.summary(sheet) {
                worked.gives(3, &[(place, 1)]);
            }
        }
    }
}

#[test]
fn summaries() {
    for worked in Worked::both() {
        for place in worked.summary(0).chain(worked.summary(1)) {
            let right = worked.table[place];
            worked.gives(3, &[(place, right + 1)]);
            worked.gives(3, &[(place, right.wrapping_sub(1))]);
        }
    }
}

#[test]
fn own_column_of_floors_is_zero() {
    for width in Width::BOTH {
        // A table of one row has no other rule to break.
        for (own, column) in [(4, 4), (4, 5), (4, 0), (7, 7), (0, 0), (7, 0)] {
            let mut table = new_table(width, own, &[1]);
            raise(&mut table, 0, column, 1);
            let answer = if column == own { refused(3) } else { done(1) };
            assert_eq!(second::check(&table), answer, "{own} {column}");
        }
    }
    let mut table = new_table(Width::Wide, 15, &[1]);
    raise(&mut table, 0, 7, 1);
    assert_eq!(second::check(&table), done(1));
    raise(&mut table, 0, 15, 1);
    assert_eq!(second::check(&table), refused(3));
}

#[test]
fn stamps_and_births_are_covered() {
    for worked in Worked::both() {
        // The own column is the counter: the removal has the last count.
        assert_eq!(stamp(&worked.table, 3), (1, 2));
        for (number, counter) in [(0, 2), (0, 3), (0, u32::MAX), (3, 1), (3, 0)] {
            worked.gives(number, &[(head::COUNTER, counter)]);
        }
        // The live row is known up to count 2 of device 0; any birth that is covered will do.
        assert_eq!(stamp(&worked.table, 2), (0, 2));
        assert_eq!(birth(&worked.table, 2), (0, 1));
        let [device, count] = [0, 1].map(|word| worked.at(2, word::BIRTH + word));
        worked.gives(0, &[(count, 2)]);
        worked.gives(0, &[(device, 1), (count, 2)]);
        for (place, value) in [(count, 3), (count, u32::MAX), (device, 2), (device, 7)] {
            worked.gives(3, &[(place, value)]);
        }
        let stamped = |number, count| {
            let newest = [0, 1].map(|folder| (worked.count(folder, Time::Newest, 0), count));
            let stamp = (worked.at(2, word::STAMP + 1), count);
            worked.gives(number, &[newest[0], newest[1], stamp]);
        };
        stamped(3, 3);
        stamped(0, 1);
    }
}

#[test]
fn floor_above_covers_too() {
    for worked in Worked::both() {
        // Row 4 takes a stamp of the last device, and only the root's floor covers it.
        let last = worked.width.columns() - 1;
        let row = [
            (word::KIND, 2),
            (word::STAMP, last as u32),
            (word::STAMP + 1, 6),
        ];
        let mut change = row
            .map(|(word, value)| (worked.at(4, word), value))
            .to_vec();
        change.push((worked.count(0, Time::Newest, last), 6));
        worked.gives(3, &change);
        let floor = [Time::Floor, Time::Least, Time::Most];
        change.extend(floor.map(|time| (worked.count(0, time, last), 6)));
        worked.gives(0, &change);
    }
}
