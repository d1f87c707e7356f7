//! Random runs of 2 to 16 devices of both widths, held against the history.

mod common;

use std::collections::{BTreeMap, BTreeSet};

use common::*;
use second::history::{Act, Choice, Event, History, Ruling, State};

/// Everything random in this file comes from this seed.
const SEED: u64 = 20_050_214;

/// What happened in all runs of a test, so that a test can tell whether it has seen everything.
#[derive(Debug, Default)]
struct Tally {
    passes: u32,
    settlings: u32,
    widenings: u32,
    /// Passes and settlings between two widths.
    refused: u32,
    /// How often each number stood in an answer list.
    answers: [u32; 6],
    /// Passes within the bound's hypotheses that had something to carry.
    bounded: u32,
}

/// Devices and their history.
struct Run {
    seed: u64,
    random: Random,
    plan: Vec<u32>,
    sheets: Vec<usize>,
    desk: Desk,
    history: History,
    /// What each event gave its sheet, by its device and count.
    contents: BTreeMap<(u32, u32), Content>,
}

impl Drop for Run {
    fn drop(&mut self) {
        if std::thread::panicking() {
            eprintln!("in the run from seed {}, plan {:?}", self.seed, self.plan);
        }
    }
}

impl Run {
    /// New devices on a random plan of so many rows. Each starts narrow or wide, from 8 on wide.
    fn new(seed: u64, rows: usize) -> Run {
        let mut random = Random::new(seed);
        let plan = plans::right(&mut random, rows);
        let sheets = plans::sheets(&plan);
        let devices = random.within(2..17);
        let wide_once_in = random.one_of(&[1, 2, 4, 1000]);
        let mut table = |device| {
            let is_wide = device >= 8 || random.once_in(wide_once_in);
            new_table(Width::BOTH[usize::from(is_wide)], device, &plan)
        };
        Run {
            seed,
            desk: Desk {
                tables: (0..devices as u32).map(&mut table).collect(),
            },
            history: History::new(devices, &sheets),
            contents: BTreeMap::new(),
            random,
            plan,
            sheets,
        }
    }

    /// One event, pass or widening, or a settling where there is something to settle.
    fn step(&mut self, tally: &mut Tally) {
        match self.random.within(0..40) {
            0 => self.widen(tally),
            1..=15 if !self.sheets.is_empty() => self.event(),
            16..=23 if !self.sheets.is_empty() => {
                let row = self.random.one_of(&self.sheets);
                let (source, target) = two_of(&mut self.random, &self.desk.tables);
                self.settle(source, target, row, tally);
            }
            _ => self.pass(tally),
        }
    }

    /// What a sheet may hold.
    fn some_content(&mut self) -> Content {
        Content {
            mark: self.random.word().max(1),
            class: self.random.within(0..10) as u32,
        }
    }

    /// Whether two devices have tables of one width.
    fn are_alike(&self, one: usize, other: usize) -> bool {
        width(&self.desk.tables[one]) == width(&self.desk.tables[other])
    }

    /// A device's table becomes wide; the history hears nothing of it.
    fn widen(&mut self, tally: &mut Tally) {
        let device = self.random.within(0..self.desk.tables.len());
        if width(&self.desk.tables[device]) == Width::Narrow {
            self.desk.widen(device);
            self.assert_agreed(device);
            tally.widenings += 1;
        }
    }

    /// Two tables of different width: nothing is passed and nothing settled.
    fn assert_refused(&mut self, source: usize, target: usize, row: usize, tally: &mut Tally) {
        let before = self.desk.tables.clone();
        let mut answers = vec![u32::MAX; size(&before[target], row)];
        let (source, target) = pair(&mut self.desk.tables, source, target);
        let passed = second::pass(source, target, row as u32, &mut answers);
        let settled = second::settle(source, target, row as u32, OWN, 1, 0);
        assert_eq!([passed, settled], [refused(19); 2]);
        assert_eq!(self.desk.tables, before);
        assert!(answers.iter().all(|&answer| answer == u32::MAX));
        tally.refused += 1;
    }

    fn event(&mut self) {
        let device = self.random.within(0..self.desk.tables.len());
        let row = self.random.one_of(&self.sheets);
        let (event, act) = if kind(&self.desk.tables[device], row) != 1 {
            (CREATE, Act::Create)
        } else if self.random.once_in(2) {
            (CHANGE, Act::Change)
        } else {
            (REMOVAL, Act::Remove)
        };
        let content = self.some_content();
        let count = self.desk.event_with(device, row, event, content);
        let said = self.history.event(device, row, act);
        assert_eq!(said, Some(count));
        self.contents.insert((device as u32, count), content);
        self.assert_agreed(device);
    }

    fn pass(&mut self, tally: &mut Tally) {
        let (source, target) = two_of(&mut self.random, &self.desk.tables);
        let start = if self.random.once_in(2) {
            0
        } else {
            self.random.within(0..self.plan.len())
        };
        if !self.are_alike(source, target) {
            return self.assert_refused(source, target, start, tally);
        }
        let before = self.desk.tables.clone();
        let (answers, looked_at) = self.desk.pass(source, target, start);
        let rows = subtree(&before[target], start);
        let rulings = self.history.pass(source, target, rows.clone());

        for row in rows {
            let answer = answers[row - start];
            tally.answers[answer as usize] += 1;
            assert_eq!(
                rulings.get(&row).map(|ruling| ruling.answer()),
                (!is_folder(&before[target], row)).then_some(answer),
                "row {row}"
            );
        }
        tally.passes += 1;
        assert_list_is_right(&before[source], &before[target], start, &answers, looked_at);
        if let Some((bound, carried)) = bound(&before[source], &before[target], start) {
            assert!(u64::from(looked_at) <= bound, "{looked_at} of {bound}");
            tally.bounded += u32::from(carried);
        }
        assert_eq!(self.desk.tables[source], before[source]);
        self.assert_agreed(target);
        self.settle_some(source, target, start, &answers, tally);
    }

    /// Settles some of the conflicts of a pass.
    fn settle_some(
        &mut self,
        source: usize,
        target: usize,
        start: usize,
        answers: &[u32],
        tally: &mut Tally,
    ) {
        for (row, &answer) in (start..).zip(answers) {
            if answer == CONFLICT && self.random.once_in(2) {
                self.settle(source, target, row, tally);
            }
        }
    }

    /// Tries to settle a sheet: the history says whether there is a conflict.
    fn settle(&mut self, source: usize, target: usize, row: usize, tally: &mut Tally) {
        if !self.are_alike(source, target) {
            return self.assert_refused(source, target, row, tally);
        }
        let (number, choice) = self.random.one_of(&[
            (THEIRS, Choice::Theirs),
            (OWN, Choice::Own),
            (NEW, Choice::New),
        ]);
        let content = self.some_content();
        let own = content_of(&self.desk.tables[target], row);
        let Content { mark, class } = content;
        self.assert_ahead(source, target, row);
        let (source_words, target_words) = pair(&mut self.desk.tables, source, target);
        let answer = second::settle(source_words, target_words, row as u32, number, mark, class);
        let said = self.history.settle(source, target, row, choice);
        assert_eq!(answer, said.map_or(refused(14), done));
        tally.settlings += u32::from(said.is_some());
        if said.is_some() {
            let settled = match choice {
                Choice::Theirs => content_of(&self.desk.tables[source], row),
                Choice::Own => own,
                Choice::New => content,
            };
            self.contents.insert((target as u32, answer.count), settled);
        }
        assert_sound(&self.desk.tables[target]);
        self.assert_agreed(target);
    }

    /// Where the history says conflict, each side is ahead of the other by somebody's column of the known times.
    fn assert_ahead(&self, source: usize, target: usize, row: usize) {
        let said = self.desk.ahead(source, target, row);
        if self.history.ruling(source, target, row) != Ruling::Conflict {
            return assert_eq!(said, masks(14, 0, 0));
        }
        let [a, b] = [source, target].map(|device| known(&self.desk.tables[device], row));
        for device in 0..32 {
            let bits = [said.source, said.target].map(|mask| mask >> device & 1 == 1);
            let counts = [a.count(device), b.count(device)];
            assert_eq!(bits, [counts[0] > counts[1], counts[1] > counts[0]]);
        }
        assert!(
            said.number == 0 && said.source != 0 && said.target != 0,
            "{said:?}"
        );
    }

    /// A device's table and its history tell the same of every sheet: what it is, by which event, and which
    /// events of the sheet have been taken into account anywhere and here. A live sheet holds what that event gave it.
    fn assert_agreed(&self, device: usize) {
        let table = &self.desk.tables[device];
        for (row, sheet) in self.history.sheets(device) {
            let (last, birth_event) = match sheet.state {
                State::Never => (None, None),
                State::Live { last, birth } => (Some(last), Some(birth)),
                State::Removed { last } => (Some(last), None),
            };
            assert_eq!(event_in(stamp(table, row)), last, "stamp of row {row}");
            assert_eq!(
                event_in(birth(table, row)),
                birth_event,
                "birth of row {row}"
            );

            let holds = content_of(table, row);
            let given = match sheet.state {
                State::Live { .. } => self.contents[&stamp(table, row)],
                State::Never | State::Removed { .. } => Content::NONE,
            };
            assert_eq!(holds, given, "content of row {row}");

            let known = known(table, row);
            for event in self.events_of(row) {
                let covered = known.count(event.device) >= event.count;
                assert_eq!(covered, sheet.taken.contains(&event), "{event:?}");
            }
        }
    }

    /// All events of a sheet so far.
    fn events_of(&self, row: usize) -> BTreeSet<Event> {
        (0..self.desk.tables.len())
            .flat_map(|device| self.history.sheet(device, row).taken.iter().copied())
            .collect()
    }
}

/// The event that a stamp or birth names, if any.
fn event_in((device, count): (u32, u32)) -> Option<Event> {
    (count > 0).then_some(Event { device, count })
}

/// The list of a pass is right about folders, and the rows looked at are those not beneath one passed over.
fn assert_list_is_right(
    source: &[u32],
    target: &[u32],
    start: usize,
    answers: &[u32],
    looked_at: u32,
) {
    let answer = |row: usize| answers[row - start];
    let mut looked = 0;
    for row in subtree(target, start) {
        let beneath = (start..row)
            .any(|above| subtree(target, above).contains(&row) && answer(above) == PASSED_OVER);
        let passed_over = beneath || may_be_passed_over(source, target, row);
        match (is_folder(target, row), passed_over) {
            (true, true) => assert_eq!(answer(row), PASSED_OVER),
            (true, false) => assert_eq!(answer(row), WALKED),
            (false, _) if beneath => assert_eq!(answer(row), KEEP),
            (false, _) => assert!(answer(row) <= CONFLICT),
        }
        looked += u32::from(!beneath);
    }
    assert_eq!(looked_at, looked);
}

/// Whether the summaries allow to pass over a folder.
fn may_be_passed_over(source: &[u32], target: &[u32], folder: usize) -> bool {
    let full_least = known(target, folder).greatest(vector(target, folder, Time::Least));
    let newest = vector(source, folder, Time::Newest);
    is_level(source, folder) && newest.greatest(full_least) == full_least
}

/// Whether a row is level; a sheet always is.
fn is_level(table: &[u32], row: usize) -> bool {
    let full = |time| known(table, row).greatest(vector(table, row, time));
    full(Time::Least) == full(Time::Most)
}

/// The most rows that a pass may look at, if the paper sets a bound, and whether there is a sheet to carry.
fn bound(source: &[u32], target: &[u32], start: usize) -> Option<(u64, bool)> {
    if !is_level(source, start) || !is_level(target, start) {
        return None;
    }
    let rows = subtree(source, start);
    let carried = rows.clone().filter(|&row| {
        let (device, count) = stamp(source, row);
        count > known(target, row).count(device)
    });
    let k = carried.count() as u64;
    let most_children = rows.map(|row| children(source, row).len() as u64).max();
    let w = most_children.unwrap_or(0);
    Some((1 + k * (levels(source, start) - 1) * w, k > 0))
}

/// The levels of a subtree.
fn levels(table: &[u32], row: usize) -> u64 {
    let beneath = children(table, row)
        .into_iter()
        .map(|child| levels(table, child));
    1 + beneath.max().unwrap_or(0)
}

/// Runs of so many steps on plans with at most so many rows.
fn run(seed: u64, runs: usize, steps: usize, most_rows: usize) -> Tally {
    println!("seed {seed}: {runs} runs of {steps} steps, at most {most_rows} rows");
    let mut seeds = Random::new(seed);
    let mut tally = Tally::default();
    for _ in 0..runs {
        let rows = seeds.within(1..most_rows + 1);
        let mut run = Run::new(seeds.number(), rows);
        for _ in 0..steps {
            run.step(&mut tally);
        }
    }
    println!("{tally:?}");
    tally
}

fn assert_saw_everything(tally: &Tally) {
    assert!(tally.answers.iter().all(|&seen| seen > 0), "{tally:?}");
    assert!(tally.settlings > 0 && tally.bounded > 0, "{tally:?}");
    assert!(tally.widenings > 0 && tally.refused > 0, "{tally:?}");
}

#[test]
fn small_trees() {
    assert_saw_everything(&run(SEED, 1200, 80, 8));
}

#[test]
fn middling_trees() {
    assert_saw_everything(&run(SEED + 1, 300, 120, 40));
}

#[test]
fn large_trees() {
    assert_saw_everything(&run(SEED + 2, 24, 150, 256));
}

#[test]
fn one_sheet_between_many_devices() {
    let tally = run(SEED + 3, 600, 100, 2);
    assert!(tally.settlings > 0, "{tally:?}");
}
