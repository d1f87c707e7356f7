//! Two programs held against each other, call by call, and a count of what was seen.

use std::cell::{Cell, RefCell};

use second::layout::{Kind, Width, LAST_CLASS};
use second::trial::look::{class, kind};
use second::Content;

use crate::call::{perform, Call, Lent, Outcome};
use crate::program::Program;

/// The number in an answer list that brings a live sheet.
const COPY: usize = 1;

/// How often each thing was seen at one width.
#[derive(Clone, Debug, Default, PartialEq, Eq)]
pub struct Tally {
    /// By call, in the order of `Call::ALL`, and by number.
    pub numbers: [[u64; 23]; Call::ALL.len()],
    /// By kind in the source, kind in the target and answer, of the sheets of passes.
    pub sheets: [[[u64; 4]; 3]; 3],
    /// Walked and passed over, of the folders of passes.
    pub folders: [u64; 2],
    /// By side, of the calls for the row that stands that succeeded.
    pub sides: [u64; 3],
    /// By side and by device, of the calls for who is ahead that succeeded.
    pub ahead: [[u64; Width::Wide.columns()]; 2],
    /// By class: given by an event or by settling new, brought by a pass that copies, taken by settling theirs.
    pub classes: [[u64; LAST_CLASS as usize + 1]; 3],
    /// Removals, and settlings by theirs and by own, that were done with a class above 9, and with mark 0.
    pub ignored: [[u64; 2]; 3],
    /// By choice, then by whether the source's and the target's sheets were live: settlings that were done.
    pub settled: [[[u64; 2]; 2]; 3],
    /// By choice: settlings that were refused because the counter had come to its end.
    pub full: [u64; 3],
    /// Stayed and gave way: the target's removals that a pass of a run brought one they hadn't heard of.
    pub removals: [u64; 2],
}

impl Tally {
    /// How often a call gave a number.
    pub fn given(&self, call: Call, number: u32) -> u64 {
        self.numbers[call as usize][number as usize]
    }

    fn calls(&self) -> u64 {
        self.numbers.iter().flatten().sum()
    }

    fn add(&mut self, call: Call, before: &Lent, outcome: &Outcome) {
        self.numbers[call as usize][outcome.answer.number as usize] += 1;
        match (call, outcome.answer.number) {
            (Call::Pass, 0) => {
                let start = before.row as usize;
                for (row, &answer) in (start..).zip(&outcome.lent.answers) {
                    self.add_row(before, row, answer as usize);
                }
            }
            (Call::Standing, 0) => self.sides[outcome.side as usize] += 1,
            (Call::Ahead, 0) => self.add_ahead(outcome.ahead),
            (Call::Event, 0) if before.act == 3 => self.add_ignored(0, before),
            (Call::Event, 0) => self.add_class(0, before.content.class),
            (Call::Settle, 0) => self.add_settled(before, outcome),
            (Call::Settle, 15) => self.full[before.act as usize - 1] += 1,
            _ => (),
        }
    }

    fn add_settled(&mut self, before: &Lent, outcome: &Outcome) {
        let (row, target) = (before.row as usize, &outcome.lent.target);
        let is_live = |table: &[u32]| usize::from(kind(table, row) == Kind::Live.number());
        let [a, b] = [&before.source, &before.target].map(|table| is_live(table));
        self.settled[before.act as usize - 1][a][b] += 1;
        match before.act {
            1 => {
                self.add_ignored(1, before);
                if is_live(target) == 1 {
                    self.add_class(2, class(target, row));
                }
            }
            2 => self.add_ignored(2, before),
            _ => self.add_class(0, before.content.class),
        }
    }

    fn add_class(&mut self, way: usize, class: u32) {
        if let Some(times) = self.classes[way].get_mut(class as usize) {
            *times += 1;
        }
    }

    fn add_ignored(&mut self, which: usize, before: &Lent) {
        let Content { mark, class } = before.content;
        for (times, wrong) in self.ignored[which]
            .iter_mut()
            .zip([class > LAST_CLASS, mark == 0])
        {
            *times += u64::from(wrong);
        }
    }

    fn add_ahead(&mut self, masks: [u32; 2]) {
        for (mask, devices) in masks.into_iter().zip(&mut self.ahead) {
            for (device, times) in devices.iter_mut().enumerate() {
                *times += u64::from(mask >> device & 1);
            }
        }
    }

    fn add_row(&mut self, before: &Lent, row: usize, answer: usize) {
        let kind = |table: &[u32]| kind(table, row) as usize;
        if answer == COPY {
            self.add_class(1, class(&before.source, row));
        }
        match answer {
            0..=3 => self.sheets[kind(&before.source)][kind(&before.target)][answer] += 1,
            _ => self.folders[answer - 4] += 1,
        }
    }
}

/// A call on which the programs differ, or that one of them may not answer so.
#[derive(Clone, Debug)]
pub struct Failure {
    /// The call.
    pub call: Call,
    /// What was lent and told to it.
    pub lent: Box<Lent>,
}

/// Holds a program against the second one.
pub struct Judge {
    program: Program,
    second: Program,
    tallies: RefCell<[Tally; 2]>,
    turn: Cell<usize>,
}

impl Judge {
    /// Holds this program against that one.
    pub fn new(program: Program, second: Program) -> Judge {
        Judge {
            program,
            second,
            tallies: RefCell::default(),
            turn: Cell::new(0),
        }
    }

    /// What has been seen so far at a width.
    pub fn tally(&self, width: Width) -> Tally {
        self.tallies.borrow()[width as usize].clone()
    }

    /// Counts a removal to which a pass of a run brought another, and whether its row took that.
    pub fn count_removal(&self, width: Width, taken: bool) {
        self.tallies.borrow_mut()[width as usize].removals[usize::from(taken)] += 1;
    }

    /// How many calls were made.
    pub fn calls(&self) -> u64 {
        self.tallies.borrow().iter().map(Tally::calls).sum()
    }

    /// Makes the call on both sides. Gives the common outcome.
    pub fn call(&self, call: Call, lent: &Lent) -> Result<Outcome, Failure> {
        self.turn.set(self.turn.get() + 1);
        let outcome = perform(&self.program, call, lent, self.turn.get() % 8);
        let expected = perform(&self.second, call, lent, 0);
        if outcome == expected && faults(call, lent, &outcome).is_empty() {
            let width = lent.width(call) as usize;
            self.tallies.borrow_mut()[width].add(call, lent, &outcome);
            Ok(outcome)
        } else {
            let lent = Box::new(lent.clone());
            Err(Failure { call, lent })
        }
    }

    /// The two numbers given, where the call fails, wherever the buffers lie. Nothing is counted.
    pub fn failing(&self, call: Call, lent: &Lent) -> Option<(u32, u32)> {
        let expected = perform(&self.second, call, lent, 0);
        (0..8).find_map(|shift| {
            let outcome = perform(&self.program, call, lent, shift);
            let fails = outcome != expected || !faults(call, lent, &outcome).is_empty();
            fails.then_some((outcome.answer.number, expected.answer.number))
        })
    }

    /// What is wrong with a call, a line each.
    pub fn complaints(&self, call: Call, lent: &Lent) -> Vec<String> {
        let expected = perform(&self.second, call, lent, 0);
        for shift in 0..8 {
            let outcome = perform(&self.program, call, lent, shift);
            let mut lines = faults(call, lent, &outcome);
            lines.extend(self.differences(&outcome, &expected));
            if !lines.is_empty() {
                return lines;
            }
        }
        Vec::new()
    }

    fn differences(&self, outcome: &Outcome, expected: &Outcome) -> Vec<String> {
        let names = (self.program.name, self.second.name);
        let mut lines = Vec::new();
        let mut differ = |what: String, ours: u32, theirs: u32| {
            if ours != theirs {
                lines.push(format!("{what}: {} {ours}, {} {theirs}", names.0, names.1));
            }
        };
        let (ours, theirs) = (outcome.answer, expected.answer);
        differ("number".to_owned(), ours.number, theirs.number);
        differ("count".to_owned(), ours.count, theirs.count);
        differ("side".to_owned(), outcome.side, expected.side);
        for (name, side) in ["source", "target"].into_iter().zip(0..) {
            let ours = outcome.ahead[side];
            differ(format!("ahead in the {name}"), ours, expected.ahead[side]);
        }
        let buffers = outcome.lent.buffers().into_iter();
        for ((name, ours), (_, theirs)) in buffers.zip(expected.lent.buffers()) {
            for (place, (&ours, &theirs)) in ours.iter().zip(theirs).enumerate() {
                differ(format!("{name}[{place}]"), ours, theirs);
            }
        }
        lines
    }
}

/// What no outcome may be, whatever another program says.
fn faults(call: Call, before: &Lent, outcome: &Outcome) -> Vec<String> {
    let refused = outcome.answer.number != 0;
    let mut buffers = before.buffers().into_iter().zip(outcome.lent.buffers());
    let only_read_has_changed = buffers
        .any(|((name, before), (_, after))| before != after && !call.changes().contains(&name));
    let faults = [
        (
            !outcome.guards_held,
            "a word outside the lent buffers has changed",
        ),
        (
            !call
                .numbers_at(before.width(call))
                .any(|number| number == outcome.answer.number),
            "this call can't give this number",
        ),
        (
            refused && outcome.answer.count != 0,
            "a refusal counts something",
        ),
        (
            refused && outcome.side != 0,
            "a refusal shows a row that stands",
        ),
        (
            refused && outcome.ahead != [0; 2],
            "a refusal says who is ahead",
        ),
        (
            call == Call::Ahead && !refused && outcome.ahead.contains(&0),
            "in a conflict nobody is ahead on one side",
        ),
        (
            refused && outcome.lent != *before,
            "a refusal has changed a word",
        ),
        (
            only_read_has_changed,
            "a buffer that is only read has changed",
        ),
    ];
    let told = faults.into_iter().filter(|(wrong, _)| *wrong);
    told.map(|(_, words)| words.to_owned()).collect()
}
