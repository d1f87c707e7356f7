//! Runs of several devices: each call on both programs, and each event, pass and settling against the history.

use std::fmt;

use second::layout::Width;
use second::trial::{plans, Random};
use second::Content;

use crate::desk::{Desk, Trouble};
use crate::judge::Judge;

/// Two devices of a run and a row.
#[derive(Clone, Copy, Debug, PartialEq, Eq)]
pub struct Pair {
    /// The source's device.
    pub source: usize,
    /// The target's device.
    pub target: usize,
    /// The row.
    pub row: usize,
}

/// One thing done in a run. Devices and rows are numbers of the run's devices and plan.
#[derive(Clone, Copy, Debug, PartialEq, Eq)]
pub enum Step {
    /// An event on a device.
    Event {
        /// The device.
        device: usize,
        /// The sheet.
        row: usize,
        /// Create, change or remove.
        act: u32,
        /// What the sheet is to hold.
        content: Content,
    },
    /// A device's table becomes wide.
    Widen {
        /// The device.
        device: usize,
    },
    /// A pass that starts at the row.
    Pass(Pair),
    /// A settling of the sheet in the row, on the target's device.
    Settle {
        /// The devices and the row.
        pair: Pair,
        /// Theirs, own or new.
        choice: u32,
        /// What the sheet is to hold.
        content: Content,
    },
    /// All showings.
    Show(Pair),
}

impl Step {
    /// The devices that take part.
    pub fn devices(&self) -> [usize; 2] {
        match *self {
            Step::Event { device, .. } | Step::Widen { device } => [device; 2],
            Step::Pass(pair) | Step::Settle { pair, .. } | Step::Show(pair) => {
                [pair.source, pair.target]
            }
        }
    }

    /// The same with other devices.
    pub fn with_devices(mut self, another: impl Fn(usize) -> usize) -> Step {
        match &mut self {
            Step::Event { device, .. } | Step::Widen { device } => *device = another(*device),
            Step::Pass(pair) | Step::Settle { pair, .. } | Step::Show(pair) => {
                pair.source = another(pair.source);
                pair.target = another(pair.target);
            }
        }
        self
    }

    /// The row; a widening is at the root.
    pub fn row(&self) -> usize {
        match *self {
            Step::Widen { .. } => 0,
            Step::Event { row, .. } => row,
            Step::Pass(pair) | Step::Settle { pair, .. } | Step::Show(pair) => pair.row,
        }
    }

    /// The same at another row.
    pub fn at_row(mut self, another: usize) -> Step {
        match &mut self {
            Step::Widen { .. } => (),
            Step::Event { row, .. } => *row = another,
            Step::Pass(pair) | Step::Settle { pair, .. } | Step::Show(pair) => pair.row = another,
        }
        self
    }
}

impl fmt::Display for Pair {
    fn fmt(&self, out: &mut fmt::Formatter<'_>) -> fmt::Result {
        let Pair {
            source,
            target,
            row,
        } = self;
        write!(out, "{source} to {target} at row {row}")
    }
}

impl fmt::Display for Step {
    fn fmt(&self, out: &mut fmt::Formatter<'_>) -> fmt::Result {
        match *self {
            Step::Event {
                device,
                row,
                act,
                content: Content { mark, class },
            } => {
                let act = ["create", "change", "remove"][act as usize - 1];
                write!(
                    out,
                    "device {device}: {act} row {row}, mark {mark}, class {class}"
                )
            }
            Step::Widen { device } => write!(out, "device {device}: widen"),
            Step::Pass(pair) => write!(out, "pass {pair}"),
            Step::Settle {
                pair,
                choice,
                content: Content { mark, class },
            } => {
                let choice = ["theirs", "own", "new"][choice as usize - 1];
                write!(out, "settle {pair} by {choice}, mark {mark}, class {class}")
            }
            Step::Show(pair) => write!(out, "show {pair}"),
        }
    }
}

/// How a device starts.
#[derive(Clone, Copy, Debug, PartialEq, Eq)]
pub struct Start {
    /// The width of its table.
    pub width: Width,
    /// Its counter.
    pub counter: u32,
}

/// A run: devices on one tree, and what happens.
#[derive(Clone, Debug, PartialEq, Eq)]
pub struct Run {
    /// The tree.
    pub plan: Vec<u32>,
    /// How each device starts.
    pub starts: Vec<Start>,
    /// What happens, in order.
    pub steps: Vec<Step>,
}

impl Run {
    /// A run of 2 to 16 devices on a tree of at most so many rows. It stops where there is trouble.
    pub fn random(
        judge: &Judge,
        random: &mut Random,
        most_rows: usize,
        steps: usize,
    ) -> (Run, Result<(), Trouble>) {
        let rows = random.within(2..most_rows + 1);
        let mut run = Run {
            plan: plans::right(random, rows),
            starts: starts(random, steps),
            steps: Vec::new(),
        };
        let played = Desk::new(judge, &run).and_then(|mut desk| {
            (0..steps).try_for_each(|_| {
                let step = desk.choose(random);
                run.steps.push(step);
                desk.step(step)
            })
        });
        (run, played)
    }

    /// Plays the run.
    pub fn play(&self, judge: &Judge) -> Result<(), Trouble> {
        let mut desk = Desk::new(judge, self)?;
        self.steps.iter().try_for_each(|&step| desk.step(step))
    }
}

/// How the devices of a run start: narrow or wide, from 8 on wide; and with all counters at 0, or so late that they end
/// within so many steps.
fn starts(random: &mut Random, steps: usize) -> Vec<Start> {
    let late = random.once_in(10);
    let wide_once_in = random.one_of(&[1, 2, 4, 1000]);
    let most = random.one_of(&Width::BOTH).columns();
    let devices = random.within(2..most + 1);
    let start = |device: usize| Start {
        width: match Width::Narrow.has(device as u32) && !random.once_in(wide_once_in) {
            true => Width::Narrow,
            false => Width::Wide,
        },
        counter: match late {
            true => u32::MAX - random.within(0..steps) as u32,
            false => 0,
        },
    };
    (0..devices).map(start).collect()
}

impl fmt::Display for Run {
    fn fmt(&self, out: &mut fmt::Formatter<'_>) -> fmt::Result {
        writeln!(out, "plan {:?}", self.plan)?;
        for (device, Start { width, counter }) in self.starts.iter().enumerate() {
            let columns = width.columns();
            writeln!(out, "device {device}: {columns} columns, counter {counter}")?;
        }
        self.steps
            .iter()
            .try_for_each(|step| writeln!(out, "{step}"))
    }
}
