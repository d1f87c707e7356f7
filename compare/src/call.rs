//! One call: what is lent and told to it, and what comes of it.

use second::layout::Width;
use second::trial::look;
use second::Content;

use crate::program::{Answer, Program};

/// Which call.
#[derive(Clone, Copy, Debug, PartialEq, Eq)]
pub enum Call {
    /// `kf_check`.
    Check,
    /// `kf_new`.
    New,
    /// `kf_widen`.
    Widen,
    /// `kf_event`.
    Event,
    /// `kf_pass`.
    Pass,
    /// `kf_settle`.
    Settle,
    /// `kf_beneath`.
    Beneath,
    /// `kf_standing` and `kf_standing_side`.
    Standing,
    /// `kf_ahead`.
    Ahead,
}

impl Call {
    /// All calls.
    pub const ALL: [Call; 9] = [
        Call::Check,
        Call::New,
        Call::Widen,
        Call::Event,
        Call::Pass,
        Call::Settle,
        Call::Beneath,
        Call::Standing,
        Call::Ahead,
    ];

    /// Its name.
    pub fn name(self) -> &'static str {
        match self {
            Call::Check => "kf_check",
            Call::New => "kf_new",
            Call::Widen => "kf_widen",
            Call::Event => "kf_event",
            Call::Pass => "kf_pass",
            Call::Settle => "kf_settle",
            Call::Beneath => "kf_beneath",
            Call::Standing => "kf_standing",
            Call::Ahead => "kf_ahead",
        }
    }

    /// Every number it can give: success, and then the paper's order.
    fn numbers(self) -> &'static [u32] {
        match self {
            Call::Check => &[0, 1, 2, 3],
            Call::New => &[0, 19, 17, 2, 9],
            Call::Widen => &[0, 1, 2, 3, 19, 9],
            Call::Event => &[0, 1, 2, 3, 16, 21, 22, 8, 10, 15],
            Call::Pass => &[0, 1, 2, 3, 11, 12, 13, 19, 4, 5, 6, 7, 8, 9],
            Call::Settle => &[
                0, 1, 2, 3, 11, 12, 13, 19, 4, 5, 6, 7, 8, 16, 21, 22, 10, 14, 15,
            ],
            Call::Beneath => &[0, 1, 2, 3, 8],
            Call::Standing => &[0, 1, 2, 3, 11, 12, 13, 19, 4, 5, 6, 7, 8, 10],
            Call::Ahead => &[0, 1, 2, 3, 11, 12, 13, 19, 4, 5, 6, 7, 8, 10, 14],
        }
    }

    /// Every number it can give at a width.
    pub fn numbers_at(self, width: Width) -> impl Iterator<Item = u32> {
        let never: &[u32] = match (self, width) {
            // Columns that are neither 8 nor 16 are told of with the narrow ones.
            (Call::New, Width::Wide) | (Call::Widen, Width::Narrow) => &[19],
            (Call::Widen, Width::Wide) => &[0, 9],
            _ => &[],
        };
        let numbers = self.numbers().iter().copied();
        numbers.filter(move |number| !never.contains(number))
    }

    /// The buffers that it may change, by name.
    pub fn changes(self) -> &'static [&'static str] {
        match self {
            Call::Check | Call::Beneath | Call::Standing | Call::Ahead => &[],
            Call::New | Call::Event | Call::Settle => &["target"],
            Call::Widen => &["wide"],
            Call::Pass => &["target", "answers"],
        }
    }

    /// Whether it works on two tables.
    pub fn has_source(self) -> bool {
        matches!(
            self,
            Call::Pass | Call::Settle | Call::Standing | Call::Ahead
        )
    }
}

/// What is lent and told to a call; each takes its own part of it.
#[derive(Clone, Debug, Default, PartialEq, Eq)]
pub struct Lent {
    /// The source's words, only read.
    pub source: Vec<u32>,
    /// The target's words, or those of the only table.
    pub target: Vec<u32>,
    /// The words that a widening writes.
    pub wide: Vec<u32>,
    /// The plan of a new table.
    pub plan: Vec<u32>,
    /// A pass's answers.
    pub answers: Vec<u32>,
    /// The columns of a new table.
    pub columns: u32,
    /// The device of a new table.
    pub device: u32,
    /// The row.
    pub row: u32,
    /// The event or the choice.
    pub act: u32,
    /// The mark and the class.
    pub content: Content,
}

impl Lent {
    /// The width at which a call works: that of its target or only table.
    pub fn width(&self, call: Call) -> Width {
        match call {
            Call::New => Width::of_columns(self.columns).unwrap_or(Width::Narrow),
            _ => look::width(&self.target),
        }
    }

    /// The lent buffers by name.
    pub fn buffers(&self) -> [(&'static str, &Vec<u32>); 5] {
        [
            ("source", &self.source),
            ("target", &self.target),
            ("wide", &self.wide),
            ("plan", &self.plan),
            ("answers", &self.answers),
        ]
    }
}

/// What came of a call.
#[derive(Clone, Debug, PartialEq, Eq)]
pub struct Outcome {
    /// Number and count; who is ahead isn't counted.
    pub answer: Answer,
    /// In whose table the row that stands lies; 0 for every other call.
    pub side: u32,
    /// The devices that are ahead in the source and in the target, as masks; 0 for every other call.
    pub ahead: [u32; 2],
    /// Everything lent, as it was afterwards.
    pub lent: Lent,
    /// Whether all words around the lent buffers stayed as they were.
    pub guards_held: bool,
}

/// The words before and after a lent buffer, which no call may touch.
const GUARD: usize = 24;

/// A lent buffer between guards.
struct Guarded {
    words: Vec<u32>,
    start: usize,
    length: usize,
}

impl Guarded {
    /// The buffer's words lie `shift` words further on than they could, so that each alignment has its turn.
    fn new(lent: &[u32], shift: usize) -> Guarded {
        let start = GUARD + shift;
        let mut words: Vec<u32> = (0..start + lent.len() + GUARD).map(guard_at).collect();
        words[start..start + lent.len()].copy_from_slice(lent);
        Guarded {
            words,
            start,
            length: lent.len(),
        }
    }

    fn lent(&mut self) -> &mut [u32] {
        &mut self.words[self.start..self.start + self.length]
    }

    fn held(&self) -> bool {
        let end = self.start + self.length;
        let mut guards = (0..self.start).chain(end..self.words.len());
        guards.all(|place| self.words[place] == guard_at(place))
    }
}

/// The word that guards a place.
fn guard_at(place: usize) -> u32 {
    (place as u32).wrapping_mul(0x9e37_79b9)
}

/// Has a program do a call on copies of what is lent.
pub fn perform(program: &Program, call: Call, lent: &Lent, shift: usize) -> Outcome {
    let mut buffers = lent.buffers().map(|(_, words)| Guarded::new(words, shift));
    let [source, target, wide, plan, answers] = &mut buffers;
    let (row, act, content) = (lent.row, lent.act, lent.content);
    let (mut side, mut ahead) = (0, [0; 2]);
    let answer = match call {
        Call::Check => (program.check)(target.lent()),
        Call::New => (program.new)(lent.columns, lent.device, plan.lent(), target.lent()),
        Call::Widen => (program.widen)(target.lent(), wide.lent()),
        Call::Event => (program.event)(target.lent(), row, act, content),
        Call::Pass => (program.pass)(source.lent(), target.lent(), row, answers.lent()),
        Call::Settle => (program.settle)(source.lent(), target.lent(), row, act, content),
        Call::Beneath => (program.beneath)(target.lent(), row),
        Call::Standing => {
            side = (program.standing_side)(source.lent(), target.lent(), row);
            (program.standing)(source.lent(), target.lent(), row)
        }
        Call::Ahead => {
            let masks = (program.ahead)(source.lent(), target.lent(), row);
            ahead = [masks.source, masks.target];
            Answer {
                number: masks.number,
                count: 0,
            }
        }
    };
    let guards_held = buffers.iter().all(Guarded::held);
    let [source, target, wide, plan, answers] = buffers.map(|mut buffer| buffer.lent().to_vec());
    Outcome {
        answer,
        side,
        ahead,
        lent: Lent {
            source,
            target,
            wide,
            plan,
            answers,
            ..*lent
        },
        guards_held,
    }
}
