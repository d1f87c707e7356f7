//! Several devices at work: a table for each, and the history of them all.

use std::ops::Range;

use second::history::{Act, Choice, Ruling};
use second::layout::{head, Kind, Width, LAST_CLASS};
use second::trial::look::{content_of, is_folder, kind, known, rows, size, stamp, width};
use second::trial::{plans, two_of, Random};
use second::Content;

use crate::call::{Call, Lent, Outcome};
use crate::judge::{Failure, Judge};
use crate::lents;
use crate::record::Record;
use crate::run::{Pair, Run, Start, Step};

/// The number in an answer list that asks for a settling.
const CONFLICT: u32 = 3;

/// Why a run failed.
#[derive(Clone, Debug)]
pub enum Trouble {
    /// The programs differ at a call.
    Call(Failure),
    /// A table and the history differ.
    History(String),
}

impl From<Failure> for Trouble {
    fn from(failure: Failure) -> Trouble {
        Trouble::Call(failure)
    }
}

/// Trouble with the history, unless this holds.
fn hold(holds: bool, what: impl FnOnce() -> String) -> Result<(), Trouble> {
    if holds {
        Ok(())
    } else {
        Err(Trouble::History(what()))
    }
}

/// Why a call that takes a content refuses this one, if it does.
fn content_refusal(content: Content) -> Option<u32> {
    match content {
        Content { class, .. } if class > LAST_CLASS => Some(21),
        Content { mark: 0, .. } => Some(22),
        _ => None,
    }
}

/// Trouble with the history, unless the call gave this number.
fn hold_number(call: Call, outcome: &Outcome, number: u32) -> Result<(), Trouble> {
    let given = outcome.answer.number;
    hold(given == number, || {
        format!("{} gives {given}, not {number}", call.name())
    })
}

/// The devices of a run.
pub struct Desk<'a> {
    judge: &'a Judge,
    tables: Vec<Vec<u32>>,
    record: Record,
    /// Conflicts that passes have left.
    conflicts: Vec<Pair>,
}

impl Desk<'_> {
    /// The devices before the first step.
    pub fn new<'a>(judge: &'a Judge, run: &Run) -> Result<Desk<'a>, Trouble> {
        let fresh = |(device, start): (usize, &Start)| {
            let lent = Lent {
                target: vec![u32::MAX; start.width.length(run.plan.len())],
                plan: run.plan.clone(),
                columns: start.width.columns() as u32,
                device: device as u32,
                ..Lent::default()
            };
            let mut table = judge.call(Call::New, &lent)?.lent.target;
            table[head::COUNTER] = start.counter;
            Ok(table)
        };
        let tables = run.starts.iter().enumerate().map(fresh);
        let counters = run.starts.iter().map(|start| start.counter).collect();
        Ok(Desk {
            judge,
            tables: tables.collect::<Result<_, Failure>>()?,
            record: Record::new(counters, plans::sheets(&run.plan)),
            conflicts: Vec::new(),
        })
    }

    /// Some step that mostly fits what is there.
    pub fn choose(&mut self, random: &mut Random) -> Step {
        let rows = rows(&self.tables[0]);
        let (source, target) = two_of(random, &self.tables);
        let at = |row: usize| Pair {
            source,
            target,
            row,
        };
        let anywhere = random.within(0..rows);
        let content = lents::content(random, 40);
        let choice = random.within(1..4) as u32;
        if random.once_in(2) {
            if let Some(pair) = self.conflicts.pop() {
                return Step::Settle {
                    pair,
                    choice,
                    content,
                };
            }
        }
        let row = if self.record.sheets.is_empty() || random.once_in(12) {
            anywhere
        } else {
            random.one_of(&self.record.sheets)
        };
        match random.within(0..36) {
            0 => Step::Widen { device: target },
            1..=14 => Step::Event {
                device: target,
                row,
                act: match Kind::read(kind(&self.tables[target], row)) {
                    _ if random.once_in(20) => choice,
                    Some(Kind::Live) => random.one_of(&[2, 2, 3]),
                    _ => 1,
                },
                content,
            },
            15..=17 => Step::Settle {
                pair: at(row),
                choice,
                content,
            },
            18..=20 => Step::Show(at(random.within(0..rows + 1))),
            _ => Step::Pass(at(random.one_of(&[0, 0, row, anywhere]))),
        }
    }

    /// Does a step, on both programs and in the history.
    pub fn step(&mut self, step: Step) -> Result<(), Trouble> {
        match step {
            Step::Event {
                device,
                row,
                act,
                content,
            } => self.event(device, row, act, content),
            Step::Widen { device } => self.widen(device),
            Step::Pass(pair) => self.pass(pair),
            Step::Settle {
                pair,
                choice,
                content,
            } => self.settle(pair, choice, content),
            Step::Show(pair) => self.show(pair),
        }
    }

    fn event(
        &mut self,
        device: usize,
        row: usize,
        act: u32,
        content: Content,
    ) -> Result<(), Trouble> {
        let lent = Lent {
            target: self.tables[device].clone(),
            row: row as u32,
            act,
            content,
            ..Lent::default()
        };
        let outcome = self.judge.call(Call::Event, &lent)?;
        if let Some(number) = content_refusal(content).filter(|_| act != 3) {
            return hold_number(Call::Event, &outcome, number);
        }
        if is_folder(&lent.target, row) {
            return hold_number(Call::Event, &outcome, 10);
        }
        if self.is_full(device, &outcome) {
            return Ok(());
        }
        let act = [Act::Create, Act::Change, Act::Remove][act as usize - 1];
        let said = self.record.history.event(device, row, act);
        self.record.note(device, outcome.answer.count, content);
        self.agree(device, row, &outcome, said, 10)
    }

    /// A widening; the history hears nothing of it.
    fn widen(&mut self, device: usize) -> Result<(), Trouble> {
        let table = &self.tables[device];
        let lent = Lent {
            target: table.clone(),
            wide: vec![u32::MAX; Width::Wide.length(rows(table))],
            ..Lent::default()
        };
        let number = match width(table) {
            Width::Narrow => 0,
            Width::Wide => 19,
        };
        let outcome = self.judge.call(Call::Widen, &lent)?;
        hold_number(Call::Widen, &outcome, number)?;
        if number == 0 {
            self.tables[device] = outcome.lent.wide;
        }
        self.agree_everywhere(device)
    }

    fn settle(&mut self, pair: Pair, choice: u32, content: Content) -> Result<(), Trouble> {
        let Pair {
            source,
            target,
            row,
        } = pair;
        let lent = Lent {
            act: choice,
            content,
            ..self.lent(pair)
        };
        let Some(outcome) = self.call_pair(Call::Settle, &lent)? else {
            return Ok(());
        };
        if let Some(number) = content_refusal(content).filter(|_| choice == 3) {
            return hold_number(Call::Settle, &outcome, number);
        }
        if is_folder(&lent.target, row) {
            return hold_number(Call::Settle, &outcome, 10);
        }
        if self.is_full(target, &outcome) {
            return Ok(());
        }
        let choice = [Choice::Theirs, Choice::Own, Choice::New][choice as usize - 1];
        let said = self.record.history.settle(source, target, row, choice);
        let settled = match choice {
            Choice::Theirs => content_of(&lent.source, row),
            Choice::Own => content_of(&lent.target, row),
            Choice::New => content,
        };
        self.record.note(target, outcome.answer.count, settled);
        self.agree(target, row, &outcome, said, 14)
    }

    fn pass(&mut self, pair: Pair) -> Result<(), Trouble> {
        let Pair {
            source,
            target,
            row: start,
        } = pair;
        let size = size(&self.tables[target], start);
        let lent = Lent {
            answers: vec![u32::MAX; size],
            ..self.lent(pair)
        };
        let Some(outcome) = self.call_pair(Call::Pass, &lent)? else {
            return Ok(());
        };
        hold_number(Call::Pass, &outcome, 0)?;
        let rows = start..start + size;
        self.count_removals(&lent, &outcome.lent.target, rows.clone());
        let rulings = self.record.history.pass(source, target, rows);
        for (row, &answer) in (start..).zip(&outcome.lent.answers) {
            let ruling = rulings.get(&row).map(|ruling| ruling.answer());
            hold(
                ruling.map_or(answer == 4 || answer == 5, |ruling| ruling == answer),
                || format!("row {row}: the pass says {answer}, the history {ruling:?}"),
            )?;
            if answer == CONFLICT {
                self.conflicts.push(Pair { row, ..pair });
            }
        }
        self.tables[target] = outcome.lent.target;
        self.agree_everywhere(target)
    }

    /// Counts the target's removals to which a pass brought another.
    fn count_removals(&self, before: &Lent, after: &[u32], rows: Range<usize>) {
        let Lent { source, target, .. } = before;
        for row in rows {
            let (device, count) = stamp(source, row);
            let removed = [source, target].map(|table| Kind::read(kind(table, row)));
            let is_news = count > known(target, row).count(device);
            if removed == [Some(Kind::Removed); 2] && is_news {
                let taken = stamp(after, row) != stamp(target, row);
                self.judge.count_removal(width(target), taken);
            }
        }
    }

    fn show(&mut self, pair: Pair) -> Result<(), Trouble> {
        let lent = self.lent(pair);
        for call in [Call::Check, Call::Beneath] {
            self.judge.call(call, &lent)?;
        }
        self.call_pair(Call::Standing, &lent)?;
        let Some(outcome) = self.call_pair(Call::Ahead, &lent)? else {
            return Ok(());
        };
        hold_number(Call::Ahead, &outcome, self.number_ahead(pair))
    }

    /// What the history says of the call for who is ahead: 0 on a conflict.
    fn number_ahead(&self, pair: Pair) -> u32 {
        let Pair {
            source,
            target,
            row,
        } = pair;
        if row >= rows(&self.tables[target]) {
            return 8;
        }
        if is_folder(&self.tables[target], row) {
            return 10;
        }
        match self.record.history.ruling(source, target, row) {
            Ruling::Conflict => 0,
            _ => 14,
        }
    }

    /// Two devices' tables and a row.
    fn lent(&self, pair: Pair) -> Lent {
        Lent {
            source: self.tables[pair.source].clone(),
            target: self.tables[pair.target].clone(),
            row: pair.row as u32,
            ..Lent::default()
        }
    }

    /// A call on two tables. In a run neither knows of a later time of the other than the other itself. Of two widths
    /// there is no outcome: the call is refused.
    fn call_pair(&self, call: Call, lent: &Lent) -> Result<Option<Outcome>, Trouble> {
        let outcome = self.judge.call(call, lent)?;
        let number = outcome.answer.number;
        let alike = width(&lent.source) == width(&lent.target);
        hold(
            number != 6 && number != 7 && alike == (number != 19),
            || format!("{} gives {number} in a run", call.name()),
        )?;
        Ok(alike.then_some(outcome))
    }

    /// Whether the call was refused because the device has counted to the end, and it has: the history doesn't end.
    fn is_full(&self, device: usize, outcome: &Outcome) -> bool {
        outcome.answer.number == 15 && self.tables[device][head::COUNTER] == u32::MAX
    }

    /// An event or a settling came out as the history says: with a count, or refused with this number.
    fn agree(
        &mut self,
        device: usize,
        row: usize,
        outcome: &Outcome,
        said: Option<u32>,
        refusal: u32,
    ) -> Result<(), Trouble> {
        let count = said.map(|count| self.record.count_of(device, count));
        let answer = outcome.answer;
        let agreed = match count {
            Some(count) => answer.number == 0 && answer.count == count,
            None => answer.number == refusal,
        };
        hold(agreed, || {
            format!("row {row}: {answer:?}, the history counts {count:?}")
        })?;
        self.tables[device] = outcome.lent.target.clone();
        self.agree_everywhere(device)
    }

    /// A device's table and its history tell the same of every sheet.
    fn agree_everywhere(&self, device: usize) -> Result<(), Trouble> {
        let agrees = self.record.agrees(device, &self.tables[device]);
        agrees.map_err(Trouble::History)
    }
}
