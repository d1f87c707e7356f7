//! The smallest case that still fails.

use second::layout::{head, word, Time, Width};
use second::trial::look::{counts, is_folder, mend, narrowed, place, rows, size};
use second::trial::plans;
use second::Content;

use crate::call::{Call, Lent};
use crate::judge::Judge;
use crate::run::{Run, Step};

/// How many smaller cases are tried at most.
const MOST_TRIES: usize = 40_000;

/// A way to make something smaller, in numbered places: `None` past the last number, and within it nothing where that
/// number doesn't apply.
type Way<T> = fn(&T, usize) -> Option<Option<T>>;

/// Something that can be made smaller.
trait Shrinks: Sized + 'static {
    /// The ways, tried one after the other.
    const WAYS: &'static [Way<Self>];

    /// Smaller is less.
    fn size(&self) -> (usize, usize, u128);
}

/// Makes a case smaller as long as it fails.
fn smallest<T: Shrinks>(mut case: T, fails: impl Fn(&T) -> bool) -> T {
    let mut tries = 0;
    loop {
        let before = case.size();
        for way in T::WAYS {
            let mut number = 0;
            while let Some(smaller) = way(&case, number) {
                let smaller = smaller.filter(|smaller| smaller.size() < case.size());
                tries += usize::from(smaller.is_some());
                if tries > MOST_TRIES {
                    return case;
                }
                match smaller.filter(&fails) {
                    Some(smaller) => case = smaller,
                    None => number += 1,
                }
            }
        }
        if case.size() == before {
            return case;
        }
    }
}

/// The smallest that can be lent to a call so that it still fails, and with the same numbers.
pub fn lent(judge: &Judge, call: Call, mut lent: Lent) -> Lent {
    let numbers = judge.failing(call, &lent);
    if !call.has_source() {
        lent.source.clear();
    }
    if call != Call::New {
        lent.plan.clear();
        lent.columns = 0;
    }
    if call != Call::Widen {
        lent.wide.clear();
    }
    if call != Call::Pass {
        lent.answers.clear();
    }
    smallest(lent, |lent| judge.failing(call, lent) == numbers)
}

/// The smallest run that still gives trouble.
pub fn run(judge: &Judge, run: Run) -> Run {
    smallest(run, |run| run.play(judge).is_err())
}

impl Shrinks for Lent {
    const WAYS: &'static [Way<Lent>] = &[
        fewer_rows,
        fewer_columns,
        fewer_events,
        fewer_counts,
        smaller_words,
        smaller_numbers,
    ];

    fn size(&self) -> (usize, usize, u128) {
        let buffers = self.buffers().map(|(_, words)| words);
        let Content { mark, class } = self.content;
        let numbers = [self.columns, self.device, self.row, self.act, mark, class];
        let words = || buffers.into_iter().flatten().chain(&numbers);
        (
            buffers.into_iter().map(Vec::len).sum(),
            words().filter(|&&word| word != 0).count(),
            words().map(|&word| u128::from(word)).sum(),
        )
    }
}

/// The case after a change to one of its tables, with its summaries worked out anew or not.
fn changed(lent: &Lent, number: usize, change: impl FnOnce(&mut [u32])) -> Lent {
    let mut lent = lent.clone();
    let table = if number & 1 == 0 {
        &mut lent.source
    } else {
        &mut lent.target
    };
    change(table);
    if number & 2 == 0 {
        mend(table);
    }
    lent
}

/// The table that `changed` changes at this number.
fn chosen(lent: &Lent, number: usize) -> &[u32] {
    if number & 1 == 0 {
        &lent.source
    } else {
        &lent.target
    }
}

/// Without a row, and all beneath it or not.
fn fewer_rows(lent: &Lent, number: usize) -> Option<Option<Lent>> {
    let (row, mended, all_beneath) = (1 + number / 4, number & 1 == 0, number & 2 == 0);
    let most = rows(&lent.target).max(rows(&lent.source));
    if row >= most.max(lent.plan.len()) {
        return None;
    }
    let mut fewer = lent.clone();
    for table in [&mut fewer.source, &mut fewer.target] {
        remove_rows(table, row, all_beneath);
        if mended {
            mend(table);
        }
    }
    if let Some(plan) = plans::without(&lent.plan, row, all_beneath) {
        let gone = lent.plan.len() - plan.len();
        fewer.plan = plan;
        shorten(&mut fewer.target, gone * lent.width(Call::New).row());
    }
    let gone = rows(&lent.target) - rows(&fewer.target);
    shorten(&mut fewer.wide, gone * Width::Wide.row());
    let start = lent.row as usize;
    if start > row {
        fewer.row = start.saturating_sub(gone) as u32;
    }
    if (start..start.saturating_add(lent.answers.len())).contains(&row) {
        shorten(&mut fewer.answers, gone);
    }
    Some(Some(fewer))
}

/// Takes words away at the end.
fn shorten(words: &mut Vec<u32>, gone: usize) {
    words.truncate(words.len().saturating_sub(gone));
}

/// Takes a row of a table away, with all beneath it or not; every folder that held it is smaller.
fn remove_rows(table: &mut Vec<u32>, row: usize, all_beneath: bool) {
    let rows = rows(table);
    if row >= rows {
        return;
    }
    let gone = if all_beneath {
        size(table, row).max(1).min(rows - row)
    } else {
        1
    };
    for above in 0..row {
        let size = place(table, above, word::SIZE);
        if is_folder(table, above) && table[size] as usize > row - above {
            table[size] = table[size].saturating_sub(gone as u32);
        }
    }
    if table[head::ROWS] as usize == rows {
        table[head::ROWS] -= gone as u32;
    }
    table.drain(place(table, row, 0)..place(table, row + gone, 0));
}

/// With narrow tables, or only one of them.
fn fewer_columns(lent: &Lent, number: usize) -> Option<Option<Lent>> {
    let mut fewer = lent.clone();
    let tables: &mut [&mut Vec<u32>] = match number {
        0 => &mut [&mut fewer.source, &mut fewer.target],
        1 => &mut [&mut fewer.source],
        2 => &mut [&mut fewer.target],
        _ => return None,
    };
    for table in tables {
        if rows(table) > 0 {
            **table = narrowed(table);
        }
    }
    Some(Some(fewer))
}

/// With a sheet to which nothing has happened.
fn fewer_events(lent: &Lent, number: usize) -> Option<Option<Lent>> {
    let row = number / 4;
    if row >= rows(&lent.source).max(rows(&lent.target)) {
        return None;
    }
    let table = chosen(lent, number);
    if row >= rows(table) || is_folder(table, row) {
        return Some(None);
    }
    Some(Some(changed(lent, number, |table| {
        let row = place(table, row, 0);
        table[row + word::KIND] = 0;
        table[row + word::STAMP..row + word::VECTORS].fill(0);
    })))
}

/// With a vector of zeros.
fn fewer_counts(lent: &Lent, number: usize) -> Option<Option<Lent>> {
    let (row, vector) = (number / 16, number / 4 % 4);
    if row >= rows(&lent.source).max(rows(&lent.target)) {
        return None;
    }
    if row >= rows(chosen(lent, number)) {
        return Some(None);
    }
    Some(Some(changed(lent, number, |table| {
        let counts = counts(table, row, Time::ALL[vector]);
        table[counts].fill(0);
    })))
}

/// With a word that is 0, or 1, or halved.
fn smaller_words(lent: &Lent, number: usize) -> Option<Option<Lent>> {
    let (word, value) = (number / 12, number / 4 % 3);
    if word >= lent.source.len().max(lent.target.len()) {
        return None;
    }
    if chosen(lent, number).get(word).is_none_or(|&word| word == 0) {
        return Some(None);
    }
    Some(Some(changed(lent, number, |table| {
        table[word] = [0, 1, table[word] / 2][value];
    })))
}

/// With smaller numbers, answers and plans.
fn smaller_numbers(lent: &Lent, number: usize) -> Option<Option<Lent>> {
    let (index, halved) = (number / 2, number % 2 == 1);
    let mut smaller = lent.clone();
    let numbers = [
        &mut smaller.columns,
        &mut smaller.device,
        &mut smaller.row,
        &mut smaller.act,
        &mut smaller.content.mark,
        &mut smaller.content.class,
    ];
    let all = numbers
        .into_iter()
        .chain(&mut smaller.plan)
        .chain(&mut smaller.answers);
    let word = all.into_iter().nth(index)?;
    *word = if halved { *word / 2 } else { 0 };
    Some(Some(smaller))
}

impl Shrinks for Run {
    const WAYS: &'static [Way<Run>] = &[
        fewer_steps,
        no_widening,
        whole_passes,
        no_such_row,
        no_such_device,
        early_counters,
        narrow_starts,
    ];

    fn size(&self) -> (usize, usize, u128) {
        let starts = self.starts.iter();
        let starts = starts.map(|start| u128::from(start.counter) + start.width.columns() as u128);
        let rows = self.steps.iter().map(|step| step.row() as u128);
        (
            self.steps.len(),
            self.plan.len() + self.starts.len(),
            starts.chain(rows).sum(),
        )
    }
}

/// Without some steps that follow each other, or without one.
fn fewer_steps(run: &Run, number: usize) -> Option<Option<Run>> {
    const MANY: usize = 8;
    let steps = run.steps.len();
    let many = steps / MANY;
    let gone = if number < many {
        number * MANY..(number + 1) * MANY
    } else {
        number - many..number - many + 1
    };
    if gone.end > steps {
        return None;
    }
    let mut fewer = run.clone();
    fewer.steps.drain(gone);
    Some(Some(fewer))
}

/// Without any widening.
fn no_widening(run: &Run, number: usize) -> Option<Option<Run>> {
    let mut fewer = run.clone();
    fewer
        .steps
        .retain(|step| !matches!(step, Step::Widen { .. }));
    (number == 0).then_some(Some(fewer))
}

/// With a pass that starts at the root.
fn whole_passes(run: &Run, number: usize) -> Option<Option<Run>> {
    let mut whole = run.clone();
    let step = whole.steps.get_mut(number)?;
    *step = step.at_row(0);
    Some(matches!(step, Step::Pass(_)).then_some(whole))
}

/// Without a row, and all beneath it or not.
fn no_such_row(run: &Run, number: usize) -> Option<Option<Run>> {
    let (row, all_beneath) = (1 + number / 2, number & 1 == 0);
    let plan = plans::without(&run.plan, row, all_beneath)?;
    let gone = run.plan.len() - plan.len();
    let steps = run
        .steps
        .iter()
        .filter(|step| step.row() < row || step.row() >= row + gone);
    let moved = |step: &Step| match step.row() {
        at if at >= row => step.at_row(at - gone),
        _ => *step,
    };
    Some(Some(Run {
        steps: steps.map(moved).collect(),
        starts: run.starts.clone(),
        plan,
    }))
}

/// Without a device, and without what it took part in.
fn no_such_device(run: &Run, number: usize) -> Option<Option<Run>> {
    if number >= run.starts.len() || run.starts.len() <= 2 {
        return None;
    }
    let mut fewer = run.clone();
    fewer.starts.remove(number);
    fewer.steps.retain(|step| !step.devices().contains(&number));
    for step in &mut fewer.steps {
        *step = step.with_devices(|device| device - usize::from(device > number));
    }
    Some(Some(fewer))
}

/// With a device that starts at 0.
fn early_counters(run: &Run, number: usize) -> Option<Option<Run>> {
    let mut early = run.clone();
    early.starts.get_mut(number)?.counter = 0;
    Some(Some(early))
}

/// With a device that starts narrow, where it can.
fn narrow_starts(run: &Run, number: usize) -> Option<Option<Run>> {
    let mut narrow = run.clone();
    narrow.starts.get_mut(number)?.width = Width::Narrow;
    Some(Width::Narrow.has(number as u32).then_some(narrow))
}
