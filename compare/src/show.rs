//! A failing case in words.

use std::fmt::Write;

use second::trial::look::{rows, width};
use second::Content;

use crate::call::{Call, Lent};
use crate::desk::Trouble;
use crate::judge::{Failure, Judge};
use crate::run::Run;
use crate::shrink;

/// The most lines about one case's differences.
const MOST_LINES: usize = 40;

/// The smallest case like this failure, in words.
pub fn failure(judge: &Judge, failure: &Failure) -> String {
    let lent = shrink::lent(judge, failure.call, *failure.lent.clone());
    let mut text = call(failure.call, &lent);
    let complaints = judge.complaints(failure.call, &lent);
    for line in complaints.iter().take(MOST_LINES) {
        writeln!(text, "  {line}").expect("a string takes any text");
    }
    if complaints.len() > MOST_LINES {
        writeln!(text, "  and {} more", complaints.len() - MOST_LINES)
            .expect("a string takes any text");
    }
    text
}

/// The smallest run like this one, which gave this trouble, in words; where the programs differ at a call, that call.
pub fn trouble(judge: &Judge, run: Run, trouble: &Trouble) -> String {
    if let Trouble::Call(call) = trouble {
        return failure(judge, call);
    }
    let run = shrink::run(judge, run);
    match run.play(judge) {
        Err(Trouble::History(what)) => format!("{run}  {what}\n"),
        Err(Trouble::Call(call)) => format!("{run}{}", failure(judge, &call)),
        Ok(()) => unreachable!("what is shrunk still fails"),
    }
}

/// A call with all that is lent and told to it.
fn call(call: Call, lent: &Lent) -> String {
    let Lent {
        columns,
        device,
        row,
        act,
        content: Content { mark, class },
        ..
    } = lent;
    let name = call.name();
    let source = || table("source", &lent.source);
    let target = || table("target", &lent.target);
    let only = || table("table", &lent.target);
    match call {
        Call::Check => format!("{name}(table)\n{}", only()),
        Call::New => format!(
            "{name}({columns} columns, device {device}, plan {:?}, table of {} words)\n",
            lent.plan,
            lent.target.len()
        ),
        Call::Widen => format!(
            "{name}(table, wide of {} words)\n{}",
            lent.wide.len(),
            only()
        ),
        Call::Event => format!(
            "{name}(table, row {row}, event {act}, mark {mark}, class {class})\n{}",
            only()
        ),
        Call::Pass => format!(
            "{name}(source, target, row {row}, answers of {} words)\n{}{}",
            lent.answers.len(),
            source(),
            target()
        ),
        Call::Settle => format!(
            "{name}(source, target, row {row}, choice {act}, mark {mark}, class {class})\n{}{}",
            source(),
            target()
        ),
        Call::Beneath => format!("{name}(table, row {row})\n{}", only()),
        Call::Standing | Call::Ahead => format!(
            "{name}(source, target, row {row})\n{}{}",
            source(),
            target()
        ),
    }
}

/// A table: of the head and of each row, the words that aren't zero, as place:word.
fn table(name: &str, table: &[u32]) -> String {
    let mut text = format!(
        "  {name}, {} words ({} whole rows); words that aren't zero, by their place:\n",
        table.len(),
        rows(table)
    );
    for (index, words) in table.chunks(width(table).row()).enumerate() {
        match index.checked_sub(1) {
            None => text.push_str("    head: "),
            Some(row) => write!(text, "    row {row}:").expect("a string takes any text"),
        }
        for (place, word) in words.iter().enumerate().filter(|(_, &word)| word != 0) {
            write!(text, " {place}:{word}").expect("a string takes any text");
        }
        text.push('\n');
    }
    text
}
