//! Compares the product with the second program and with the history. `compare [--seed N] [--times N]`: everything
//! random comes from the seed, and N times the work takes N times as long.
//!
//! The last line is `N passed, M failed`: a part of the comparison counts as one, and so does each thing that must have
//! been seen at each width: each number of each call, each answer for each pair of kinds, each side on which a row
//! stands, each device ahead on each side, each class given and carried, a class above 9 and mark 0 ignored by each call
//! that takes none, each choice done for each pair of kinds and refused at the counter's end, and in runs both ends of two
//! removals that meet.

use std::env;
use std::process::ExitCode;
use std::time::Instant;

use compare::call::{Call, Lent};
use compare::judge::Judge;
use compare::lents;
use compare::program::{PRODUCT, SECOND};
use compare::run::Run;
use compare::show;
use second::layout::Width;
use second::trial::Random;

/// The seed, if none is given.
const SEED: u64 = 20_050_214;

/// The kinds of sheets.
const KINDS: [&str; 3] = ["never", "live", "removed"];

/// The answers that the six rules have for a sheet, by its kinds in source and target.
const RULED: [((usize, usize), &[usize]); 9] = [
    ((0, 0), &[0]),
    ((0, 1), &[0]),
    ((0, 2), &[0]),
    ((1, 0), &[0, 1]),
    ((1, 1), &[0, 1, 3]),
    ((1, 2), &[0, 1, 3]),
    ((2, 0), &[0]),
    ((2, 1), &[0, 2, 3]),
    ((2, 2), &[0]),
];

/// A part of the comparison.
struct Part {
    name: &'static str,
    /// How many cases it has.
    cases: u64,
    /// Compares one case; what is wrong, in words.
    compare: fn(&Judge, &mut Random) -> Result<(), String>,
}

const PARTS: &[Part] = &[
    Part {
        name: "runs on small trees",
        cases: 8000,
        compare: |judge, random| run(judge, random, 8, 100),
    },
    Part {
        name: "runs of one or two sheets",
        cases: 5000,
        compare: |judge, random| run(judge, random, 3, 100),
    },
    Part {
        name: "runs on middling trees",
        cases: 1200,
        compare: |judge, random| run(judge, random, 40, 150),
    },
    Part {
        name: "runs on large trees",
        cases: 80,
        compare: |judge, random| run(judge, random, 256, 150),
    },
    Part {
        name: "plans",
        cases: 400_000,
        compare: |judge, random| call(judge, Call::New, &lents::plan(random, 20)),
    },
    Part {
        name: "made-up sound tables",
        cases: 500_000,
        compare: |judge, random| calls(judge, &lents::sound(random, 12)),
    },
    Part {
        name: "large made-up sound tables",
        cases: 3000,
        compare: |judge, random| calls(judge, &lents::sound(random, 256)),
    },
    Part {
        name: "damaged tables",
        cases: 700_000,
        compare: |judge, random| calls(judge, &lents::damaged(random, 12)),
    },
    Part {
        name: "large damaged tables",
        cases: 5000,
        compare: |judge, random| calls(judge, &lents::damaged(random, 256)),
    },
    Part {
        name: "garbage",
        cases: 500_000,
        compare: |judge, random| calls(judge, &lents::garbage(random)),
    },
];

fn main() -> ExitCode {
    let (seed, times) = match options(env::args().skip(1)) {
        Ok(options) => options,
        Err(what) => {
            eprintln!("{what}\nusage: compare [--seed N] [--times N]");
            return ExitCode::from(2);
        }
    };
    println!("seed {seed}, {times} times the work");
    let judge = Judge::new(PRODUCT, SECOND);
    let mut score = Score::default();
    for (number, part) in (0..).zip(PARTS) {
        score.add(part.play(&judge, seed, number, times));
    }
    score.add(limits(&judge));
    for width in Width::BOTH {
        seen(&judge, width, &mut score);
    }
    println!("{} passed, {} failed", score.passed, score.failed);
    if score.failed == 0 {
        ExitCode::SUCCESS
    } else {
        ExitCode::FAILURE
    }
}

/// The seed and how many times the work is to be done.
fn options(words: impl Iterator<Item = String>) -> Result<(u64, u64), String> {
    let (mut seed, mut times) = (SEED, 1);
    let mut words = words;
    while let Some(word) = words.next() {
        let option = match word.as_str() {
            "--seed" => &mut seed,
            "--times" => &mut times,
            _ => return Err(format!("{word}: no such option")),
        };
        let number = words.next().and_then(|number| number.parse().ok());
        *option = number.ok_or(format!("{word} needs a number"))?;
    }
    Ok((seed, times))
}

/// What has passed and failed.
#[derive(Default)]
struct Score {
    passed: u64,
    failed: u64,
}

impl Score {
    fn add(&mut self, passed: bool) {
        self.passed += u64::from(passed);
        self.failed += u64::from(!passed);
    }
}

impl Part {
    /// Compares the cases of this part. The first that fails ends it, in its smallest form.
    fn play(&self, judge: &Judge, seed: u64, number: u64, times: u64) -> bool {
        let start = Instant::now();
        let calls = judge.calls();
        let cases = self.cases * times;
        for case in 0..cases {
            let mut random = Random::numbered(seed, [number, case]);
            if let Err(what) = (self.compare)(judge, &mut random) {
                println!(
                    "{}: case {case} from seed {seed} fails; the smallest like it:\n{what}",
                    self.name
                );
                return false;
            }
        }
        let calls = judge.calls() - calls;
        println!(
            "{}: {cases} cases, {calls} calls alike ({:.1} s)",
            self.name,
            start.elapsed().as_secs_f64()
        );
        true
    }
}

fn run(judge: &Judge, random: &mut Random, most_rows: usize, steps: usize) -> Result<(), String> {
    let (run, played) = Run::random(judge, random, most_rows, steps);
    played.map_err(|trouble| show::trouble(judge, run, &trouble))
}

fn call(judge: &Judge, call: Call, lent: &Lent) -> Result<(), String> {
    let outcome = judge.call(call, lent);
    outcome
        .map(drop)
        .map_err(|failure| show::failure(judge, &failure))
}

fn calls(judge: &Judge, lent: &Lent) -> Result<(), String> {
    Call::ALL
        .into_iter()
        .try_for_each(|each| call(judge, each, lent))
}

/// Compares every call at and around the limits.
fn limits(judge: &Judge) -> bool {
    let before = judge.calls();
    for lent in lents::limits() {
        if let Err(what) = calls(judge, &lent) {
            println!("limits: a case fails; the smallest like it:\n{what}");
            return false;
        }
    }
    println!("limits: {} calls alike", judge.calls() - before);
    true
}

/// Prints how often everything was seen at a width; what must be seen and wasn't has failed.
fn seen(judge: &Judge, width: Width, score: &mut Score) {
    let tally = judge.tally(width);
    let mut see = |what: &str, times: u64| {
        println!(
            "  {what}: {times}{}",
            if times == 0 {
                ", and should have been"
            } else {
                ""
            }
        );
        score.add(times > 0);
    };
    println!("with {} columns, how often", width.columns());
    println!("each call gave each number:");
    for call in Call::ALL {
        for number in call.numbers_at(width) {
            see(
                &format!("{} {number}", call.name()),
                tally.given(call, number),
            );
        }
    }
    println!("a pass gave each answer that the rules have for a sheet, by its kinds in source and target:");
    for ((source, target), answers) in RULED {
        for &answer in answers {
            let times = tally.sheets[source][target][answer];
            see(
                &format!("{} to {}, {answer}", KINDS[source], KINDS[target]),
                times,
            );
        }
    }
    println!("a folder was walked, and passed over:");
    for (answer, &times) in (4..).zip(&tally.folders) {
        see(&answer.to_string(), times);
    }
    println!("the row that stands was in neither table, the source's, the target's:");
    for (side, &times) in tally.sides.iter().enumerate() {
        see(&side.to_string(), times);
    }
    println!("in a conflict each device was ahead in the source, and in the target:");
    for (side, devices) in ["source", "target"].into_iter().zip(&tally.ahead) {
        for (device, &times) in devices.iter().take(width.columns()).enumerate() {
            see(&format!("{side}, device {device}"), times);
        }
    }
    println!("a sheet of each class was given by an event or by settling new, copied by a pass, taken by settling theirs:");
    let ways = ["given", "copied", "theirs"];
    for (way, classes) in ways.into_iter().zip(&tally.classes) {
        for (class, &times) in classes.iter().enumerate() {
            see(&format!("{way}, class {class}"), times);
        }
    }
    println!("a class above 9, and mark 0, was ignored by each call that takes none:");
    let calls = ["removing", "theirs", "own"];
    for (what, ignored) in calls.into_iter().zip(&tally.ignored) {
        for (wrong, &times) in ["class", "mark"].into_iter().zip(ignored) {
            see(&format!("{what}, {wrong}"), times);
        }
    }
    println!("a conflict was settled by each choice, by its kinds in source and target, and wasn't at the counter's end:");
    for (choice, name) in ["theirs", "own", "new"].into_iter().enumerate() {
        for (source, target) in [(1, 1), (1, 0), (0, 1)] {
            let [a, b] = [source, target].map(|live| KINDS[2 - live]);
            see(
                &format!("{name}, {a} to {b}"),
                tally.settled[choice][source][target],
            );
        }
        see(&format!("{name}, at the end"), tally.full[choice]);
    }
    println!("in a run a removal that the target hadn't heard of met one of its own, which");
    for (what, &times) in ["stayed", "gave way"].into_iter().zip(&tally.removals) {
        see(what, times);
    }
}
