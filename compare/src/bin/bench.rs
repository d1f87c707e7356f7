//! Measures check and pass of the product, at both widths, against the obvious program and against merely reading the
//! tables. `bench [--rounds N] [--beside FOLDER]`: in each round every one of them is timed once, so that whatever
//! slows the machine slows all. With `--beside` the archive in that folder is measured too, on narrow tables, and the
//! product is loaded in the same way, from the folder that KETTLEFLOCK_LIB_DIR names.

use std::env;
use std::hint::black_box;
use std::path::{Path, PathBuf};
use std::process::ExitCode;
use std::time::{Duration, Instant};

use compare::call::{Call, Lent};
use compare::judge::Judge;
use compare::lents;
use compare::loaded::Loaded;
use compare::obvious;
use compare::program::{Answer, Program, PRODUCT, SECOND};
use compare::show;
use second::layout::{Width, MOST_ROWS};
use second::trial::look::{fresh, rows};
use second::trial::{plans, Random};

/// The obvious program, of check and pass alone.
const OBVIOUS: Program = Program {
    name: "obvious",
    check: obvious::check,
    pass: obvious::pass,
    ..SECOND
};

/// How many cases the obvious program has to get right before it is measured against.
const CASES: u64 = 20_000;

/// Folders beneath the root, and sheets in each: 256 rows in all.
const FOLDERS: usize = 15;
const SHEETS: usize = 16;

fn main() -> ExitCode {
    let options = match Options::read(env::args().skip(1)) {
        Ok(options) => options,
        Err(what) => {
            eprintln!("{what}\nusage: bench [--rounds N] [--beside FOLDER]");
            return ExitCode::from(2);
        }
    };
    match measure(&options) {
        Ok(()) => ExitCode::SUCCESS,
        Err(what) => {
            println!("{what}");
            ExitCode::FAILURE
        }
    }
}

/// What the command line asks for.
struct Options {
    rounds: usize,
    beside: Option<PathBuf>,
}

impl Options {
    fn read(mut words: impl Iterator<Item = String>) -> Result<Options, String> {
        let mut options = Options {
            rounds: 3001,
            beside: None,
        };
        while let Some(option) = words.next() {
            let value = words.next().ok_or(format!("{option} needs a value"))?;
            match (option.as_str(), value.parse()) {
                ("--rounds", Ok(rounds @ 1..)) => options.rounds = rounds,
                ("--beside", _) => options.beside = Some(value.into()),
                _ => return Err(format!("{option} {value}: no such option")),
            }
        }
        Ok(options)
    }
}

fn measure(options: &Options) -> Result<(), String> {
    obvious_is_right()
        .map_err(|what| format!("the obvious program is wrong, so nothing is measured:\n{what}"))?;
    println!("the obvious program and the second one are alike on {CASES} pairs of tables");
    println!("{MOST_ROWS} rows: a root, {FOLDERS} folders, {SHEETS} sheets in each");
    println!(
        "middle values of {} rounds, in microseconds",
        options.rounds
    );
    let Some(beside) = &options.beside else {
        for width in Width::BOTH {
            let measured: [(_, &dyn Measured); 3] = [
                ("product", &PRODUCT),
                ("obvious", &OBVIOUS),
                ("reading", &Reading),
            ];
            print_all(width, &measured, options.rounds);
        }
        return Ok(());
    };
    let folder = env::var_os("KETTLEFLOCK_LIB_DIR").ok_or("KETTLEFLOCK_LIB_DIR isn't set")?;
    let product = Loaded::new(Path::new(&folder))?;
    let beside = Loaded::new(beside)?;
    let measured: [(_, &dyn Measured); 4] = [
        ("product", &product),
        ("beside", &beside),
        ("obvious", &OBVIOUS),
        ("reading", &Reading),
    ];
    print_all(Width::Narrow, &measured, options.rounds);
    Ok(())
}

/// Holds the obvious program against the second one: on made-up tables, sound and damaged, and on those measured.
fn obvious_is_right() -> Result<(), String> {
    let judge = Judge::new(OBVIOUS, SECOND);
    let made_up = (0..CASES).map(|case| {
        let random = &mut Random::numbered(3, [0, case]);
        match case % 100 {
            0 => lents::sound(random, MOST_ROWS),
            1..50 => lents::sound(random, 12),
            _ => lents::damaged(random, 12),
        }
    });
    let pairs = Width::BOTH.into_iter().flat_map(pairs);
    let measured = pairs.map(|(_, source, target)| Lent {
        answers: vec![0; rows(&target)],
        source,
        target,
        ..Lent::default()
    });
    for lent in measured.chain(made_up).chain(lents::limits()) {
        for call in [Call::Check, Call::Pass] {
            judge
                .call(call, &lent)
                .map_err(|failure| show::failure(&judge, &failure))?;
        }
    }
    Ok(())
}

/// Source and target of each measurement: the target has all that the source had before its last changes.
fn pairs(width: Width) -> [(&'static str, Vec<u32>, Vec<u32>); 3] {
    let folder = || [SHEETS as u32 + 1].into_iter().chain([0; SHEETS]);
    let plan: Vec<u32> = [MOST_ROWS as u32]
        .into_iter()
        .chain((0..FOLDERS).flat_map(|_| folder()))
        .collect();
    let sheets = plans::sheets(&plan);
    let mut source = fresh(width, 0, &plan);
    let mut target = fresh(width, 1, &plan);
    let event = |table: &mut [u32], row: usize, act: u32| {
        let row = row as u32;
        assert_eq!(
            second::event(table, row, act, 1000 + row, row % 10).number,
            0
        );
    };
    for &row in &sheets {
        event(&mut source, row, 1);
    }
    for _ in 0..2 {
        let answer = second::pass(&source, &mut target, 0, &mut [0; MOST_ROWS]);
        assert_eq!(answer.number, 0);
    }
    let mut one = source.clone();
    event(&mut one, sheets[sheets.len() / 2], 2);
    let mut all = source.clone();
    for &row in &sheets {
        event(&mut all, row, 2);
    }
    [
        ("all equal", source, target.clone()),
        ("one sheet changed", one, target.clone()),
        ("all changed", all, target),
    ]
}

/// What can be measured.
trait Measured {
    fn check(&self, table: &[u32]) -> Answer;
    fn pass(&self, source: &[u32], target: &mut [u32], answers: &mut [u32]) -> Answer;
}

impl Measured for Program {
    fn check(&self, table: &[u32]) -> Answer {
        (self.check)(table)
    }

    fn pass(&self, source: &[u32], target: &mut [u32], answers: &mut [u32]) -> Answer {
        (self.pass)(source, target, 0, answers)
    }
}

impl Measured for Loaded {
    fn check(&self, table: &[u32]) -> Answer {
        self.check(table)
    }

    fn pass(&self, source: &[u32], target: &mut [u32], answers: &mut [u32]) -> Answer {
        self.pass(source, target, 0, answers)
    }
}

/// Merely reads all words.
struct Reading;

impl Measured for Reading {
    fn check(&self, table: &[u32]) -> Answer {
        Answer {
            number: 0,
            count: table.iter().fold(0, |sum, &word| sum ^ word),
        }
    }

    fn pass(&self, source: &[u32], target: &mut [u32], _: &mut [u32]) -> Answer {
        let counts = [source, target].map(|table| self.check(table).count);
        Answer {
            number: 0,
            count: counts[0] ^ counts[1],
        }
    }
}

/// Times everything at a width and prints a line for each table and call, with the first against each of the others.
fn print_all(width: Width, measured: &[(&str, &dyn Measured)], rounds: usize) {
    println!(
        "\n{:28} {}",
        format!("{} columns", width.columns()),
        header(measured)
    );
    let print = |name: String, middles: Vec<f64>| {
        let times: String = middles.iter().map(|time| format!("{time:9.2}")).collect();
        let ratios = middles[1..].iter().map(|time| middles[0] / time);
        let ratios: String = ratios.map(|ratio| format!("{ratio:16.2}")).collect();
        println!("{name:28} {times}  {ratios}");
    };
    for (name, source, target) in pairs(width) {
        let check = |measured: &dyn Measured| {
            let start = Instant::now();
            let _ = black_box(measured.check(black_box(&source)));
            start.elapsed()
        };
        print(format!("check, {name}"), middles(measured, rounds, check));
        let mut answers = vec![0; MOST_ROWS];
        let mut changed = target.clone();
        let pass = |measured: &dyn Measured| {
            changed.copy_from_slice(&target);
            let (target, answers) = (black_box(&mut changed), black_box(&mut answers));
            let start = Instant::now();
            let _ = black_box(measured.pass(black_box(&source), target, answers));
            start.elapsed()
        };
        print(format!("pass, {name}"), middles(measured, rounds, pass));
    }
}

/// The names of what is measured, and of the first against the others.
fn header(measured: &[(&str, &dyn Measured)]) -> String {
    let names = measured.iter().map(|(name, _)| format!("{name:>9}"));
    let first = measured[0].0;
    let ratios = measured[1..]
        .iter()
        .map(|(name, _)| format!("{:>16}", format!("{first}/{name}")));
    names.chain(["  ".to_owned()]).chain(ratios).collect()
}

/// Times each once in every round, in an order that changes from round to round. The middle times, in microseconds.
fn middles(
    measured: &[(&str, &dyn Measured)],
    rounds: usize,
    mut time: impl FnMut(&dyn Measured) -> Duration,
) -> Vec<f64> {
    let mut random = Random::new(4);
    let mut order: Vec<usize> = (0..measured.len()).collect();
    let mut times = vec![Vec::new(); measured.len()];
    for _ in 0..rounds {
        random.shuffle(&mut order);
        for &who in &order {
            times[who].push(time(measured[who].1));
        }
    }
    times.into_iter().map(middle).collect()
}

/// The middle value, in microseconds.
fn middle(mut times: Vec<Duration>) -> f64 {
    times.sort_unstable();
    times[times.len() / 2].as_secs_f64() * 1e6
}
