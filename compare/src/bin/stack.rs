//! Measures the stack that each export takes on tables of 256 rows, at both widths and in three shapes of tree: the
//! bytes beneath its caller that it has touched. Each call succeeds, but that a wide table isn't widened. With `--most N`
//! a call that takes more than N bytes fails.

#![allow(unsafe_code)]

use std::hint::black_box;
use std::process::ExitCode;
use std::{env, ptr, thread};

use compare::program::{Answer, PRODUCT};
use second::layout::{Width, MOST_LEVELS, MOST_ROWS};
use second::trial::look::fresh;
use second::trial::plans;
use second::Content;

/// The bytes of stack that are painted before a call.
const FIELD: usize = 1 << 20;

/// What they are painted with.
const PAINT: u8 = 0xa5;

/// The bytes next to the measuring function that stay as they are: its own may lie there.
const MARGIN: usize = 256;

fn main() -> ExitCode {
    let words: Vec<String> = env::args().skip(1).collect();
    let words: Vec<&str> = words.iter().map(String::as_str).collect();
    let most = match words[..] {
        [] => None,
        ["--most", bytes] => match bytes.parse::<usize>() {
            Ok(bytes) => Some(bytes),
            Err(_) => return usage(),
        },
        _ => return usage(),
    };
    let measuring = thread::Builder::new().stack_size(4 * FIELD);
    let measured = measuring.spawn(print_all).expect("a thread");
    let calls = measured.join().expect("all is measured");
    match most {
        None => ExitCode::SUCCESS,
        Some(most) => judge(&calls, most),
    }
}

fn usage() -> ExitCode {
    eprintln!("stack [--most N]: measures the stack that each export takes; with --most none may take more than N bytes");
    ExitCode::from(2)
}

/// Says which calls take too much. The last line is `N passed, M failed`.
fn judge(calls: &[(&str, usize)], most: usize) -> ExitCode {
    let over = calls.iter().filter(|(_, bytes)| *bytes > most);
    for (name, bytes) in over.clone() {
        println!("{name} takes {bytes} bytes of stack, more than {most}");
    }
    let failed = over.count();
    println!("{} passed, {failed} failed", calls.len() - failed);
    ExitCode::from(u8::from(failed > 0))
}

/// Prints what each call takes in each case; gives the most that each takes.
fn print_all() -> Vec<(&'static str, usize)> {
    let shapes = [
        ("flat", plans::flat(MOST_ROWS - 1)),
        (
            "deep",
            plans::chain(MOST_LEVELS - 1, MOST_ROWS - MOST_LEVELS + 1),
        ),
        ("steps", steps()),
    ];
    println!("bytes of stack at {MOST_ROWS} rows, with 8 and 16 columns");
    println!("flat: one folder; deep: 16 levels, all sheets on the last; steps: 16 levels, 16 sheets on each");
    let mut columns = Vec::new();
    print!("{:20}", "");
    for width in Width::BOTH {
        for (name, plan) in &shapes {
            print!("{:>10}", format!("{name} {}", width.columns()));
            columns.push(Case::new(width, plan).measured());
        }
    }
    println!();
    let mut calls = Vec::new();
    for call in 0..columns[0].len() {
        let name = columns[0][call].0;
        print!("{name:20}");
        for column in &columns {
            print!("{:10}", column[call].1);
        }
        println!();
        let most = columns.iter().map(|column| column[call].1).max();
        calls.push((name, most.unwrap_or(0)));
    }
    calls
}

/// Folders one in the other, before each of them sixteen sheets.
fn steps() -> Vec<u32> {
    let folders = 1..MOST_LEVELS;
    let step = |folder: usize| {
        let rest = MOST_ROWS - 17 * folder;
        [0; 16].into_iter().chain([rest as u32])
    };
    let root = [MOST_ROWS as u32].into_iter();
    root.chain(folders.flat_map(step)).collect()
}

/// Two tables: the source has created every sheet, the target the last one.
struct Case {
    width: Width,
    plan: Vec<u32>,
    source: Vec<u32>,
    target: Vec<u32>,
    /// The last sheet.
    last: u32,
}

impl Case {
    fn new(width: Width, plan: &[u32]) -> Case {
        let [mut source, mut target] = [0, 1].map(|device| fresh(width, device, plan));
        let mut last = 0;
        for row in plans::sheets(plan) {
            last = row as u32;
            assert_eq!(second::event(&mut source, last, 1, 7, 0).number, 0);
        }
        assert_eq!(second::event(&mut target, last, 1, 8, 0).number, 0);
        Case {
            width,
            plan: plan.to_vec(),
            source,
            target,
            last,
        }
    }

    /// The bytes that each call takes, by its name.
    fn measured(&self) -> Vec<(&'static str, usize)> {
        let (source, last) = (&self.source, self.last);
        let columns = self.width.columns() as u32;
        let content = Content { mark: 9, class: 9 };
        let mut made = self.target.clone();
        let mut wide = vec![0; Width::Wide.length(MOST_ROWS)];
        let mut answers = [0; MOST_ROWS];
        let [mut changed, mut passed, mut looked_at, mut settled] =
            [(); 4].map(|()| self.target.clone());
        let calls: [Named; 11] = [
            ("kf_check", &mut || (PRODUCT.check)(source)),
            ("kf_new", &mut || {
                (PRODUCT.new)(columns, 1, &self.plan, &mut made)
            }),
            ("kf_widen", &mut || (PRODUCT.widen)(source, &mut wide)),
            ("kf_event", &mut || {
                (PRODUCT.event)(&mut changed, last, 2, content)
            }),
            ("kf_pass", &mut || {
                (PRODUCT.pass)(source, &mut passed, 0, &mut answers)
            }),
            ("kf_pass, last sheet", &mut || {
                (PRODUCT.pass)(source, &mut looked_at, last, &mut [0])
            }),
            ("kf_settle", &mut || {
                (PRODUCT.settle)(source, &mut settled, last, 3, content)
            }),
            ("kf_beneath", &mut || (PRODUCT.beneath)(source, 0)),
            ("kf_standing", &mut || {
                (PRODUCT.standing)(source, &self.target, last)
            }),
            ("kf_standing_side", &mut || Answer {
                number: 0,
                count: (PRODUCT.standing_side)(source, &self.target, last),
            }),
            ("kf_ahead", &mut || Answer {
                number: (PRODUCT.ahead)(source, &self.target, last).number,
                count: 0,
            }),
        ];
        let is_wide = self.width == Width::Wide;
        calls
            .into_iter()
            .map(|(name, call)| {
                let (answer, depth) = depth(call);
                let number = if is_wide && name == "kf_widen" { 19 } else { 0 };
                assert_eq!(answer.number, number, "{name}");
                (name, depth)
            })
            .collect()
    }
}

/// A call and its name.
type Named<'a> = (&'static str, &'a mut dyn FnMut() -> Answer);

/// Paints the stack beneath this function, makes the call, and looks how far down the paint is gone.
#[inline(never)]
fn depth(call: &mut dyn FnMut() -> Answer) -> (Answer, usize) {
    let here = 0u64;
    let top = (&raw const here).expose_provenance() - MARGIN;
    let field = ptr::with_exposed_provenance_mut::<u8>(top - FIELD);
    // SAFETY: the thread's stack is longer than the field, and nothing that is still needed lies in it.
    unsafe { field.write_bytes(PAINT, FIELD) };
    let answer = black_box(call());
    // SAFETY: as above; the call has returned.
    let is_painted = |byte: &usize| unsafe { field.add(*byte).read_volatile() } == PAINT;
    let painted = (0..FIELD).take_while(is_painted).count();
    assert!(painted > 0, "the field is too small");
    (answer, MARGIN + FIELD - painted)
}
