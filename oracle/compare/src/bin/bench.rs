//! bench: the time of one call, the port's and the Rust's, on the same questions.
//!
//! Both sides are called in the same way, by address, with the port's convention and from the same
//! loop, so both pay one call, the tests of the arguments and the answer's way through memory.
//! Questions on which the Rust panics are not timed. The Rust has one width, 48 bits: it is handed the
//! number as the port is, and leaves it unread. What depends on the width is asked of the port at 57
//! bits too, on questions that have answers of the same kinds.
//!
//! The same code takes some cycles more or less by where it lies and by what the processor has kept
//! from the code before it, and stays so while it runs on. So the program runs itself many times,
//! each time at other addresses, and a run has many short blocks, between which all other functions
//! run. In a block both sides take turns. The port at 57 bits has blocks of its own, since the processor
//! learns the questions of a block. The best turn of a run counts, and of all runs the median.

use std::collections::BTreeSet;
use std::env;
use std::hint::black_box;
use std::process::Command;
use std::time::{Duration, Instant};

use compare::answer::MOST_WORDS;
use compare::counts::NAME;
use compare::inputs;
use compare::kind::{self, Kind};
use compare::operation::Operation;
use compare::port::Function;
use compare::{operations, rust};

const RUNS: usize = 36;
const BLOCKS: usize = 60;
const BLOCK: Duration = Duration::from_micros(200);
const QUESTIONS: usize = 1024;
const SEED: u64 = 1;

/// The argument that makes the program one of its own runs.
const ONE_RUN: &str = "--one-run";

fn main() {
    match env::args().nth(1).as_deref() {
        None => print_table(),
        Some(ONE_RUN) => print_one_run(),
        Some(_) => eprintln!("usage: bench"),
    }
}

fn print_table() {
    let runs: Vec<_> = (0..RUNS).map(|_| one_run()).collect();
    println!(
        "{:NAME$}{:>10}{:>10}{:>12}{:>12}",
        "function", "port ns", "Rust ns", "port/Rust", "port 57 ns"
    );
    for (place, operation) in operations::all().enumerate() {
        let of_runs = |side: usize| median(runs.iter().map(|run| run[place][side]));
        let [port, rust, wide] = [0, 1, 2].map(of_runs);
        let (name, ratio) = (operation.name, port / rust);
        print!("{name:NAME$}{port:>10.2}{rust:>10.2}{ratio:>12.2}");
        if wide.is_finite() {
            print!("{wide:>12.2}");
        }
        println!();
    }
}

fn median(values: impl Iterator<Item = f64>) -> f64 {
    let mut values: Vec<_> = values.collect();
    values.sort_by(f64::total_cmp);
    values[values.len() / 2]
}

/// The times of the port, of the Rust and of the port at 57 bits.
type Times = [f64; 3];

/// The times for each operation, from one run.
fn one_run() -> Vec<Times> {
    let program = env::current_exe().expect("the own path is known");
    let run = Command::new(program).arg(ONE_RUN).output();
    let run = run.expect("a run can be started");
    assert!(run.status.success(), "a run failed");
    let lines = String::from_utf8(run.stdout).expect("a run prints numbers");
    let times = lines.lines().map(|line| {
        let times = line.split(' ').map(|time| time.parse().ok());
        times.collect::<Option<Vec<f64>>>()?.try_into().ok()
    });
    times.collect::<Option<_>>().expect("a run prints numbers")
}

fn print_one_run() {
    rust::silence_caught_panics();
    let mut rows: Vec<_> = operations::all().map(row).collect();
    for _ in 0..BLOCKS {
        rows.iter_mut().for_each(time_block);
    }
    for row in &rows {
        let [port, rust, wide] = row.times;
        println!("{port} {rust} {wide}");
    }
}

/// An operation with its questions and the best times so far, in nanoseconds for one call.
struct Row {
    operation: &'static Operation,
    questions: Vec<u64>,
    /// Those at 57 bits, if the answer depends on the width.
    wide: Option<Vec<u64>>,
    times: Times,
}

fn row(operation: &'static Operation) -> Row {
    let mut statuses = BTreeSet::new();
    let questions = drawn(operation, 48, |args| {
        let asked = operation.ask_rust(args);
        let answer = asked.answer.filter(|_| !asked.panicked);
        statuses.extend(answer.map(|answer| answer.status));
        answer.is_some()
    });
    let is_alike = |args: &[u64]| {
        kind::width(operation.kinds, args) == Some(57)
            && statuses.contains(&operation.ask_model(args).status)
    };
    let has_width = operation.kinds.first() == Some(&Kind::Width);
    Row {
        operation,
        questions,
        wide: has_width.then(|| drawn(operation, 57, is_alike)),
        times: [f64::INFINITY; 3],
    }
}

/// Drawn questions that are wanted, their arguments in a row.
fn drawn(operation: &Operation, width: u64, mut is_wanted: impl FnMut(&[u64]) -> bool) -> Vec<u64> {
    let words = QUESTIONS * operation.words();
    let mut questions = Vec::with_capacity(words);
    let _ = inputs::each_drawn_around(width, operation, SEED, u64::MAX, |args| {
        if is_wanted(args) {
            questions.extend(args);
        }
        if questions.len() < words {
            Ok(())
        } else {
            Err(())
        }
    });
    questions
}

fn time_block(row: &mut Row) {
    let (port, rust) = (row.operation.port, row.operation.timed);
    let [of_port, of_rust, of_wide] = &mut row.times;
    take_turns(|| {
        *of_port = of_port.min(time(port, &row.questions));
        *of_rust = of_rust.min(time(rust, &row.questions));
    });
    if let Some(wide) = &row.wide {
        take_turns(|| {
            *of_wide = of_wide.min(time(port, wide));
            time(rust, &row.questions);
        });
    }
}

/// For as long as a block.
fn take_turns(mut turn: impl FnMut()) {
    let start = Instant::now();
    while start.elapsed() < BLOCK {
        turn();
    }
}

/// Nanoseconds for one call.
fn time(function: Function, questions: &[u64]) -> f64 {
    let mut out = [0; MOST_WORDS];
    let function = black_box(function);
    let start = Instant::now();
    function.call_often(QUESTIONS, questions, &mut out);
    let elapsed = start.elapsed();
    elapsed.as_nanos() as f64 / QUESTIONS as f64
}
