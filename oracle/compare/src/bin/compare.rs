//! compare [--draws N] [--seed S]: the port against the unchanged Rust and the model.
//!
//! N is the number of drawn questions for each function, at each width, S the seed (both decimal, or
//! hexadecimal with 0x). Ends with status 1 at a difference. A longer run: compare --draws 20000000
//! --seed 7

use std::process::ExitCode;
use std::sync::atomic::{AtomicBool, AtomicUsize, Ordering};
use std::sync::Mutex;
use std::thread;
use std::time::Instant;

use compare::comparison::{self, Difference};
use compare::counts::{self, Counts};
use compare::operation::Operation;
use compare::{operations, rust};

const DEFAULT_DRAWS: u64 = 500_000;
const DEFAULT_SEED: u64 = 1;

fn main() -> ExitCode {
    let Some((draws, seed)) = arguments(std::env::args().skip(1)) else {
        eprintln!("usage: compare [--draws N] [--seed S]");
        return ExitCode::from(2);
    };
    rust::silence_caught_panics();
    let start = Instant::now();
    let rows = compare_all(seed, draws);
    let mut equal = Vec::new();
    for (operation, result) in rows {
        match result {
            Ok(counts) => equal.push((operation.name, counts)),
            Err(difference) => {
                println!("{difference}");
                return ExitCode::FAILURE;
            }
        }
    }
    counts::print_table(&equal);
    println!(
        "no difference; seed {seed}, {draws} draws for each function, {} s",
        start.elapsed().as_secs()
    );
    ExitCode::SUCCESS
}

type Row = (&'static Operation, Result<Counts, Difference>);

/// Compares the operations, as many at a time as there are processors; no new one is begun after a
/// difference. The rows are in the order of the operations.
fn compare_all(seed: u64, draws: u64) -> Vec<Row> {
    let operations: Vec<_> = operations::all().collect();
    let next = AtomicUsize::new(0);
    let differs = AtomicBool::new(false);
    let rows = Mutex::new(Vec::new());
    let work = || {
        while !differs.load(Ordering::Relaxed) {
            let place = next.fetch_add(1, Ordering::Relaxed);
            let Some(&operation) = operations.get(place) else {
                break;
            };
            let result = comparison::compare(operation, seed, draws);
            if result.is_err() {
                differs.store(true, Ordering::Relaxed);
            }
            rows.lock().unwrap().push((place, operation, result));
        }
    };
    let threads = thread::available_parallelism().map_or(1, |n| n.get());
    thread::scope(|scope| {
        for _ in 0..threads {
            scope.spawn(work);
        }
    });
    let mut rows = rows.into_inner().unwrap();
    rows.sort_by_key(|&(place, _, _)| place);
    rows.into_iter()
        .map(|(_, operation, result)| (operation, result))
        .collect()
}

/// The draws and the seed, unless the words are not understood.
fn arguments(mut words: impl Iterator<Item = String>) -> Option<(u64, u64)> {
    let (mut draws, mut seed) = (DEFAULT_DRAWS, DEFAULT_SEED);
    while let Some(word) = words.next() {
        let value = number(&words.next()?)?;
        match word.as_str() {
            "--draws" => draws = value,
            "--seed" => seed = value,
            _ => return None,
        }
    }
    Some((draws, seed))
}

fn number(word: &str) -> Option<u64> {
    match word.strip_prefix("0x") {
        Some(digits) => u64::from_str_radix(digits, 16).ok(),
        None => word.parse().ok(),
    }
}
