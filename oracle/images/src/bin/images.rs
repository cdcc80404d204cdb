//! images PROGRAM [COUNT [SEED]]: the program against the reference, on generated standard inputs.
//!
//! COUNT is the number of cases of each family, SEED the seed (both decimal). Ends with status 1 at
//! a difference, and leaves the input and both outputs in files.

use std::path::{Path, PathBuf};
use std::process::ExitCode;
use std::sync::atomic::{AtomicBool, AtomicU64, Ordering};
use std::sync::Mutex;
use std::thread;
use std::time::Instant;
use std::{env, fs, io};

use generator::Generator;
use images::generate::{Family, FAMILIES};
use images::program;
use images::reference::runs;
use images::tally::Tally;
use images::width::Width;

const DEFAULT_COUNT: u64 = 400;
const DEFAULT_SEED: u64 = 1;

fn main() -> ExitCode {
    let Some((program, count, seed)) = arguments(env::args().skip(1).collect()) else {
        eprintln!("usage: images PROGRAM [COUNT [SEED]]");
        return ExitCode::from(2);
    };
    let start = Instant::now();
    let mut total = Tally::default();
    for family in FAMILIES {
        let (tally, difference) = compare(&program, family, count, seed);
        println!("{}", tally.summary(family.name));
        if let Some(difference) = difference {
            report(&difference);
            return ExitCode::FAILURE;
        }
        total.add(&tally);
    }
    println!("{}", total.summary("all"));
    let seconds = start.elapsed().as_secs_f64();
    println!("no difference; seed {seed}, {count} cases of each family, {seconds:.1} s");
    ExitCode::SUCCESS
}

/// An input on which the program prints something else, or does something else.
struct Difference {
    family: &'static str,
    index: u64,
    input: Vec<u8>,
    cuts: Vec<usize>,
    expected: String,
    answer: Result<String, String>,
}

/// What was compared, and the difference if there is one.
type Compared = (Tally, Option<Box<Difference>>);

/// Asks all cases of a family, more at a time than there are processors, since a program that reads
/// pieces waits. No new one is begun after a difference; the one of the lowest index counts.
fn compare(program: &Path, family: &Family, count: u64, seed: u64) -> Compared {
    let next = AtomicU64::new(0);
    let differs = AtomicBool::new(false);
    let result = Mutex::new((Tally::default(), Vec::new()));
    let work = || {
        while !differs.load(Ordering::Relaxed) {
            let index = next.fetch_add(1, Ordering::Relaxed);
            if index >= count {
                break;
            }
            let compared = compare_one(program, family, index, seed);
            let (tally, differences) = &mut *result.lock().unwrap();
            match compared {
                Ok(output) => tally.count(&output),
                Err(difference) => {
                    differs.store(true, Ordering::Relaxed);
                    differences.push(difference);
                }
            }
        }
    };
    let threads = 2 * thread::available_parallelism().map_or(1, |n| n.get());
    thread::scope(|scope| {
        for _ in 0..threads {
            scope.spawn(work);
        }
    });
    let (tally, differences) = result.into_inner().unwrap();
    (tally, differences.into_iter().min_by_key(|d| d.index))
}

fn compare_one(
    program: &Path,
    family: &Family,
    index: u64,
    seed: u64,
) -> Result<String, Box<Difference>> {
    let input = family.case(Width::Bits48, seed, index).input();
    let cuts = cuts(input.len(), index);
    let expected = runs::output(&input);
    let answer = program::ask(program, &input, &cuts);
    if answer.as_ref() == Ok(&expected) {
        return Ok(expected);
    }
    Err(Box::new(Difference {
        family: family.name,
        index,
        input,
        cuts,
        expected,
        answer,
    }))
}

/// Every fourth input is written in pieces, cut in the header, in words and between them.
fn cuts(length: usize, index: u64) -> Vec<usize> {
    if index % 4 != 3 || length == 0 {
        return Vec::new();
    }
    let mut generator = Generator::new(index);
    let header = generator.below(22) as usize;
    let places = [0; 3].map(|_| generator.below(length as u64) as usize);
    let mut cuts: Vec<_> = places.into_iter().chain([header.min(length)]).collect();
    cuts.sort();
    cuts
}

/// Outputs of up to so many lines are printed whole.
const PRINTED: usize = 60;

fn report(difference: &Difference) {
    let Difference { family, index, .. } = difference;
    println!("difference: {family}, case {index}");
    println!("  written in pieces up to {:?}", difference.cuts);
    let answer = match &difference.answer {
        Ok(output) => output,
        Err(trouble) => {
            println!("  the program gave no output to compare: {trouble}");
            ""
        }
    };
    let (expected, answered) = (&difference.expected, answer);
    let mut lines = expected.lines().zip(answered.lines());
    let equal = lines.by_ref().take_while(|(one, other)| one == other);
    let place = equal.count();
    println!("  the first line that differs is line {}", place + 1);
    for (side, text) in [("reference", expected.as_str()), ("program", answered)] {
        let line = text.lines().nth(place).unwrap_or("(nothing)");
        println!("  {side:10} {line}");
    }
    for (side, text) in [("reference", expected.as_str()), ("program", answered)] {
        match text.lines().count() <= PRINTED {
            true => print!("the {side}'s whole output:\n{text}"),
            false => println!("the {side}'s output has {} lines", text.lines().count()),
        }
    }
    if let Err(error) = leave(difference, answered) {
        println!("the files could not be written: {error}");
    }
}

/// Writes the input and both outputs to files, and says where.
fn leave(difference: &Difference, answered: &str) -> io::Result<()> {
    let name = format!("images-{}-{}", difference.family, difference.index);
    let files = [
        ("image", difference.input.as_slice()),
        ("reference.txt", difference.expected.as_bytes()),
        ("program.txt", answered.as_bytes()),
    ];
    for (ending, content) in files {
        let place = env::temp_dir().join(format!("{name}.{ending}"));
        fs::write(&place, content)?;
        println!("{}", place.display());
    }
    Ok(())
}

/// The program, the count and the seed, unless the words are not understood.
fn arguments(words: Vec<String>) -> Option<(PathBuf, u64, u64)> {
    let number = |place: usize, default| match words.get(place) {
        Some(word) => word.parse().ok(),
        None => Some(default),
    };
    let program = words.first()?.into();
    (words.len() <= 3).then_some((program, number(1, DEFAULT_COUNT)?, number(2, DEFAULT_SEED)?))
}
