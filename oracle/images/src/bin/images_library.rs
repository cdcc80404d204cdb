//! images_library [COUNT [SEED]]: the port's functions on images against the reference, at both
//! widths.
//!
//! COUNT is the number of cases of each family at each width, SEED the seed (both decimal). Ends with
//! status 1 at a difference, and leaves the image in a file.

use std::process::ExitCode;
use std::sync::atomic::{AtomicUsize, Ordering};
use std::sync::mpsc::{self, RecvTimeoutError};
use std::sync::Mutex;
use std::time::{Duration, Instant};
use std::{env, fs, thread};

use generator::Generator;
use images::generate::{Case, Family, FAMILIES};
use images::image::Image;
use images::library::{self, Difference};
use images::port::PORT;
use images::width::Width;

const DEFAULT_COUNT: u64 = 400;
const DEFAULT_SEED: u64 = 1;

fn main() -> ExitCode {
    let words: Vec<_> = env::args().skip(1).collect();
    let number = |place: usize, default| match words.get(place) {
        Some(word) => word.parse().ok(),
        None => Some(default),
    };
    let (Some(count), Some(seed)) = (number(0, DEFAULT_COUNT), number(1, DEFAULT_SEED)) else {
        eprintln!("usage: images_library [COUNT [SEED]]");
        return ExitCode::from(2);
    };
    let start = Instant::now();
    for width in Width::ALL {
        let mut all = 0;
        for (family, result) in FAMILIES.iter().zip(compare_all(width, count, seed)) {
            let questions = match result {
                Ok(questions) => questions,
                Err(found) => {
                    report(family, &found);
                    return ExitCode::FAILURE;
                }
            };
            summary(family.name, questions, width);
            all += questions;
        }
        summary("all", all, width);
    }
    let seconds = start.elapsed().as_secs_f64();
    println!("no difference; seed {seed}, {count} cases of each family, {seconds:.1} s");
    ExitCode::SUCCESS
}

fn summary(name: &str, questions: u64, width: Width) {
    println!(
        "{name:16}{questions:>10} questions at {} bits",
        width.bits()
    );
}

/// A difference with the index of its case and the image.
struct Found {
    index: u64,
    image: Image,
    difference: Difference,
}

type Compared = Result<u64, Found>;

/// Compares the families at a width, as many at a time as there are processors. The results are in
/// their order.
fn compare_all(width: Width, count: u64, seed: u64) -> Vec<Compared> {
    let next = AtomicUsize::new(0);
    let results = Mutex::new(Vec::new());
    let work = || loop {
        let place = next.fetch_add(1, Ordering::Relaxed);
        let Some(family) = FAMILIES.get(place) else {
            break;
        };
        let result = compare(family, width, count, seed);
        results.lock().unwrap().push((place, result));
    };
    let threads = thread::available_parallelism().map_or(1, |n| n.get());
    thread::scope(|scope| {
        for _ in 0..threads {
            scope.spawn(work);
        }
    });
    let mut results = results.into_inner().unwrap();
    results.sort_by_key(|&(place, _)| place);
    results.into_iter().map(|(_, result)| result).collect()
}

/// How many questions were asked, unless there is a difference.
fn compare(family: &Family, width: Width, count: u64, seed: u64) -> Compared {
    let mut questions = 0;
    for index in 0..count {
        let Case::Image(image) = family.case(width, seed, index) else {
            continue;
        };
        match compare_one(&image, index) {
            Ok(asked) => questions += asked,
            Err(difference) => {
                return Err(Found {
                    index,
                    image,
                    difference,
                })
            }
        }
    }
    Ok(questions)
}

/// How long a case may take, on a machine that has other work too. It would hang the run if a function
/// did not end.
const TIME: Duration = Duration::from_secs(300);

fn compare_one(image: &Image, index: u64) -> Result<u64, Difference> {
    let (sender, receiver) = mpsc::channel();
    let own = image.clone();
    thread::spawn(move || {
        let compared = library::compare(PORT, &own, &mut Generator::new(index));
        // Nobody hears it after the time is over.
        let _ = sender.send(compared);
    });
    let trouble = match receiver.recv_timeout(TIME) {
        Ok(compared) => return compared,
        Err(RecvTimeoutError::Timeout) => format!("no end within {} s", TIME.as_secs()),
        Err(RecvTimeoutError::Disconnected) => "the comparison failed".into(),
    };
    Err(Difference {
        function: "a call, from",
        width: image.width.bits(),
        place: 0,
        reference: "an answer".into(),
        library: trouble,
    })
}

fn report(family: &Family, found: &Found) {
    let (name, index, bits) = (family.name, found.index, found.image.width.bits());
    println!(
        "{}\nin {name}, case {index} at {bits} bits",
        found.difference
    );
    let place = env::temp_dir().join(format!("images-{name}-{bits}-{index}.image"));
    match fs::write(&place, found.image.file()) {
        Ok(()) => println!("{}", place.display()),
        Err(error) => println!("the image could not be written: {error}"),
    }
}
