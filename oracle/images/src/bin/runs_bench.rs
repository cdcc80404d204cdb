//! runs_bench PROGRAM: how long the program `runs` takes, from its start to its end, for the images
//! of `worst.rs`.

use std::fs::File;
use std::io;
use std::path::{Path, PathBuf};
use std::process::{Command, ExitCode, Stdio};
use std::time::Instant;
use std::{env, fs};

use images::program;
use images::width::Width;
use images::worst::{self, Worst};

/// How often the program is run for an image.
const RUNS: usize = 41;

fn main() -> ExitCode {
    let Some(program) = env::args_os().nth(1).map(PathBuf::from) else {
        eprintln!("usage: runs_bench PROGRAM");
        return ExitCode::from(2);
    };
    println!("{:16}{:>9}{:>9}{:>9}", "ms", "lines", "best", "median");
    for worst in worst::all(Width::Bits48) {
        match times(&program, &worst) {
            Ok((lines, times)) => {
                let (best, median) = (times[0], times[RUNS / 2]);
                println!("{:16}{lines:>9}{best:>9.2}{median:>9.2}", worst.name);
            }
            Err(trouble) => {
                println!("{}: {trouble}", worst.name);
                return ExitCode::FAILURE;
            }
        }
    }
    ExitCode::SUCCESS
}

/// How many lines the program prints, and the milliseconds of each run, the shortest first.
fn times(program: &Path, worst: &Worst) -> Result<(usize, Vec<f64>), String> {
    let input = worst.image.file();
    let lines = program::ask(program, &input, &[])?.lines().count();
    let file = env::temp_dir().join(format!("runs_bench-{}.image", worst.name));
    let times = fs::write(&file, input).and_then(|()| {
        let times = (0..RUNS).map(|_| time(program, &file));
        times.collect::<io::Result<Vec<_>>>()
    });
    // What is left there harms nobody.
    let _ = fs::remove_file(&file);
    let mut times = times.map_err(|error| error.to_string())?;
    times.sort_by(f64::total_cmp);
    Ok((lines, times))
}

fn time(program: &Path, file: &Path) -> io::Result<f64> {
    let mut command = Command::new(program);
    command.stdin(File::open(file)?).stdout(Stdio::null());
    let start = Instant::now();
    command.status()?;
    Ok(start.elapsed().as_secs_f64() * 1e3)
}
